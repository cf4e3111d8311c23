// What the runs cover, counted: the reading rules with their cases, the sanitiser's arms in their states, the answers of each call by refusal, and
// the kinds in the lists. Built only beside the counted copy of the Rust (`--cfg counted`, tools/coverage).
// What can be had must have been had, what cannot must not: else it is named, and the program ends with status 1.
use crate::places::arms::{ARMS, STATES};
use crate::places::rules::{KNOWN_RUNS, KNOWN_WORDS, NOT_RECOGNISED, SCANS, TOKENS};
use crate::places::{self, How};
use crate::tokens::{self, kind};
use sql_lexer::counted::{self, add};
use sql_lexer::Token;
use std::sync::atomic::{AtomicU64, Ordering::Relaxed};

const KINDS: usize = kind::UNKNOWN as usize + 1;
const REFUSALS: [&str; 8] =
    ["answered", "1 TextTooLong", "2 NotUtf8", "3 NoRoomTokens", "4 BadCount", "5 BadToken", "6 CutChar", "7 NoRoomOut"];

// The lists whose kinds are counted: those that the Rust reads, and those that its sanitiser and its writer are given.
#[derive(Clone, Copy)]
pub enum Lists {
    Read,
    Sanitized,
    Written,
}

// The calls, and the refusals that document 01 has each give.
#[derive(Clone, Copy)]
pub enum Call {
    Lex,
    Sanitize,
    Write,
    SanitizeString,
}
const CALLS: [(&str, &[usize]); 4] =
    [("lex", &[1, 2, 3]), ("sanitize", &[4, 5]), ("write", &[1, 2, 4, 5, 6, 7]), ("sanitize_string", &[1, 2, 3, 7])];

static LISTS: [[AtomicU64; KINDS]; 3] = [const { [const { AtomicU64::new(0) }; KINDS] }; 3];
static IN_STATE: [[AtomicU64; STATES.len()]; KINDS] = [const { [const { AtomicU64::new(0) }; STATES.len()] }; KINDS];
static ANSWERS: [[AtomicU64; REFUSALS.len()]; 4] = [const { [const { AtomicU64::new(0) }; REFUSALS.len()] }; 4];

// The number of a token's kind.
fn kind_of(token: &Token) -> usize {
    tokens::words(token)[0] as usize
}

// Before the first run.
pub fn start() {
    counted::TOKEN.set(|token, state| add(&IN_STATE[kind_of(token)][state])).expect("started once");
}

// Counts the kinds of a list.
pub fn list(lists: Lists, tokens: &[Token]) {
    tokens.iter().for_each(|token| add(&LISTS[lists as usize][kind_of(token)]));
}

// Counts an answer: a refusal by its number, or 0.
pub fn answer(call: Call, refusal: u64) {
    add(&ANSWERS[call as usize][refusal as usize]);
}

// A place of the Rust's source and its count.
struct Counted {
    of: &'static str,
    case: String,
    head: bool,
    count: u64,
}

// All places that have a counter of their own.
fn places() -> Vec<Counted> {
    let places: Vec<_> = places::files().into_iter().flat_map(|(_, places)| places).collect();
    assert!(places.len() <= counted::PLACES.len());
    let counted = places.into_iter().zip(&counted::PLACES).filter(|(place, _)| !matches!(place.how, How::InState(_) | How::Line(_)));
    counted.map(|(place, count)| Counted { of: place.of, case: place.case, head: place.head, count: count.load(Relaxed) }).collect()
}

// The sum of some counts.
fn sum(places: &[Counted], which: impl Fn(&Counted) -> bool) -> u64 {
    places.iter().filter(|place| which(place)).map(|place| place.count).sum()
}

// A count with a comma before each three digits.
fn shown(count: u64) -> String {
    let digits = count.to_string();
    let mut text = String::new();
    for (at, digit) in digits.chars().enumerate() {
        if at > 0 && (digits.len() - at) % 3 == 0 {
            text.push(',');
        }
        text.push(digit);
    }
    text
}

// How many counts were looked at, and what is not as it must be.
struct Checks {
    can: u64,
    cannot: u64,
    sums: u64,
    wrong: Vec<String>,
}

impl Checks {
    // A count that must be above 0, or must be 0, as a cell of a table.
    fn cell(&mut self, count: u64, can: bool, what: impl FnOnce() -> String) -> String {
        self.can += u64::from(can);
        self.cannot += u64::from(!can);
        match (can, count) {
            (true, 0) => self.wrong.push(format!("MISSING: {}", what())),
            (false, 1..) => self.wrong.push(format!("NOT TO BE HAD, yet counted {} times: {}", shown(count), what())),
            _ => {}
        }
        if can || count > 0 { shown(count) } else { String::new() }
    }

    // Two sums that must be the same.
    fn equal(&mut self, what: &str, one: u64, other: u64) {
        self.sums += 1;
        if one != other {
            self.wrong.push(format!("MISCOUNTED: {what}: {} and {}", shown(one), shown(other)));
        }
    }
}

// A line of a table.
fn row(cells: &[String]) {
    println!("| {} |", cells.join(" | "));
}

// The names of a table's columns, and the line below them.
fn titles(cells: &[&str]) {
    row(&cells.iter().map(|cell| cell.to_string()).collect::<Vec<_>>());
    println!("|{}", "---|".repeat(cells.len()));
}

// The cases of a rule or of an arm, with their counts.
fn cases(checks: &mut Checks, places: &[Counted], of: &str) -> String {
    let whose = if of.starts_with("arm") { "" } else { "rule " };
    let cases = places.iter().filter(|place| place.of == of);
    let cell = |place: &Counted| format!("{} {}", place.case, checks.cell(place.count, true, || format!("{whose}{of}: {}", place.case)));
    cases.map(cell).collect::<Vec<_>>().join("; ")
}

// The reading rules, with the known runs and words by themselves.
fn rules(checks: &mut Checks, places: &[Counted]) {
    titles(&["reading rule", "taken", "cases"]);
    for rule in ["1", "2", "3", "4", "5", "6", "7", KNOWN_RUNS, "8", "9", KNOWN_WORDS, "10", "11", SCANS] {
        let heads = sum(places, |place| place.of == rule && (place.head || [KNOWN_RUNS, KNOWN_WORDS, SCANS].contains(&rule)));
        row(&[rule.to_string(), shown(heads), cases(checks, places, rule)]);
    }
    println!();
}

// The arms by state, then the choices inside.
fn arms(checks: &mut Checks, places: &[Counted]) {
    titles(&[&["arm", "kinds, and what it does"], &STATES[..]].concat());
    for (number, ((name, _, states), counts)) in (1..).zip(ARMS.iter().zip(&counted::ARMS)) {
        let mut cells = vec![number.to_string(), name.to_string()];
        for (state, count) in STATES.iter().zip(counts) {
            cells.push(checks.cell(count.load(Relaxed), states.has(state), || format!("arm {number}, {name}, in {state}")));
        }
        row(&cells);
    }
    println!();
    titles(&["arm", "choices inside"]);
    for number in [23, 27, 28, 29] {
        row(&[number.to_string(), cases(checks, places, &format!("arm {number}"))]);
    }
    println!();
}

// A kind by the Rust's name for it.
fn kind_name(kind: u32) -> String {
    let name = format!("{:?}", tokens::token(kind, 0, 0)).replace("BufferSlice { start: 0, end: 0 }", "").replace("'\\0'", "");
    name.replace("LiteralValueTypeIndicator", "Indicator").replace('(', " ").replace(')', "").trim().to_string()
}

// Every kind in every state, of which only the one with the fewest is printed.
fn kinds_in_states(checks: &mut Checks) {
    let mut fewest = (u64::MAX, String::new());
    for (kind, counts) in (0..).zip(&IN_STATE) {
        for (state, count) in STATES.iter().zip(counts) {
            let what = format!("{} in {state}", kind_name(kind));
            checks.cell(count.load(Relaxed), true, || what.clone());
            fewest = fewest.min((count.load(Relaxed), what));
        }
    }
    println!("each of the {KINDS} kinds in each of the {} states of the sanitiser, the fewest: {}, {}\n", STATES.len(), fewest.1, shown(fewest.0));
}

// The answers by call and refusal.
fn answers(checks: &mut Checks) {
    titles(&[&["call"], &REFUSALS[..]].concat());
    for ((call, refusals), counts) in CALLS.iter().zip(&ANSWERS) {
        let mut cells = vec![call.to_string()];
        for (refusal, count) in counts.iter().enumerate() {
            let can = refusal == 0 || refusals.contains(&refusal);
            cells.push(checks.cell(count.load(Relaxed), can, || format!("{call}: {}", REFUSALS[refusal])));
        }
        row(&cells);
    }
    println!();
}

// The kinds by list. None and Ellipsis are the sanitiser's own: no text is read as one of them.
fn kinds(checks: &mut Checks) {
    titles(&["kind", "name", "read", "given to the sanitiser", "given to the writer"]);
    for kind in 0..=kind::UNKNOWN {
        let name = kind_name(kind);
        let mut cells = vec![kind.to_string(), name.clone()];
        for (lists, title) in [(Lists::Read, "read"), (Lists::Sanitized, "given to the sanitiser"), (Lists::Written, "given to the writer")] {
            let can = !matches!((lists, kind), (Lists::Read, kind::NONE | kind::ELLIPSIS));
            let count = LISTS[lists as usize][kind as usize].load(Relaxed);
            cells.push(checks.cell(count, can, || format!("kind {kind}, {name}, in a list {title}")));
        }
        row(&cells);
    }
    println!();
}

// What holds if each counter counts its arm, and once: what was begun is what came of it.
fn sums(checks: &mut Checks, places: &[Counted]) {
    let heads = |of: &str| sum(places, |place| place.of == of && place.head);
    let of = |of: &str| sum(places, |place| place.of == of);
    let case = |of: &str, case: &str| sum(places, |place| place.of == of && place.case == case);
    let stopped = case("7", NOT_RECOGNISED);
    checks.equal("tokens begun and read", sum(places, |place| place.head), of(TOKENS) + stopped);
    checks.equal("rule 1, closed or not", heads("1"), case("1", "closed") + case("1", "unclosed"));
    checks.equal("rules 2, 3, 5, 7 to 10, and the ends of scans", ["2", "3", "5", "7", "8", "9", "10"].map(heads).iter().sum(), of(SCANS));
    checks.equal("rule 7, recognised or not", heads("7"), of(KNOWN_RUNS) + stopped);
    checks.equal("rule 9, known or not", heads("9"), of(KNOWN_WORDS) + case("9", "Other"));
    checks.equal("rule 10, by kind", heads("10"), ["ZeroX", "ZeroB", "Numeric"].map(|kind| case("10", kind)).iter().sum());
    for (at, state) in STATES.iter().enumerate() {
        let in_state = |counts: &[AtomicU64; STATES.len()]| counts[at].load(Relaxed);
        let (arms, tokens) = (counted::ARMS.iter().map(in_state).sum(), IN_STATE.iter().map(in_state).sum());
        checks.equal(&format!("arms taken and tokens looked at in {state}"), arms, tokens);
    }
}

// Prints the tables, and hands on how many counts are not as they must be.
pub fn report() -> u64 {
    let mut checks = Checks { can: 0, cannot: 0, sums: 0, wrong: Vec::new() };
    let places = places();
    println!();
    rules(&mut checks, &places);
    arms(&mut checks, &places);
    kinds_in_states(&mut checks);
    answers(&mut checks);
    kinds(&mut checks);
    sums(&mut checks, &places);
    checks.wrong.iter().for_each(|wrong| println!("coverage: {wrong}"));
    println!(
        "coverage: {} counts that must be above 0, {} that must be 0, {} sums: {} not as they must be",
        shown(checks.can),
        checks.cannot,
        checks.sums,
        checks.wrong.len()
    );
    checks.wrong.len() as u64
}
