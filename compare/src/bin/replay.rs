// Prints the calls that the program `replay` makes, and the Rust's answers to them; `tools/replay` builds and runs it.
//   replay stdin     crates/replay/stdin: the calls, one a line, of the form that crates/replay/src/main.rt describes
//   replay stdout    crates/replay/stdout: the answers
//   replay counts    what they cover; ends with status 1 where a refusal or a kind is met by no call
// The calls are chosen in compare/src/cases.rs, always the same (seed 0x5EED_0007). The Rust is that of tools/source.sha256, built in release by the
// rustc of docs/TOOLCHAIN.md. Tokens, sanitised lists and texts are the Rust's own; refusals, their details, the stop offset and the exposed count
// are document 01's, worked out from them by the functions that `tools/compare` uses too.
// The port is not linked: nothing that it answers can come into these files.
#[path = "../cases.rs"]
mod cases;
#[path = "frames.rs"]
#[allow(dead_code)]
mod frames;
#[path = "../lexer.rs"]
#[allow(dead_code)]
mod lexer;
#[path = "../one_call.rs"]
#[allow(dead_code)]
mod one_call;
// The comparing halves of these modules call the port. They are not run here, and the port is not linked: a call would not build.
#[path = "../../../include/hayrumble.rs"]
#[allow(dead_code)]
mod ours;
#[path = "../random.rs"]
#[allow(dead_code)]
mod random;
#[path = "../report.rs"]
#[allow(dead_code)]
mod report;
#[path = "../sanitizer.rs"]
#[allow(dead_code)]
mod sanitizer;
#[path = "../tokens.rs"]
#[allow(dead_code)]
mod tokens;
#[path = "../writer.rs"]
#[allow(dead_code)]
mod writer;

use cases::{Call, Case};
use frames::hex;
use lexer::Widths;
use ours::Answer;
use std::collections::BTreeSet;
use std::process::ExitCode;
use tokens::{kind, WORDS};

const LIMIT: usize = 1_048_576;
const WORD: u32 = 0xA5A5_A5A5;
const BYTE: u8 = 0xA5;

// What a call answers and leaves: the answer, the slots and the output.
struct Answered {
    answer: Answer,
    slots: Vec<u32>,
    out: Vec<u8>,
}

// The line of a call.
fn line(case: &Case) -> String {
    let mut bytes = vec![case.call as u8];
    for number in [case.words, case.given.len(), case.count, case.room, case.size] {
        bytes.extend((number as u32).to_be_bytes());
    }
    bytes.push(case.byte);
    case.given.iter().for_each(|word| bytes.extend(word.to_be_bytes()));
    bytes.extend(&case.own);
    hex(&bytes)
}

// The text of a call: the line's own, and the byte behind it.
fn text(case: &Case) -> Vec<u8> {
    let mut text = case.own.clone();
    text.resize(case.size.max(text.len()), case.byte);
    text
}

// Sanitising, by document 01's refusals 4 and 5 and the Rust's own sanitiser.
fn sanitized(mut slots: Vec<u32>, count: usize) -> (Answer, Vec<u32>) {
    let refused = |refusal, detail| Answer { refusal, detail: detail as u64, ..Answer::default() };
    let room = slots.len() / WORDS;
    if count > LIMIT || count > room {
        return (refused(4, room), slots);
    }
    let list = &slots[..count * WORDS];
    if let Some(place) = list.chunks_exact(WORDS).position(|slot| !writer::well_formed(slot)) {
        return (refused(5, place), slots);
    }
    let mut sql = sql_lexer::lex(String::new());
    sql.tokens = tokens::tokens(list);
    let sql = sql_lexer::sanitize(sql);
    slots[..count * WORDS].copy_from_slice(&tokens::slots(&sql.tokens));
    (Answer { exposed: sanitizer::exposed(&sql.tokens), ..Answer::default() }, slots)
}

// The answer to a call.
fn answered(widths: &Widths, case: &Case) -> Answered {
    let text = text(case);
    let mut slots = case.given.clone();
    slots.resize(case.words, WORD);
    let out = vec![BYTE; case.room];
    match case.call {
        Call::Lex => {
            let (answer, slots) = lexer::expected(widths, &text, case.words);
            Answered { answer, slots, out }
        }
        Call::Sanitize => {
            let (answer, slots) = sanitized(slots, case.count);
            Answered { answer, slots, out }
        }
        Call::Write => {
            let (answer, out) = writer::expected(&text, &slots, case.count, &out);
            Answered { answer, slots, out }
        }
        Call::SanitizeString => {
            let (answer, slots, out) = one_call::expected(&one_call::made(widths, &text), case.words, case.room);
            Answered { answer, slots, out }
        }
    }
}

// The line of an answer.
fn answer_line(answered: &Answered) -> String {
    let Answer { refusal, detail, tokens, stop, exposed, length } = answered.answer;
    let numbers: String = [refusal, detail, tokens, stop, exposed, length].iter().map(|number| format!("{number:08x}")).collect();
    let words: String = answered.slots.iter().map(|word| format!("{word:08x}")).collect();
    format!("{numbers} {words} {}", hex(&answered.out))
}

// What the calls cover.
#[derive(Default)]
struct Counts {
    lines: [usize; 5],
    refusals: [[usize; 8]; 5],
    kinds: [BTreeSet<u32>; 5],
    stopped: usize,
    exposed: usize,
    long: usize,
}

// By call: its name, the refusals that it has, and the kinds that it cannot meet: no text is read as None or Ellipsis.
const CALLS: [(Call, &str, &[usize], &[u32]); 4] = [
    (Call::Lex, "lex", &[0, 1, 2, 3], &[kind::NONE, kind::ELLIPSIS]),
    (Call::Sanitize, "sanitize", &[0, 4, 5], &[]),
    (Call::Write, "write", &[0, 1, 2, 4, 5, 6, 7], &[]),
    (Call::SanitizeString, "sanitize_string", &[0, 1, 2, 3, 7], &[]),
];

impl Counts {
    fn count(&mut self, case: &Case, answered: &Answered) {
        let call = case.call as usize;
        let Answer { refusal, tokens, stop, exposed, .. } = answered.answer;
        self.lines[call] += 1;
        self.refusals[call][refusal as usize] += 1;
        self.long += usize::from(case.size >= LIMIT - 1);
        if refusal == 0 {
            self.stopped += usize::from(matches!(case.call, Call::Lex | Call::SanitizeString) && (stop as usize) < text(case).len());
            self.exposed += usize::from(exposed > 0);
            // the tokens read, those sanitised, as they were lent, and those written
            let (slots, count) = match case.call {
                Call::Lex | Call::SanitizeString => (&answered.slots, tokens as usize),
                Call::Sanitize | Call::Write => (&case.given, case.count),
            };
            self.kinds[call].extend(slots.chunks_exact(WORDS).take(count).map(|slot| slot[0]));
        }
    }

    // Prints the counts, and whether nothing is at 0 that a call can have.
    fn print(&self) -> bool {
        let mut whole = true;
        for (call, name, refusals, without) in CALLS {
            let call = call as usize;
            let by: Vec<String> = refusals.iter().map(|number| format!("{number}: {}", self.refusals[call][*number])).collect();
            whole &= refusals.iter().all(|number| self.refusals[call][*number] > 0);
            let seen = self.kinds[call].len();
            let all = kind::UNKNOWN as usize + 1 - without.len();
            whole &= seen == all;
            println!("replay: {name}: {} calls, refusals {} (0: answered), {seen} kinds of {all}", self.lines[call], by.join(", "));
        }
        let lines: usize = self.lines.iter().sum();
        println!("replay: {lines} calls, {} stopped short, {} with values left, {} of long texts", self.stopped, self.exposed, self.long);
        whole
    }
}

fn main() -> ExitCode {
    tokens::check();
    // the Rust's panics are answers here: refusal 6
    std::panic::set_hook(Box::new(|_| {}));
    let widths = Widths::new();
    let groups = cases::all(&widths);
    let cases: Vec<&Case> = groups.iter().flat_map(|(_, cases)| cases).collect();
    match std::env::args().nth(1).as_deref() {
        Some("stdin") => {
            cases.iter().for_each(|case| println!("{}", line(case)));
            cases::no_calls().iter().for_each(|line| println!("{line}"));
        }
        Some("stdout") => {
            cases.iter().for_each(|case| println!("{}", answer_line(&answered(&widths, case))));
            cases::no_calls().iter().for_each(|_| println!("no call"));
        }
        Some("counts") => {
            groups.iter().for_each(|(name, cases)| println!("replay: {name}: {}", cases.len()));
            let mut counts = Counts::default();
            cases.iter().for_each(|case| counts.count(case, &answered(&widths, case)));
            if !counts.print() {
                println!("replay: a refusal or a kind above is met by no call");
                return ExitCode::FAILURE;
            }
        }
        _ => {
            eprintln!("usage: replay stdin|stdout|counts");
            return ExitCode::from(2);
        }
    }
    ExitCode::SUCCESS
}
