// The reader against the Rust's: every token, the token count, the stop offset, the refusal and its detail, and every word of the slots,
// written or not.
//
// The Rust does not say where it stopped. The offset is worked out from its own tokens: each takes the bytes of its kind's text, of its
// slice, or of its character, and a quoted text its quotes; walked from 0 they end at the stop. Each slice must start where the walk is, and
// where the walk ends before the text does, one of the characters of rule 7 must stand there.
#[cfg(counted)]
use crate::coverage::{self, Call, Lists};
use crate::ours::{self, Answer};
use crate::random::Random;
use crate::report::{hex, Report};
use crate::tokens::{self, kind, WORDS};
use sql_lexer::Token;

const LIMIT: usize = 1_048_576;
const FILLER: u32 = 0xA5A5_A5A5;

// A member of every class and rule.
pub const EVERY: [char; 42] = [
    '`', '\'', '"', '\\', '#', '-', '/', '*', ' ', '\n', '\r', '.', ',', '(', ')', '[', ']', ':', ';', '?', '$', '%', '+', '=', '!', '>', '<', '&',
    '|', '_', 'a', 'X', 'b', 'n', '0', '7', '\t', 'é', '²', 'Ⅷ', '€', '😀',
];

// The bytes of each kind that carries nothing: those of the text that the Rust writes for it, which has the length of what it reads.
pub struct Widths([usize; kind::UNKNOWN as usize]);

impl Widths {
    pub fn new() -> Widths {
        let mut widths = [0; kind::UNKNOWN as usize];
        for kind in (0..kind::UNKNOWN).filter(|kind| !tokens::carries_offsets(*kind)) {
            let mut sql = sql_lexer::lex(String::new());
            sql.tokens = vec![tokens::token(kind, 0, 0)];
            widths[kind as usize] = sql_lexer::write(sql).len();
        }
        Widths(widths)
    }
}

// Where the Rust's reading stopped.
pub fn stop_of(widths: &Widths, text: &str, tokens: &[Token]) -> usize {
    let mut at = 0;
    for token in tokens {
        let [kind, first, second] = tokens::words(token);
        at = match kind {
            kind::CHARSET => {
                assert_eq!(first as usize, at + 1);
                second as usize
            }
            kind::BACKTICKED..=kind::SINGLE_QUOTED => {
                assert_eq!(first as usize, at + 1);
                second as usize + usize::from((second as usize) < text.len())
            }
            kind if tokens::carries_offsets(kind) => {
                assert_eq!(first as usize, at);
                second as usize
            }
            kind::UNKNOWN => at + char::from_u32(first).unwrap().len_utf8(),
            kind => at + widths.0[kind as usize],
        };
    }
    assert!(at == text.len() || b"=!><&|#".contains(&text.as_bytes()[at]), "no run at {at} of {text:?}");
    at
}

fn refused(refusal: u64, detail: usize) -> Answer {
    Answer { refusal, detail: detail as u64, ..Answer::default() }
}

// What document 01 has us answer, and what the slots hold then, by the Rust's own reader.
pub fn expected(widths: &Widths, text: &[u8], words: usize) -> (Answer, Vec<u32>) {
    let mut slots = vec![FILLER; words];
    if text.len() > LIMIT {
        return (refused(1, text.len()), slots);
    }
    let text = match std::str::from_utf8(text) {
        Ok(text) => text,
        Err(error) => return (refused(2, error.valid_up_to()), slots),
    };
    let read = sql_lexer::lex(text.to_string()).tokens;
    #[cfg(counted)]
    coverage::list(Lists::Read, &read);
    if read.len() > words / WORDS {
        return (refused(3, read.len()), slots);
    }
    let laid = tokens::slots(&read);
    slots[..laid.len()].copy_from_slice(&laid);
    (Answer { tokens: read.len() as u64, stop: stop_of(widths, text, &read) as u64, ..Answer::default() }, slots)
}

struct Run {
    widths: Widths,
    report: Report,
    seen: [u64; 4],
    stopped: u64,
    slots: Vec<u32>,
}

impl Run {
    fn compare(&mut self, text: &[u8], words: usize) -> usize {
        self.slots.clear();
        self.slots.resize(words, FILLER);
        let answer = ours::lex(text, &mut self.slots);
        let (rust, slots) = expected(&self.widths, text, words);
        self.seen[rust.refusal as usize] += 1;
        #[cfg(counted)]
        coverage::answer(Call::Lex, rust.refusal);
        self.stopped += u64::from(rust.refusal == 0 && (rust.stop as usize) < text.len());
        let ours = (answer, &self.slots);
        self.report.same(ours, (rust, &slots), || format!("{} words {words}", hex(&text[..text.len().min(60)])));
        rust.tokens as usize
    }

    // With as many slots as bytes, so that nothing is counted first; then with just enough, and with too few.
    fn compare_rooms(&mut self, text: &[u8]) {
        let needed = self.compare(text, (text.len() + 1) * WORDS) * WORDS;
        self.compare(text, needed);
        self.compare(text, needed + 2);
        if needed > 0 {
            self.compare(text, needed - 1);
        }
    }

    fn every_text(&mut self, alphabet: &[char], longest: usize) {
        let mut places = vec![0; longest];
        for length in 0..=longest {
            places[..length].fill(0);
            loop {
                let text: String = places[..length].iter().map(|&place: &usize| alphabet[place]).collect();
                self.compare(text.as_bytes(), (text.len() + 1) * WORDS);
                let Some(at) = (0..length).find(|&at| places[at] + 1 < alphabet.len()) else { break };
                places[..at].fill(0);
                places[at] += 1;
            }
        }
    }

    // Every scalar value: alone, in a word, after `$`, `-`, `_` and a digit, quoted, in a comment, before a word.
    fn every_scalar(&mut self, step: usize) {
        for c in ('\0'..=char::MAX).step_by(step) {
            for text in [
                format!("{c}"),
                format!("a{c}b"),
                format!("${c}1"),
                format!("-{c}"),
                format!("_{c}_"),
                format!("1{c}x"),
                format!("'{c}'"),
                format!("/*{c}*/{c}"),
                format!("--{c}\n{c}null"),
            ] {
                self.compare(text.as_bytes(), (text.len() + 1) * WORDS);
            }
        }
    }

    // The limits of the text: 1,048,576 bytes pass, one more does not.
    fn long_texts(&mut self) {
        for piece in ["x", " ", "'", "\\'", "é", "--", "1 = 2 ", "/*", "*/* ", "select ", "€", "(1,'a'),", "=", "<"] {
            for length in [LIMIT - 1, LIMIT, LIMIT + 1] {
                let mut text = piece.repeat(length / piece.len() + 1).into_bytes();
                text.truncate(length);
                let needed = self.compare(&text, (length + 1) * WORDS);
                self.compare(&text, needed * WORDS);
                self.compare(&text, 0);
            }
        }
    }
}

// A statement of words, quoted texts, numbers, operators and comments, as a client would send it, or nearly.
pub fn statement(random: &mut Random) -> Vec<u8> {
    const WORDS: [&str; 60] = [
        "select", "from", "where", "and", "or", "update", "set", "insert", "into", "values", "inner", "join", "on", "limit", "offset", "between",
        "array", "in", "not", "then", "else", "like", "ilike", "rlike", "glob", "match", "regexp", "binary", "date", "time", "timestamp", "x", "b",
        "n", "NULL", "TRUE", "FALSE", "table", "column", "selec", "selects", "fromage", "timestamps", "nulls", "in_", "a-b", "b1", "x-", "é", "naïve",
        "select²", "日本", "Ⅷ", "ſelect", "liKe", "_utf8", "_", "_é1", "$1", "$",
    ];
    const MARKS: [&str; 56] = [
        " ", " ", " ", " ", " ", "\n", "\r\n", "\t", ".", ",", ", ", "(", ")", "[", "]", ":", ";", "?", "*", "/", "%", "+", "-", "=", "==", "<=>",
        ">=", "<=", "=>", "=<", "<>", "!=", ">", "<", "<<", ">>", "&", "|", "#>", "#>>", "!", "&&", "||", "<=<", "::", "--", "-- note\n", "# note\n",
        "/*", "*/", "/* note */", "\\", "\u{a0}", "€", "😀", "'",
    ];
    const NUMBERS: [&str; 16] = ["0", "1", "42", "-1", "-.5", "1.5", "0x", "0X1F", "0b", "0B10", "1e5", "1x", "²", "-²", "0x-", "1.2.3"];
    const QUOTED: [&str; 12] = ["'a'", "'it''s'", "\"b\"", "`c`", "'\\''", "'\\\\'", "'é€'", "\"", "`a\\`b`", "''", "'a\\\\\\'b'", "'--'"];
    let mut text = String::new();
    for _ in 0..random.below(24) {
        match random.below(8) {
            0..=2 => {
                let word = random.pick(&WORDS);
                match random.below(3) {
                    0 => text.push_str(word),
                    1 => text.push_str(&word.to_uppercase()),
                    _ => text.extend(word.chars().map(|c| if random.below(2) == 0 { c.to_ascii_uppercase() } else { c })),
                }
            }
            3..=5 => text.push_str(random.pick(&MARKS)),
            6 => text.push_str(random.pick(&NUMBERS)),
            _ => text.push_str(random.pick(&QUOTED)),
        }
        if random.below(2) == 0 {
            text.push(' ');
        }
    }
    text.into_bytes()
}

pub fn run(full: bool, statements: u64, seed: u64) -> u64 {
    let mut run = Run { widths: Widths::new(), report: Report::new("lexer"), seen: [0; 4], stopped: 0, slots: Vec::new() };
    let (every, comments, operators, quotes, step) = if full { (4, 6, 6, 8, 1) } else { (3, 5, 5, 6, 17) };
    run.every_text(&EVERY, every);
    run.every_text(&['/', '*', '-', '#', '\n', '\r', '\'', 'a', '€'], comments);
    run.every_text(&['=', '!', '>', '<', '&', '|', '#'], operators);
    run.every_text(&['\'', '"', '\\', 'é', '`'], quotes);
    run.every_scalar(step);
    run.long_texts();
    let mut random = Random::new(seed);
    let mut text = Vec::new();
    for _ in 0..statements {
        let mut sql = statement(&mut random);
        run.compare_rooms(&sql);
        random.damage(&mut sql);
        run.compare_rooms(&sql);
        random.text(&mut text);
        run.compare_rooms(&text);
    }
    let [read, long, bad, room] = run.seen;
    println!("lexer: read {read}, of them {} stopped short, refused 1: {long}, 2: {bad}, 3: {room}", run.stopped);
    run.report.done("texts read with the Rust's reader and ours")
}
