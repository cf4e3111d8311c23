// Hayrumble for Rust: the shape of an SQL statement, and the three stages that make it, behind safe functions. One file to copy.
//
// Link with libsql_lexer_c.a: `tools/archive sql_lexer_c` prints its folder, and rustc takes `-L native=FOLDER -l static=sql_lexer_c`.
// Every call answers on every input, reads and writes only what is lent to it, keeps no state and allocates nothing; `shape` alone allocates.
// A slot is three words: the kind's number (`kind`) and two words that go with it. As many slots as the text has bytes always suffice.
// For editions 2021 and 2024, rustc 1.82 or newer.

/// An answer. Refusal 0: answered, and the numbers that the call has are set. Else why it was refused, and its detail:
/// 1 the text is over 1,048,576 bytes (its length), 2 it is not valid UTF-8 (the offset of the first bad byte), 3 fewer whole slots than tokens
/// (the tokens), 4 a count over 1,048,576 or over the whole slots (the whole slots), 5 a slot that is not well formed (its place), 6 a slice that
/// starts or ends inside a character (its place), 7 a text longer than the output (the bytes needed). A refusal changes no buffer, except 7 of
/// `sanitize_string`: the tokens are then sanitised in their slots. Numbers that an answer does not have are 0.
#[repr(C)]
#[derive(PartialEq, Eq, Debug, Clone, Copy, Default)]
pub struct Answer {
    pub refusal: u64,
    pub detail: u64,
    pub tokens: u64,
    pub stop: u64,
    pub exposed: u64,
    pub length: u64,
}

/// The longest text that is not refused, in bytes.
pub const LIMIT: usize = 1_048_576;

// An answer of more than two words is written through a pointer that goes before the other arguments, as on x86-64. It is declared so and not
// as a value returned, since the same module compiled for another processor (tools/archive) keeps that order.
// What include/hayrumble.h asks of a caller, references and slices keep to by themselves.
unsafe extern "C" {
    fn hay_lex(answer: *mut Answer, text: *const u8, text_len: usize, slots: *mut u32, words: usize);
    fn hay_sanitize(answer: *mut Answer, slots: *mut u32, words: usize, count: usize);
    fn hay_write(answer: *mut Answer, text: *const u8, text_len: usize, slots: *const u32, words: usize, count: usize, out: *mut u8, out_len: usize);
    fn hay_sanitize_string(answer: *mut Answer, text: *const u8, text_len: usize, slots: *mut u32, words: usize, out: *mut u8, out_len: usize);
}

/// Reads a statement into slots: `tokens`, and `stop`, the text's length or where an unrecognised run of operators starts.
pub fn lex(text: &[u8], slots: &mut [u32]) -> Answer {
    let mut answer = Answer::default();
    unsafe { hay_lex(&mut answer, text.as_ptr(), text.len(), slots.as_mut_ptr(), slots.len()) };
    answer
}

/// Sanitises the first `count` slots: `exposed`, the quoted texts and numbers that are left.
pub fn sanitize(slots: &mut [u32], count: usize) -> Answer {
    let mut answer = Answer::default();
    unsafe { hay_sanitize(&mut answer, slots.as_mut_ptr(), slots.len(), count) };
    answer
}

/// Writes the first `count` slots as text: `length`.
pub fn write(text: &[u8], slots: &[u32], count: usize, out: &mut [u8]) -> Answer {
    let mut answer = Answer::default();
    unsafe { hay_write(&mut answer, text.as_ptr(), text.len(), slots.as_ptr(), slots.len(), count, out.as_mut_ptr(), out.len()) };
    answer
}

/// The shape of a statement, the three in one: `tokens`, `stop`, `exposed` and `length`.
pub fn sanitize_string(text: &[u8], slots: &mut [u32], out: &mut [u8]) -> Answer {
    let mut answer = Answer::default();
    unsafe { hay_sanitize_string(&mut answer, text.as_ptr(), text.len(), slots.as_mut_ptr(), slots.len(), out.as_mut_ptr(), out.len()) };
    answer
}

/// The shape of a statement in memory of its own, and the answer; or the refusal, which is 1 or 2.
pub fn shape(statement: &[u8]) -> Result<(Vec<u8>, Answer), Answer> {
    // a token takes a byte or more; a shape longer than its statement is rare, and refusal 7 tells its length
    let most = statement.len().min(LIMIT);
    let mut slots = vec![0; most * 3];
    let mut out = vec![0; most];
    let mut answer = sanitize_string(statement, &mut slots, &mut out);
    if answer.refusal == 7 {
        out = vec![0; answer.detail as usize];
        answer = sanitize_string(statement, &mut slots, &mut out);
    }
    if answer.refusal != 0 {
        return Err(answer);
    }
    out.truncate(answer.length as usize);
    Ok((out, answer))
}

/// The kinds of tokens. `OTHER` and `CHARSET` to `NUMBERED_PLACEHOLDER` carry the byte offsets at which their text starts and ends, `UNKNOWN` its
/// character and 0, all others 0 and 0.
pub mod kind {
    // blanked by the sanitiser
    pub const NONE: u32 = 0;
    // single characters
    pub const SPACE: u32 = 1;
    pub const NEWLINE: u32 = 2;
    pub const DOT: u32 = 3;
    pub const COMMA: u32 = 4;
    pub const WILDCARD: u32 = 5;
    pub const PARENTHESE_OPEN: u32 = 6;
    pub const PARENTHESE_CLOSE: u32 = 7;
    pub const SQUARE_BRACKET_OPEN: u32 = 8;
    pub const SQUARE_BRACKET_CLOSE: u32 = 9;
    pub const COLON: u32 = 10;
    pub const SEMICOLON: u32 = 11;
    // put in by the sanitiser, and values that are words
    pub const PLACEHOLDER: u32 = 12;
    pub const ELLIPSIS: u32 = 13;
    pub const NULL: u32 = 14;
    pub const TRUE: u32 = 15;
    pub const FALSE: u32 = 16;
    // operators: arithmetic
    pub const MULTIPLY: u32 = 17;
    pub const DIVIDE: u32 = 18;
    pub const MODULO: u32 = 19;
    pub const PLUS: u32 = 20;
    pub const MINUS: u32 = 21;
    // logical
    pub const IN: u32 = 22;
    pub const NOT: u32 = 23;
    pub const LIKE: u32 = 24;
    pub const ILIKE: u32 = 25;
    pub const RLIKE: u32 = 26;
    pub const GLOB: u32 = 27;
    pub const MATCH: u32 = 28;
    pub const REGEXP: u32 = 29;
    pub const THEN: u32 = 30;
    pub const ELSE: u32 = 31;
    // comparison
    pub const EQUAL: u32 = 32;
    pub const EQUAL2: u32 = 33;
    pub const NULL_SAFE_EQUAL: u32 = 34;
    pub const GREATER_THAN_OR_EQUAL: u32 = 35;
    pub const LESS_THAN_OR_EQUAL: u32 = 36;
    pub const EQUAL_OR_GREATER_THAN: u32 = 37;
    pub const EQUAL_OR_LESS_THAN: u32 = 38;
    pub const EQUAL_WITH_ARROWS: u32 = 39;
    pub const NOT_EQUAL: u32 = 40;
    pub const GREATER_THAN: u32 = 41;
    pub const LESS_THAN: u32 = 42;
    // bitwise, and those of JSON
    pub const LEFT_SHIFT: u32 = 43;
    pub const RIGHT_SHIFT: u32 = 44;
    pub const BITWISE_AND: u32 = 45;
    pub const BITWISE_OR: u32 = 46;
    pub const SPECIFIED_PATH: u32 = 47;
    pub const SPECIFIED_PATH_AS_TEXT: u32 = 48;
    // words
    pub const SELECT: u32 = 49;
    pub const FROM: u32 = 50;
    pub const WHERE: u32 = 51;
    pub const AND: u32 = 52;
    pub const OR: u32 = 53;
    pub const UPDATE: u32 = 54;
    pub const SET: u32 = 55;
    pub const INSERT: u32 = 56;
    pub const INTO: u32 = 57;
    pub const VALUES: u32 = 58;
    pub const INNER: u32 = 59;
    pub const JOIN: u32 = 60;
    pub const ON: u32 = 61;
    pub const LIMIT: u32 = 62;
    pub const OFFSET: u32 = 63;
    pub const BETWEEN: u32 = 64;
    pub const ARRAY: u32 = 65;
    // any other word: carries its offsets
    pub const OTHER: u32 = 66;
    // what may stand before a value
    pub const BINARY: u32 = 67;
    pub const DATE: u32 = 68;
    pub const TIME: u32 = 69;
    pub const TIMESTAMP: u32 = 70;
    pub const X: u32 = 71;
    pub const ZERO_X: u32 = 72;
    pub const B: u32 = 73;
    pub const ZERO_B: u32 = 74;
    pub const N: u32 = 75;
    // carry their offsets
    pub const CHARSET: u32 = 76;
    pub const BACKTICKED: u32 = 77;
    pub const DOUBLE_QUOTED: u32 = 78;
    pub const SINGLE_QUOTED: u32 = 79;
    pub const NUMERIC: u32 = 80;
    pub const COMMENT: u32 = 81;
    pub const NUMBERED_PLACEHOLDER: u32 = 82;
    // any other character: carries it
    pub const UNKNOWN: u32 = 83;
}
