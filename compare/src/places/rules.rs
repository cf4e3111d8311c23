// The places of lexer.rs, by document 01's reading rules.
use super::{also, arm, block, head, when, Place};

// The seventeen runs and the 37 words, in the order of the Rust's arms.
const RUNS: [&str; 17] = ["<=>", ">=", "<=", "=>", "=<", "<>", "!=", "==", "=", ">", "<", "<<", ">>", "&", "|", "#>", "#>>"];
const WORDS: [&str; 37] = [
    "select", "from", "where", "and", "or", "update", "set", "insert", "into", "values", "inner", "join", "on", "limit", "offset", "between", "array",
    "in", "not", "then", "else", "like", "ilike", "rlike", "glob", "match", "regexp", "binary", "date", "time", "timestamp", "x", "b", "n", "NULL",
    "TRUE", "FALSE",
];

pub const SCANS: &str = "2, 3, 5, 7-10";
pub const KNOWN_RUNS: &str = "7, known runs";
pub const KNOWN_WORDS: &str = "9, known words";
pub const TOKENS: &str = "all";
pub const NOT_RECOGNISED: &str = "not recognised: the reading ends";

// Where a line comment ended.
const AT_END: &str = "self.pos >= self.len";
const AT_LF: &str = "self.pos < self.len && self.char_at(self.pos) == '\\n'";
const AT_CR: &str = "self.pos < self.len && self.char_at(self.pos) == '\\r'";
const LINE_SCAN: &str = "self.scan_until(current_byte_offset, |_, c| c == '\\n' || c == '\\r');";

// Of lexer.rs, in its order: the two functions that scan, then the arms by rule.
pub fn lexer() -> Vec<Place> {
    [scans(), quotes(), comments(), singles(), arithmetic(), runs(), charset(), words(), numbers(), unknown()].into_iter().flatten().collect()
}

// The two functions that scan.
fn scans() -> Vec<Place> {
    vec![
        block(SCANS, "a scan to the end", "if self.pos >= self.len {"),
        block(SCANS, "a scan to a character that ends it", "if at_end_function(self, indice.1) {"),
        block("1", "unclosed", "if self.pos >= self.len {"),
        block("1", "closed", "if indice.1 == delimiter && escape_char_count % 2 == 0 {"),
        also("1", "closed after an even run of backslashes", "escape_char_count > 0"),
        block("1", "a backslash inside", "} else if indice.1 == '\\\\' {"),
        block("1", "another character inside", "} else {"),
        also("1", "a quote after an odd run of backslashes", "indice.1 == delimiter"),
    ]
}

// Rule 1.
fn quotes() -> Vec<Place> {
    vec![head("1", "backtick", "'`' =>"), head("1", "`'`", "'\\'' =>"), head("1", "`\"`", "'\"' =>")]
}

// Rules 2 and 3.
fn comments() -> Vec<Place> {
    vec![
        head("2", "`#`", "'#' if self.pos + 1 == self.len"),
        when("2", "`#` up to `\\n`", LINE_SCAN, AT_LF),
        also("2", "`#` up to `\\r`", AT_CR),
        also("2", "`#` to the end", AT_END),
        also("2", "`#` as the last character", "current_byte_offset + 1 == self.buf.len()"),
        head("2", "`--`", "'-' if self.pos + 1 < self.len && self.char_at(self.pos + 1) == '-' =>"),
        when("2", "`--` up to `\\n`", LINE_SCAN, AT_LF),
        also("2", "`--` up to `\\r`", AT_CR),
        also("2", "`--` to the end", AT_END),
        head("3", "`/*`", "'/' if self.pos + 1 < self.len && self.char_at(self.pos + 1) == '*' =>"),
        when("3", "ended by a `*` before its start", "});", "self.pos < self.len && end_byte_offset == current_byte_offset + 1"),
        also("3", "ended by its first `*`: `/*/`", "self.pos < self.len && end_byte_offset == current_byte_offset + 3"),
        also("3", "ended by a later `*/`", "self.pos < self.len && end_byte_offset > current_byte_offset + 3"),
        also("3", "to the end", AT_END),
    ]
}

// Rules 4 and 5.
fn singles() -> Vec<Place> {
    vec![
        head("4", "space", "' ' =>"),
        head("4", "newline", "'\\n' | '\\r' =>"),
        when("4", "`\\n`", "self.pos += 1;", "current_char == '\\n'"),
        also("4", "`\\r`", "current_char == '\\r'"),
        head("4", "`.`", "'.' =>"),
        head("4", "`,`", "',' =>"),
        head("4", "`(`", "'(' =>"),
        head("4", "`)`", "')' =>"),
        head("4", "`[`", "'[' =>"),
        head("4", "`]`", "']' =>"),
        head("4", "`:`", "':' =>"),
        head("4", "`;`", "';' =>"),
        head("4", "`?`", "'?' =>"),
        head("5", "`$`", "'$' =>"),
        when("5", "alone", "self.scan_until(current_byte_offset, |_, c| !c.is_numeric());", "end_byte_offset == current_byte_offset + 1"),
        also("5", "with numerics", "end_byte_offset > current_byte_offset + 1"),
    ]
}

// Rule 6.
fn arithmetic() -> Vec<Place> {
    vec![
        head("6", "`*`", "'*' =>"),
        when("6", "`*` with no `select` or `from` before", "self.pos += 1;", "self.state == State::Default"),
        also("6", "`*` after a `from`", "self.state == State::PastFrom"),
        arm("6", "`*` after a `select`: Wildcard", "State::PastSelect =>"),
        arm("6", "`*` else: Multiply", "_ => Token::Operator(Operator::Arithmetic(ArithmeticOperator::Multiply))"),
        head("6", "`/`", "'/' =>"),
        head("6", "`%`", "'%' =>"),
        head("6", "`+`", "'+' =>"),
        head("6", "`-`", "'-' if !(self.pos + 1 < self.len && self.char_at(self.pos + 1).is_numeric()) =>"),
        when("6", "`-` as the last character", "self.pos += 1;", AT_END),
    ]
}

// Rule 7.
fn runs() -> Vec<Place> {
    let mut places = vec![
        head("7", "a run", "'=' | '!' | '>' | '<' | '&' | '|' | '#' =>"),
        arm("7", "a following `= ! > <`", "'=' | '!' | '>' | '<' => false,"),
        arm("7", "a character that ends it", "_ => true,"),
        when("7", "from `=`", "});", "current_char == '='"),
        also("7", "from `!`", "current_char == '!'"),
        also("7", "from `>`", "current_char == '>'"),
        also("7", "from `<`", "current_char == '<'"),
        also("7", "from `&`", "current_char == '&'"),
        also("7", "from `\\|`", "current_char == '|'"),
        also("7", "from `#`", "current_char == '#'"),
    ];
    // a bar would end the cell of a printed table
    let named = |run: &str| format!("`{}`", run.replace('|', "\\|"));
    places.extend(RUNS.iter().map(|run| arm(KNOWN_RUNS, &named(run), &format!("\"{run}\" =>"))));
    places.push(arm("7", NOT_RECOGNISED, "_ => break,"));
    places
}

// Rule 8.
fn charset() -> Vec<Place> {
    vec![
        head("8", "`_`", "'_' =>"),
        arm("8", "an alphabetic after it", "c if c.is_alphabetic() => false,"),
        arm("8", "a numeric after it", "c if c.is_numeric() => false,"),
        arm("8", "a character that ends it", "_ => true,"),
        when("8", "alone", "});", "end_byte_offset == current_byte_offset + 1"),
    ]
}

// Rule 9.
fn words() -> Vec<Place> {
    let mut places = vec![
        head("9", "a word", "c if c.is_alphabetic() => {"),
        arm("9", "a `_` in it", "'_' => false,"),
        arm("9", "a `-` in it", "'-' => false,"),
        arm("9", "an alphabetic in it", "c if c.is_alphabetic() => false,"),
        arm("9", "a numeric in it", "c if c.is_numeric() => false,"),
        arm("9", "a character that ends it", "_ => true,"),
    ];
    places.extend(WORDS.iter().map(|word| arm(KNOWN_WORDS, word, &format!("s if s.eq_ignore_ascii_case(\"{word}\") =>"))));
    places.push(arm("9", "Other", "_ => Token::Keyword(Keyword::Other("));
    places
}

// Rule 10.
fn numbers() -> Vec<Place> {
    vec![
        head("10", "a number", "c if c == '-' || c.is_numeric() =>"),
        arm("10", "a `.` in it", "'.' => false,"),
        arm("10", "one of `x X b B` in it", "'x' | 'X' | 'b' | 'B' => false,"),
        arm("10", "a numeric in it", "c if c.is_numeric() => false,"),
        arm("10", "a character that ends it", "_ => true,"),
        when("10", "from `-`", "});", "current_char == '-'"),
        also("10", "from a numeric", "current_char != '-'"),
        arm("10", "ZeroX", "\"0X\" | \"0x\" =>"),
        arm("10", "ZeroB", "\"0B\" | \"0b\" =>"),
        arm("10", "Numeric", "_ => Token::Numeric("),
    ]
}

// Rule 11, and each token that was read by any.
fn unknown() -> Vec<Place> {
    vec![
        head("11", "Unknown", "c => {"),
        when("11", "tab", "self.pos += 1;", "c == '\\t'"),
        when(TOKENS, "tokens", "tokens.push(token);", "true"),
    ]
}
