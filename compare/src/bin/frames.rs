// Prints what the program `shape` is run on, and what it must print, by document 01's last section; `tools/frames` builds and runs it.
//   frames stdin     crates/shape/stdin
//   frames stdout    crates/shape/stdout
// Each shape, stop offset and token count comes from the ported Rust, and must be document 01's where it gives one.

// The most characters of a line, and the token room.
const LINE: usize = 16_384;
const TOKENS: usize = 4_096;

// Document 01's five lines, with their frames.
const FIVE: [(&str, &str); 5] = [
    ("61203d2031", "000000000561203d203f"),
    ("61202162", "01000000026120"),
    ("4", "1800000001"),
    ("ff", "1200000000"),
    ("", "0000000000"),
];

// "Statement and shape": all rows, with the stop offset where it is not the statement's length.
pub const ROWS: [(&str, &str, Option<usize>); 15] = [
    ("", "", None),
    ("a =< 1", "a <= ?", None),
    ("a ! b", "a ", Some(2)),
    ("SELECT */* c */", "SELECT ** c */", None),
    ("/*/ a", " a", None),
    ("VALUES (1),(2)/*c*/", "VALUES (?),.../*c*/", None),
    ("VALUES (1),(2) /*c*/", "VALUES (?),...", None),
    ("BETWEEN 1 AND (5)", "BETWEEN ? AND (5)", None),
    ("k IN ((1,2),(3,4))", "k IN ((?),(3,4))", None),
    ("'it''s'", "'it''s'", None),
    ("\"a\".\"b\" = \"c\"", "\"a\".\"b\" = ?", None),
    ("a = 'x", "a = ?", None),
    ("a = 0xFF", "a = 0xFF", None),
    ("a--b", "a--b", None),
    ("VALUES (1),\n(2)", "VALUES (?),\n(2)", None),
];

pub fn hex(bytes: &[u8]) -> String {
    bytes.iter().map(|byte| format!("{byte:02x}")).collect()
}

fn frame(status: usize, number: usize, shape: &[u8]) -> String {
    format!("{status:02x}{number:08x}{}", hex(shape))
}

// Where the Rust's reading stopped. It does not say; but what it writes of its tokens has the length of what it read, or one more where the
// last quote is not closed, and then it read to the end.
fn stop(statement: &str) -> usize {
    sql_lexer::write(sql_lexer::lex(statement.to_string())).len().min(statement.len())
}

// The frame of a statement.
fn answer(statement: &[u8]) -> String {
    let text = match std::str::from_utf8(statement) {
        Ok(text) => text,
        Err(error) => return frame(0x12, error.valid_up_to(), b""),
    };
    let tokens = sql_lexer::lex(text.to_string()).tokens.len();
    if TOKENS < tokens {
        return frame(0x13, tokens, b"");
    }
    let shape = sql_lexer::sanitize_string(text.to_string());
    if LINE < shape.len() {
        return frame(0x17, shape.len(), b"");
    }
    frame(usize::from(stop(text) != text.len()), stop(text), shape.as_bytes())
}

// The frame of a line.
pub fn line_frame(line: &str) -> String {
    if LINE < line.len() {
        return frame(0x18, LINE, b"");
    }
    if let Some(place) = line.bytes().position(|c| !c.is_ascii_hexdigit()) {
        return frame(0x18, place, b"");
    }
    if line.len() % 2 == 1 {
        return frame(0x18, line.len(), b"");
    }
    let bytes: Vec<u8> = (0..line.len()).step_by(2).map(|at| u8::from_str_radix(&line[at..at + 2], 16).unwrap()).collect();
    answer(&bytes)
}

// Each refusal that the program can give, and what stands just on the other side of it.
fn refusals() -> Vec<String> {
    let mut lines: Vec<String> = ["6162c328", "e282", "27eda08027", "61c0", "f09f9880"].map(String::from).to_vec(); // 2
    lines.extend([",".repeat(TOKENS), ",".repeat(TOKENS + 1)].map(|commas| hex(commas.as_bytes()))); // 3
    lines.push(hex("(a".repeat(TOKENS / 2 + 1).as_bytes()));
    lines.extend(["61".repeat(LINE / 2), "0".repeat(LINE + 1), "g".repeat(LINE + 1), "61".repeat(LINE)]); // 8, a longer line
    lines.push("20".repeat(40_000));
    lines.extend(["6g", "g", "61g", "612g6", "61\r", "61 62", "0x61", "61/62:", "61@G`", "\u{e9}"].map(String::from)); // 8, not hexadecimal
    lines.extend([format!("{}g", "0".repeat(LINE - 1)), "6".repeat(LINE - 1)]);
    lines.extend(["612", "6", "abCDe"].map(String::from)); // 8, an odd count
    lines
}

fn main() {
    let mut lines: Vec<String> = Vec::new();
    for (line, paper) in FIVE {
        assert_eq!(line_frame(line), paper, "{line}");
        lines.push(line.to_string());
    }
    for (number, (statement, shape, stop)) in ROWS.into_iter().enumerate() {
        let stop = stop.unwrap_or(statement.len());
        assert_eq!(line_frame(&hex(statement.as_bytes())), frame(usize::from(stop != statement.len()), stop, shape.as_bytes()), "{statement}");
        let line = hex(statement.as_bytes());
        // Lower case, upper case, and one after the other.
        lines.push(match number % 3 {
            0 => line,
            1 => line.to_uppercase(),
            _ => line.chars().enumerate().map(|(at, c)| if at % 3 == 0 { c.to_ascii_uppercase() } else { c }).collect(),
        });
    }
    lines.extend(refusals());
    // Frames enough to fill a page more than once.
    lines.extend(["b1", "'\u{e9}'", "a-"].map(|part| hex(part.repeat(LINE / 2 / part.len()).as_bytes())));
    lines.push(hex("SELECT '\u{20ac}' -- the last line has no LF".as_bytes()));
    match std::env::args().nth(1).as_deref() {
        Some("stdin") => print!("{}", lines.join("\n")),
        Some("stdout") => lines.iter().for_each(|line| println!("{}", line_frame(line))),
        _ => {
            eprintln!("usage: frames stdin|stdout");
            std::process::exit(2);
        }
    }
}
