// Prints the shape of each statement of a file, one statement a line, by the proved call `sanitize_string`. `tools/shapes` builds it.
//   shapes FILE          the shapes as text, with a word where a statement was refused or stopped short, or values are left
//   shapes --hex FILE    the frames of the program `shape`: status, stop offset or detail, shape, with its limits
#[allow(dead_code)]
#[path = "../include/hayrumble.rs"]
mod hayrumble;

use hayrumble::Answer;
use std::io::Write;
use std::process::ExitCode;

// The program's limits: characters in a line of hexadecimal, token slots, bytes of output.
const LINE: usize = 16_384;
const SLOTS: usize = 4_096;
const OUTPUT: usize = 16_384;

// A refusal in words.
fn refused(answer: &Answer) -> String {
    let detail = answer.detail;
    match answer.refusal {
        1 => format!("[refused: the statement has {detail} bytes, and 1048576 are the most]"),
        2 => format!("[refused: not valid UTF-8 at byte {detail}]"),
        number => format!("[refused: {number}, detail {detail}]"),
    }
}

// The shape as text, and a word on what it leaves open; or why there is none.
fn text(statement: &[u8]) -> Vec<u8> {
    let (mut out, answer) = match hayrumble::shape(statement) {
        Ok(shape) => shape,
        Err(answer) => return refused(&answer).into_bytes(),
    };
    if (answer.stop as usize) < statement.len() {
        out.extend(format!("   [stopped short at byte {}]", answer.stop).bytes());
    }
    if answer.exposed != 0 {
        out.extend(format!("   [values left: {}]", answer.exposed).bytes());
    }
    out
}

// The frame, in hexadecimal.
fn frame(statement: &[u8]) -> Vec<u8> {
    let mut slots = [0; SLOTS * 3];
    let mut out = [0; OUTPUT];
    let (status, number, length) = if statement.len() * 2 > LINE {
        (0x18, LINE as u64, 0)
    } else {
        let answer = hayrumble::sanitize_string(statement, &mut slots, &mut out);
        match answer.refusal {
            0 => (u8::from((answer.stop as usize) < statement.len()), answer.stop, answer.length as usize),
            number => (0x10 + number as u8, answer.detail, 0),
        }
    };
    let mut frame = format!("{status:02x}{number:08x}");
    frame.extend(out[..length].iter().map(|byte| format!("{byte:02x}")));
    frame.into_bytes()
}

fn main() -> ExitCode {
    let words: Vec<String> = std::env::args().skip(1).collect();
    let (print, path): (fn(&[u8]) -> Vec<u8>, &String) = match words.as_slice() {
        [path] if path != "--hex" => (text, path),
        [word, path] if word == "--hex" => (frame, path),
        _ => {
            eprintln!("usage: shapes [--hex] FILE, with one statement a line");
            return ExitCode::from(2);
        }
    };
    let file = match std::fs::read(path) {
        Ok(file) => file,
        Err(error) => {
            eprintln!("{path}: {error}");
            return ExitCode::from(2);
        }
    };
    // no statement begins at the end of the file
    let lines = file.strip_suffix(b"\n").unwrap_or(&file);
    let mut out = std::io::BufWriter::new(std::io::stdout().lock());
    let printed = if file.is_empty() { Ok(()) } else { lines.split(|byte| *byte == b'\n').try_for_each(|line| out.write_all(&print(line)).and_then(|()| out.write_all(b"\n"))) };
    match printed.and_then(|()| out.flush()) {
        Ok(()) => ExitCode::SUCCESS,
        Err(error) => {
            eprintln!("shapes: the output could not be written: {error}");
            ExitCode::FAILURE
        }
    }
}
