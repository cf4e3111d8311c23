// The places of the Rust's source that are counted: each reading rule of document 01 with its cases, and the 32 arms of the sanitiser with the
// choices inside. bin/counted.rs puts a counter at each, coverage.rs prints the counts; both know a place by its number,
// from 0 on in the order of `files`.

pub mod arms;
pub mod rules;

// How a counter is put into the source: always as one line of its own.
pub enum How {
    // before an arm: an arm of the same pattern and guard, whose guard also counts and is never true
    Arm,
    // the same for an arm of the sanitiser by its number, counted by state
    InState(usize),
    // after a line that opens a block
    Block,
    // after a line, where the condition holds
    When(&'static str),
    // after the line of the place before it, where the condition holds
    Also(&'static str),
    // no counter: what the counters need, after a line
    Line(&'static str),
}

// A place: the rule or arm that it belongs to, its case, the start of its line, and how it is counted. A rule is taken as often as its heads.
pub struct Place {
    pub of: &'static str,
    pub case: String,
    pub at: String,
    pub how: How,
    pub head: bool,
}

fn place(of: &'static str, case: &str, at: &str, how: How) -> Place {
    Place { of, case: case.to_string(), at: at.to_string(), how, head: false }
}

// An arm that begins the reading of a token.
fn head(of: &'static str, case: &str, at: &str) -> Place {
    Place { head: true, ..place(of, case, at, How::Arm) }
}

// An arm inside.
fn arm(of: &'static str, case: &str, at: &str) -> Place {
    place(of, case, at, How::Arm)
}

// The head of a block.
fn block(of: &'static str, case: &str, at: &str) -> Place {
    place(of, case, at, How::Block)
}

// After a line, where a condition holds.
fn when(of: &'static str, case: &str, at: &str, condition: &'static str) -> Place {
    place(of, case, at, How::When(condition))
}

// The same after the line found last.
fn also(of: &'static str, case: &str, condition: &'static str) -> Place {
    place(of, case, "", How::Also(condition))
}

// A line that counts nothing.
fn line(at: &str, text: &'static str) -> Place {
    place("", "", at, How::Line(text))
}

// All places, by file.
pub fn files() -> [(&'static str, Vec<Place>); 4] {
    [
        ("lexer.rs", rules::lexer()),
        ("sanitizer.rs", arms::sanitizer()),
        ("lib.rs", vec![line("mod lexer;", "pub mod counted;")]),
        ("writer.rs", vec![]),
    ]
}
