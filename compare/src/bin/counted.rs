// Writes a copy of the Rust's source with a counter at each place of places/; `tools/coverage` builds and runs it.
//   counted SOURCE OUT    SOURCE and OUT are folders with the Rust's files
// A counter is a line of its own, which ends in a mark. The program stops where a line that it looks for is not there, where an arm is left
// without a counter, and where the copy without its marked lines is not the source byte for byte.
#[allow(dead_code)]
#[path = "../places/mod.rs"]
mod places;

use places::{How, Place};
use std::path::Path;
use std::process::ExitCode;

const MARK: &str = " // counted";

// Whether a line has an arm's arrow.
fn is_arrow(line: &str) -> bool {
    line.contains(" =>")
}

// An arm of the same pattern and guard, which counts and is never taken.
fn guarded(head: &str, count: &str) -> String {
    let (pattern, guard) = match head.split_once(" if ") {
        Some((pattern, guard)) => (pattern, format!("({guard}) && ")),
        None => (head, String::new()),
    };
    format!("{pattern} if {guard}{count} => unreachable!(),")
}

// A file of the Rust's: its lines, what goes before and after each, and whether it is an arm with a counter.
// The places are looked for in order, each from the line `next` on; `last` is the last line of the one found.
struct File<'a> {
    lines: Vec<&'a str>,
    before: Vec<Vec<String>>,
    after: Vec<Vec<String>>,
    with_counter: Vec<bool>,
    last: usize,
    next: usize,
}

impl File<'_> {
    // Nothing put in yet.
    fn new(source: &str) -> File<'_> {
        let lines: Vec<&str> = source.lines().collect();
        let many = lines.len();
        File { lines, before: vec![Vec::new(); many], after: vec![Vec::new(); many], with_counter: vec![false; many], last: 0, next: 0 }
    }

    // The next line that starts as a place does.
    fn find(&mut self, start: &str) -> Result<usize, String> {
        let found = (self.next..self.lines.len()).find(|&at| self.lines[at].trim_start().starts_with(start));
        self.last = found.ok_or_else(|| format!("no line after line {} that starts with `{start}`", self.next))?;
        self.next = self.last + 1;
        Ok(self.last)
    }

    // Before the arm that starts as a place does, which may take more lines than one.
    fn put_arm(&mut self, start: &str, count: &str) -> Result<(), String> {
        let first = self.find(start)?;
        let arrow = (first..self.lines.len()).find(|&at| is_arrow(self.lines[at]));
        let arrow = arrow.ok_or_else(|| format!("no arrow from line {} on", first + 1))?;
        self.with_counter[arrow] = true;
        let head = self.lines[first..=arrow].iter().map(|line| line.trim()).collect::<Vec<_>>().join(" ");
        self.before[first].push(guarded(head.split(" =>").next().unwrap_or_default(), count));
        // the block may open on the next line
        self.last = arrow + usize::from(self.lines[arrow].ends_with("=>"));
        self.next = self.last + 1;
        Ok(())
    }

    // A place's counter.
    fn put(&mut self, number: usize, place: &Place) -> Result<(), String> {
        let here = format!("crate::counted::here({number})");
        let text = match place.how {
            How::Arm => return self.put_arm(&place.at, &here),
            How::InState(arm) => return self.put_arm(&place.at, &format!("crate::counted::arm({arm}, state.number())")),
            How::Block => format!("{here};"),
            How::When(condition) | How::Also(condition) => format!("if {condition} {{ {here}; }}"),
            How::Line(text) => text.to_string(),
        };
        if !matches!(place.how, How::Also(_)) {
            self.find(&place.at)?;
        }
        if matches!(place.how, How::Block) && !self.lines[self.last].ends_with('{') {
            return Err(format!("line {} opens no block", self.last + 1));
        }
        self.after[self.last].push(text);
        Ok(())
    }

    // The file with its counters.
    fn written(&self) -> String {
        let mut copy = String::new();
        for (at, line) in self.lines.iter().enumerate() {
            self.before[at].iter().for_each(|text| copy += &format!("{text}{MARK}\n"));
            copy += &format!("{line}\n");
            self.after[at].iter().for_each(|text| copy += &format!("{text}{MARK}\n"));
        }
        copy
    }
}

// A file's text with its counters; `first` is the number of its first place.
fn counted(source: &str, places: &[Place], first: usize) -> Result<String, String> {
    let mut file = File::new(source);
    for (number, place) in (first..).zip(places) {
        file.put(number, place)?;
    }
    // in a file with counters each arm has one; the kinds, which are the arms of writer.rs, the driver counts
    let counts = places.iter().any(|place| !matches!(place.how, How::Line(_)));
    if let Some(arm) = (0..file.lines.len()).find(|&at| counts && is_arrow(file.lines[at]) && !file.with_counter[at]) {
        return Err(format!("line {} has an arm without a counter: {}", arm + 1, file.lines[arm].trim()));
    }
    let copy = file.written();
    let without: String = copy.split_inclusive('\n').filter(|line| !line.trim_end().ends_with(MARK)).collect();
    if without != source {
        return Err("the copy without its counters is not the source".to_string());
    }
    Ok(copy)
}

// Writes the copy of each file, and the counters beside them.
fn write(source: &Path, out: &Path) -> Result<(), String> {
    std::fs::create_dir_all(out).map_err(|error| error.to_string())?;
    let mut first = 0;
    for (name, places) in places::files() {
        let text = std::fs::read_to_string(source.join(name)).map_err(|error| format!("{name}: {error}"))?;
        let copy = counted(&text, &places, first).map_err(|error| format!("{name}: {error}"))?;
        std::fs::write(out.join(name), copy).map_err(|error| format!("{name}: {error}"))?;
        first += places.len();
    }
    std::fs::write(out.join("counted.rs"), include_str!("../counted.rs")).map_err(|error| error.to_string())
}

fn main() -> ExitCode {
    let words: Vec<String> = std::env::args().collect();
    let [_, source, out] = &words[..] else {
        eprintln!("usage: counted SOURCE OUT");
        return ExitCode::from(2);
    };
    match write(Path::new(source), Path::new(out)) {
        Ok(()) => ExitCode::SUCCESS,
        Err(error) => {
            eprintln!("counted: {error}");
            ExitCode::FAILURE
        }
    }
}
