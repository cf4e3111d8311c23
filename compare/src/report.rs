// Counting: what was run, and what differed. The first differences of each run are printed, the rest only counted.
use std::fmt::Debug;

const SHOWN: u64 = 5;

pub struct Report {
    subject: &'static str,
    pub runs: u64,
    pub differences: u64,
}

impl Report {
    pub fn new(subject: &'static str) -> Report {
        Report { subject, runs: 0, differences: 0 }
    }

    // One comparison; `input` is only made where the two differ.
    pub fn same<T: PartialEq + Debug>(&mut self, ours: T, rust: T, input: impl FnOnce() -> String) {
        self.runs += 1;
        if ours != rust {
            self.differences += 1;
            if self.differences <= SHOWN {
                println!("{}: DIFFERENT at {}: ours {:?}, Rust {:?}", self.subject, input(), ours, rust);
            }
        }
    }

    // Prints the count, `what` being what was counted, and hands on the number of differences.
    pub fn done(self, what: &str) -> u64 {
        println!("{}: {} {what}, {} differences", self.subject, self.runs, self.differences);
        self.differences
    }
}

pub fn hex(bytes: &[u8]) -> String {
    bytes.iter().map(|byte| format!("{byte:02x}")).collect::<Vec<_>>().join(" ")
}

// Bytes that are compared whole and printed short.
#[cfg_attr(not(rust_source), allow(dead_code))]
#[derive(PartialEq)]
pub struct Bytes(pub Vec<u8>);

impl Debug for Bytes {
    fn fmt(&self, f: &mut std::fmt::Formatter) -> std::fmt::Result {
        write!(f, "{} bytes: {}", self.0.len(), hex(&self.0[..self.0.len().min(60)]))
    }
}
