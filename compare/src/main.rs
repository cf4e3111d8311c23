// Compares the proved code with Rust's own standard library and with the ported Rust, by running both; `tools/compare` builds and runs it.
// Where the ported Rust's source is at hand it is built with `--cfg rust_source`; beside the counted copy of it, with `--cfg counted` as well
// (tools/coverage): then the characters are left out, and what the runs cover is printed.
// One module a subject: it counts what it ran and each difference, and a difference ends the program with status 1.
#[cfg(not(counted))]
mod chars;
#[cfg(counted)]
mod coverage;
#[cfg(rust_source)]
mod lexer;
#[cfg(rust_source)]
mod one_call;
#[allow(dead_code)]
mod ours;
#[cfg(counted)]
#[allow(dead_code)]
mod places;
#[cfg_attr(counted, allow(dead_code))]
mod random;
mod report;
#[cfg(rust_source)]
mod sanitizer;
#[cfg(rust_source)]
mod tokens;
#[cfg(rust_source)]
mod writer;

use std::process::ExitCode;

// How much is run.
#[cfg_attr(any(counted, not(rust_source)), allow(dead_code))]
struct Size {
    full: bool,
    texts: u64,      // random texts, for the characters
    statements: u64, // random statements, for the reader
    lists: u64,      // random token lists, for the sanitiser and for the writer
    calls: u64,      // random statements of four sorts, for the one call
    longest: usize,  // the longest token list of one kind of each class
}

fn main() -> ExitCode {
    let word = std::env::args().nth(1).unwrap_or_default();
    let size = match word.as_str() {
        "quick" => Size { full: false, texts: 300_000, statements: 100_000, lists: 100_000, calls: 20_000, longest: 3 },
        "full" => Size { full: true, texts: 12_000_000, statements: 1_000_000, lists: 2_000_000, calls: 700_000, longest: 4 },
        _ => {
            eprintln!("usage: compare quick|full [SEED]");
            return ExitCode::from(2);
        }
    };
    let seed = std::env::args().nth(2).map_or(0x5EED_0001, |word| word.parse().expect("the seed is a number"));

    let differences = characters(&size, seed) + against_the_rust(&size, seed);
    println!("{differences} differences");
    if differences + uncovered() == 0 { ExitCode::SUCCESS } else { ExitCode::FAILURE }
}

// The characters against Rust's own.
#[cfg(not(counted))]
fn characters(size: &Size, seed: u64) -> u64 {
    chars::run(size.texts, seed)
}

#[cfg(counted)]
fn characters(_: &Size, seed: u64) -> u64 {
    println!("with the counted copy of the Rust, and without the runs of the characters: seed {seed}");
    0
}

// What should have been covered and was not.
#[cfg(not(counted))]
fn uncovered() -> u64 {
    0
}

#[cfg(counted)]
fn uncovered() -> u64 {
    coverage::report()
}

// The stages against the ported Rust's.
#[cfg(rust_source)]
fn against_the_rust(size: &Size, seed: u64) -> u64 {
    #[cfg(counted)]
    coverage::start();
    let read = lexer::run(size.full, size.statements, seed);
    let sanitized = sanitizer::run(&sanitizer::Size { list: size.longest, random: size.lists as usize }, seed);
    if let Err(difference) = &sanitized {
        println!("sanitizer: DIFFERENT: {difference}");
    }
    read + sanitized.is_err() as u64 + writer::run(size.lists, seed) + one_call::run(size.full, size.calls, seed)
}

#[cfg(not(rust_source))]
fn against_the_rust(_: &Size, _: u64) -> u64 {
    println!("the ported Rust's source is not at hand: nothing was compared with it");
    0
}
