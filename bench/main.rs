// Times of the proved code beside Rust's own and the ported Rust, on the same input, in one process; `tools/bench` builds and runs it. No test.
#[allow(dead_code)]
#[path = "../compare/src/ours.rs"]
mod ours;
#[cfg(rust_source)]
mod lexer;
#[cfg(rust_source)]
mod one_call;
#[cfg(rust_source)]
#[allow(dead_code)]
#[path = "../compare/src/tokens.rs"]
mod tokens;
#[cfg(rust_source)]
mod writing;

use std::hint::black_box;
use std::time::Instant;

const BYTES: usize = 100_000;
const ROUNDS: usize = 201;

// The best and the median of many rounds, in ns for each of `count`. What a round needs is made before its clock starts, and its answer is
// dropped after it stops.
fn time_after<S, T>(count: usize, make: impl Fn() -> S, run: impl Fn(S) -> T) -> (f64, f64) {
    let mut times: Vec<f64> = (0..ROUNDS)
        .map(|_| {
            let made = make();
            let start = Instant::now();
            let answer = black_box(run(made));
            let time = start.elapsed().as_nanos() as f64 / count as f64;
            drop(answer);
            time
        })
        .collect();
    times.sort_by(f64::total_cmp);
    (times[0], times[ROUNDS / 2])
}

fn time<T>(count: usize, run: impl Fn() -> T) -> (f64, f64) {
    time_after(count, || (), |()| run())
}

fn line(what: &str, ours: (f64, f64), rust: (f64, f64)) {
    println!("| {what} | {:.2} | {:.2} | {:.2} | {:.2} |", ours.0, ours.1, rust.0, rust.1);
}

fn texts() -> Vec<(&'static str, String)> {
    let repeat = |part: &str| part.repeat(BYTES / part.len());
    vec![
        ("ASCII", repeat("SELECT name FROM users WHERE id = 17; ")),
        ("2-byte", repeat("жизньпобережью")),
        ("3-byte", repeat("日本語韓國語中文字")),
        ("4-byte", repeat("𣎴𠀀😀🦀")),
        ("mixed", repeat("SELECT 'žluťoučký kůň' AS 名前, '😀' FROM тест; ")),
    ]
}

fn main() {
    println!("| ns a byte | ours, best | median | Rust, best | median |\n|---|---|---|---|---|");
    for (name, text) in texts() {
        let bytes = text.as_bytes();
        assert_eq!(ours::valid_up_to(bytes), bytes.len());
        let ours = time(bytes.len(), || ours::valid_up_to(black_box(bytes)));
        let rust = time(bytes.len(), || std::str::from_utf8(black_box(bytes)).is_ok());
        line(&format!("validate, {name}"), ours, rust);
    }
    for (name, text) in texts() {
        let bytes = text.as_bytes();
        let ours = time(bytes.len(), || ours::count(black_box(bytes)));
        let rust = time(bytes.len(), || black_box(&text).chars().filter(|c| black_box(*c) != '\u{10FFFF}').count());
        line(&format!("step, counting, {name}"), ours, rust);
    }
    // each step a call from outside, where nothing is inlined
    for (name, text) in texts() {
        let bytes = text.as_bytes();
        let ours = time(bytes.len(), || {
            let (mut at, mut sum) = (0, 0u32);
            while let ours::Step::Char(scalar, next) = ours::step(black_box(bytes), at) {
                sum = sum.wrapping_add(scalar);
                at = next;
            }
            sum
        });
        let rust = time(bytes.len(), || black_box(&text).chars().fold(0u32, |sum, c| sum.wrapping_add(c as u32)));
        line(&format!("step, called from outside, {name}"), ours, rust);
    }
    println!("\n| ns a character | ours, best | median | Rust, best | median |\n|---|---|---|---|---|");
    for (name, text) in texts() {
        let chars: Vec<char> = text.chars().collect();
        let count = chars.len();
        let ours = time(count, || chars.iter().filter(|c| ours::is_alphabetic(**c as u32)).count());
        let rust = time(count, || chars.iter().filter(|c| c.is_alphabetic()).count());
        line(&format!("alphabetic, {name}"), ours, rust);
        let ours = time(count, || chars.iter().filter(|c| ours::is_numeric(**c as u32)).count());
        let rust = time(count, || chars.iter().filter(|c| c.is_numeric()).count());
        line(&format!("numeric, {name}"), ours, rust);
    }
    #[cfg(rust_source)]
    lexer::run();
    #[cfg(rust_source)]
    writing::run();
    #[cfg(rust_source)]
    one_call::run();
    #[cfg(not(rust_source))]
    println!("\nreading and writing: skipped, the ported Rust is not there (tools/bench says where it is looked for)");
}
