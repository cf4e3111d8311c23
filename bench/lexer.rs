// The reader beside the Rust's: short statements, row lists and quoted texts. The slots are cleared before each call, and the Rust's String is
// made, and its answer dropped, outside the time taken.
use crate::ours;
use std::hint::black_box;
use std::time::Instant;

const ROUNDS: usize = 41;

// The best and the median, in ns for each byte.
fn summary(mut times: Vec<f64>, bytes: usize) -> (f64, f64) {
    times.sort_by(f64::total_cmp);
    (times[0] / bytes as f64, times[times.len() / 2] / bytes as f64)
}

fn ours(texts: &[String]) -> (f64, f64) {
    let bytes = texts.iter().map(String::len).sum();
    let longest = texts.iter().map(String::len).max().unwrap();
    let mut slots = vec![0u32; longest * 3];
    let times = (0..ROUNDS).map(|_| {
        let mut taken = 0;
        for text in texts {
            slots[..text.len() * 3].fill(0);
            let start = Instant::now();
            black_box(ours::lex(black_box(text.as_bytes()), &mut slots));
            taken += start.elapsed().as_nanos();
        }
        taken as f64
    });
    summary(times.collect(), bytes)
}

fn rust(texts: &[String]) -> (f64, f64) {
    let bytes = texts.iter().map(String::len).sum();
    let times = (0..ROUNDS).map(|_| {
        let mut taken = 0;
        for text in texts {
            let text = text.clone();
            let start = Instant::now();
            let sql = black_box(sql_lexer::lex(black_box(text)));
            taken += start.elapsed().as_nanos();
            drop(sql);
        }
        taken as f64
    });
    summary(times.collect(), bytes)
}

fn inputs() -> Vec<(&'static str, Vec<String>)> {
    let short = [
        "SELECT `users`.* FROM `users` WHERE `users`.`id` = 17 LIMIT 1",
        "INSERT INTO \"songs\" (\"title\", \"artist\") VALUES ('Song', 'Band')",
        "UPDATE table SET a = 1.5, b = 'text' WHERE id IN (1, 2, 3) AND c BETWEEN 4 AND 5",
        "SELECT name, count(*) FROM people INNER JOIN houses ON people.id = houses.owner -- note",
    ];
    let rows = format!("INSERT INTO t (a, b, c) VALUES {}", (0..3000).map(|n| format!("({n}, 'row {n}', NULL)")).collect::<Vec<_>>().join(", "));
    let quoted = |part: &str| format!("SELECT '{}'", part.repeat((1_048_576 - 16) / part.len()));
    vec![
        ("short statements", (0..400).map(|n| short[n % 4].to_string()).collect()),
        ("a row list, 80 KB", vec![rows]),
        ("a quoted text, ASCII, 1 MiB", vec![quoted("It was a dark and stormy night; ")]),
        ("a quoted text, multibyte, 1 MiB", vec![quoted("žluťoučký kůň 日本語 ")]),
        ("words, multibyte", vec!["жизнь побережью 日本 ".repeat(2000)]),
    ]
}

pub fn run() {
    println!("\n| ns a byte | ours, best | median | Rust, best | median | best / best |\n|---|---|---|---|---|---|");
    for (name, texts) in inputs() {
        let (ours, rust) = (ours(&texts), rust(&texts));
        println!("| lex, {name} | {:.2} | {:.2} | {:.2} | {:.2} | {:.2} |", ours.0, ours.1, rust.0, rust.1, ours.0 / rust.0);
    }
}
