// Writing beside the ported Rust's: the same token lists, as the Rust's own lexer reads them, over the same texts.
use crate::{ours, time_after, tokens, BYTES};
use std::hint::black_box;

// A time is of many short calls, which a clock read for each would hide.
const SHORT_CALLS: usize = 16;
const FILLER: u8 = 0xA5;

fn texts() -> Vec<(&'static str, String)> {
    let repeat = |part: &str| part.repeat(BYTES / part.len());
    vec![
        ("a short statement", "SELECT `users`.* FROM `users` WHERE `users`.`id` = 17 AND `name` = 'abc' LIMIT 1".to_string()),
        ("a row list", format!("INSERT INTO t (a, b, c, d) VALUES {}(0, '', 0, NULL)", repeat("(17, 'some text', 3.25, NULL), "))),
        ("quoted ASCII", format!("SELECT '{}'", repeat("some text of a letter, and more; "))),
        ("quoted multibyte", format!("SELECT '{}'", repeat("žluťoučký kůň 日本語 тест 😀 "))),
    ]
}

// Our call, into buffers of the length needed, which are cleared before the clock starts.
fn ours(text: &str, slots: &[u32], length: usize, calls: usize) -> (f64, f64) {
    let count = slots.len() / tokens::WORDS;
    time_after(1, || vec![vec![FILLER; length]; calls], |mut outs| {
        for out in &mut outs {
            black_box(ours::write(black_box(text.as_bytes()), black_box(slots), count, out));
        }
        outs
    })
}

// The Rust's takes its list by value, and there is no copy of one: each is read anew before the clock starts. The texts written are freed
// after it stops; the lists are freed by the call, and that is timed by itself too.
fn rusts(text: &str, calls: usize) -> [(f64, f64); 2] {
    let lists = || (0..calls).map(|_| sql_lexer::lex(text.to_string())).collect::<Vec<_>>();
    let write = time_after(1, || (lists(), Vec::with_capacity(calls)), |(lists, mut outs)| {
        outs.extend(lists.into_iter().map(|list| black_box(sql_lexer::write(list))));
        outs
    });
    let free = time_after(1, lists, |lists| lists.into_iter().for_each(|list| drop(black_box(list))));
    [write, free]
}

// Lists of one sort of token over one text, which settle what a token costs and what a byte costs.
const MARKS: usize = 40_000;
const SLICES: usize = 2_000;
const WIDTHS: [usize; 4] = [0, 8, 64, 512];

fn sorts() -> Vec<(String, usize, Vec<u32>)> {
    use tokens::kind;
    let bare = |kinds: &[u32]| (0..MARKS).flat_map(|i| [kinds[i % kinds.len()], 0, 0]).collect::<Vec<_>>();
    let slices = |kind: u32, wide: usize| (0..SLICES).flat_map(|i| [kind, (i % 7) as u32, (i % 7 + wide) as u32]).collect::<Vec<_>>();
    let mut sorts = vec![
        ("None".to_string(), 0, bare(&[kind::NONE])),
        ("one-byte marks".to_string(), 1, bare(&[kind::SPACE, kind::COMMA, kind::PARENTHESE_OPEN, kind::PLACEHOLDER, kind::EQUAL, kind::DOT, kind::PARENTHESE_CLOSE])),
        ("words of 4 bytes".to_string(), 4, bare(&[kind::FROM, kind::NULL, kind::LIKE, kind::JOIN, kind::DATE])),
    ];
    for wide in WIDTHS {
        sorts.push((format!("slices of {wide} bytes"), wide, slices(kind::OTHER, wide)));
    }
    for wide in WIDTHS {
        sorts.push((format!("quoted slices of {wide} bytes"), wide + 2, slices(kind::SINGLE_QUOTED, wide)));
    }
    sorts
}

// The line through the slices that fits best: ns a token, and ns a byte.
fn fit(points: &[(f64, f64)]) -> (f64, f64) {
    let count = points.len() as f64;
    let mean = |of: fn(&(f64, f64)) -> f64| points.iter().map(of).sum::<f64>() / count;
    let (x, y) = (mean(|p| p.0), mean(|p| p.1));
    let slope = points.iter().map(|p| (p.0 - x) * (p.1 - y)).sum::<f64>() / points.iter().map(|p| (p.0 - x).powi(2)).sum::<f64>();
    (y - slope * x, slope)
}

fn run_sorts() {
    println!("\n| writing lists of one sort | bytes a token | ns a token, best | median |\n|---|---|---|---|");
    let text = "some text of a letter, and more; ".repeat(20);
    let mut points = vec![];
    for (name, wide, slots) in sorts() {
        let count = slots.len() / tokens::WORDS;
        let (best, median) = ours(&text, &slots, wide * count, 1);
        let (best, median) = (best / count as f64, median / count as f64);
        println!("| {name} | {wide} | {best:.2} | {median:.2} |");
        if name.starts_with("slices") {
            points.push((wide as f64, best));
        }
    }
    let (token, byte) = fit(&points);
    println!("\nslices, the line that fits best: {token:.1} ns a token and {byte:.2} ns a byte");
}

pub fn run() {
    println!("\n| writing | bytes | tokens | ours, ns a byte, best | median | Rust, ns a byte, best | median | of that, freeing | ours, ns a token | Rust, ns a token |");
    println!("|---|---|---|---|---|---|---|---|---|---|");
    for (name, text) in texts() {
        let sql = sql_lexer::lex(text.clone());
        let slots = tokens::slots(&sql.tokens);
        let count = sql.tokens.len();
        let written = sql_lexer::write(sql);
        let mut out = vec![FILLER; written.len()];
        assert_eq!(ours::write(text.as_bytes(), &slots, count, &mut out).length as usize, written.len());
        assert_eq!(out, written.as_bytes());

        let calls = if count < 1000 && text.len() < 1000 { SHORT_CALLS } else { 1 };
        let (bytes, all) = ((calls * written.len()) as f64, (calls * count) as f64);
        let ours = ours(&text, &slots, written.len(), calls);
        let [rust, free] = rusts(&text, calls);
        let [a, b, c, d, e] = [ours.0, ours.1, rust.0, rust.1, free.1].map(|ns| ns / bytes);
        println!("| {name} | {} | {count} | {a:.2} | {b:.2} | {c:.2} | {d:.2} | {e:.2} | {:.1} | {:.1} |", written.len(), ours.1 / all, rust.1 / all);
    }
    run_sorts();
}
