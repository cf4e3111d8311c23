// Prints the tables of the two classes, by walking `char::is_alphabetic` and `char::is_numeric`; `tools/tables` builds and runs it.
//   tables rt        crates/chars/src/tables.rt
//   tables antt      crates/chars/specs/Pairs.antt
//   tables version   rustc's version and char::UNICODE_VERSION
const RUSTC: &str = env!("RUSTC_VERSION");

// `rt fmt` fills a line of an array to this many bytes at most.
const WIDTH: usize = 99;

// First and last of each run of scalar values in the class, flat. A run ends at the surrogates.
fn pairs(class: fn(char) -> bool) -> Vec<u32> {
    let mut flat: Vec<u32> = Vec::new();
    for c in (0..=0x10FFFF).filter_map(char::from_u32).filter(|c| class(*c)).map(u32::from) {
        match flat.last_mut() {
            Some(last) if *last + 1 == c => *last = c,
            _ => flat.extend([c, c]),
        }
    }
    flat
}

fn header(comment: &str) {
    let (major, minor, update) = char::UNICODE_VERSION;
    println!("{comment} Printed by tools/tables (compare/src/bin/tables.rs), with {RUSTC} (Unicode {major}.{minor}.{update}): first, last, first, last, ..");
}

fn rt(tables: &[(&str, Vec<u32>)]) {
    header("//");
    for (place, (name, flat)) in tables.iter().enumerate() {
        if 0 < place {
            println!();
        }
        println!("pub static {}: [u32; {}] = [", name.to_uppercase(), flat.len());
        let mut line = String::from("   ");
        for number in flat {
            let next = format!(" {number},");
            if WIDTH < line.len() + next.len() {
                println!("{line}");
                line.truncate(3);
            }
            line += &next;
        }
        println!("{line}\n];");
    }
}

fn antt(tables: &[(&str, Vec<u32>)]) {
    header("--");
    println!("-- Assumes nothing.\nuse Rattle.std.specs.Prelude.{{ℕ, List, [], ◌∷◌}}");
    for (name, flat) in tables {
        let numbers: Vec<String> = flat.iter().map(u32::to_string).collect();
        println!("\n-- the {} pairs of char::is_{name}", flat.len() / 2);
        println!("unfoldable pub {name}_pairs : List ℕ\n{name}_pairs =\n    {} ∷ []", numbers.join(" ∷ "));
    }
}

fn main() {
    let tables = [("alphabetic", pairs(char::is_alphabetic)), ("numeric", pairs(char::is_numeric))];
    match std::env::args().nth(1).as_deref() {
        Some("rt") => rt(&tables),
        Some("antt") => antt(&tables),
        Some("version") => {
            println!("{RUSTC}\nchar::UNICODE_VERSION {:?}", char::UNICODE_VERSION);
            for (name, flat) in &tables {
                println!("{name}: {} pairs", flat.len() / 2);
            }
        }
        _ => {
            eprintln!("usage: tables rt|antt|version");
            std::process::exit(2);
        }
    }
}
