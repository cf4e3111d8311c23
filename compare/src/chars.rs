// Characters: the classes, the step and the validity of crates/chars, against `char` and `str::from_utf8`.
use crate::ours::{self, Step};
use crate::random::Random;
use crate::report::{hex, Report};

// Each kind of lead and following byte, with the ones beside each limit.
const BYTES: [u8; 28] = [
    0x00, 0x41, 0x7F, 0x80, 0x8F, 0x90, 0x9F, 0xA0, 0xBF, 0xC0, 0xC1, 0xC2, 0xDF, 0xE0, 0xE1, 0xEC, 0xED, 0xEE, 0xEF, 0xF0, 0xF1, 0xF3, 0xF4, 0xF5, 0xF7, 0xF8,
    0xFE, 0xFF,
];

pub fn run(texts: u64, seed: u64) -> u64 {
    classes() + no_scalars() + steps() + short_sequences() + long_sequences() + random_texts(texts, seed)
}

fn scalars() -> impl Iterator<Item = char> {
    (0..=0x10FFFF).filter_map(char::from_u32)
}

fn classes() -> u64 {
    let mut report = Report::new("classes");
    for c in scalars() {
        let ours = (ours::is_alphabetic(c as u32), ours::is_numeric(c as u32));
        report.same(ours, (c.is_alphabetic(), c.is_numeric()), || format!("U+{:04X}", c as u32));
    }
    report.done("scalar values")
}

// The surrogates and numbers above U+10FFFF are in no class.
fn no_scalars() -> u64 {
    let mut report = Report::new("no class");
    for c in (0xD800..=0xDFFF).chain(0x110000..0x120000).chain([u32::MAX - 1, u32::MAX]) {
        report.same((ours::is_alphabetic(c), ours::is_numeric(c)), (false, false), || format!("{c:#X}"));
    }
    report.done("numbers that are no scalar values")
}

// Each scalar value's encoding, alone and between other bytes: the step at its first byte, at each following one, and at the end.
fn steps() -> u64 {
    let mut report = Report::new("step");
    for c in scalars() {
        let mut room = [0; 4];
        let encoded = c.encode_utf8(&mut room).as_bytes();
        let after = encoded.len();
        report.same(ours::step(encoded, 0), Step::Char(c as u32, after), || hex(encoded));
        report.same(ours::step(encoded, after), Step::End, || format!("the end of {}", hex(encoded)));
        let mut between = vec![0xBF];
        between.extend_from_slice(encoded);
        between.push(0x80);
        report.same(ours::step(&between, 1), Step::Char(c as u32, after + 1), || format!("1 of {}", hex(&between)));
        for at in 1..after {
            report.same(ours::step(encoded, at), Step::Bad, || format!("{at} of {}", hex(encoded)));
        }
        for cut in 1..after {
            report.same(ours::step(&encoded[..cut], 0), Step::Bad, || format!("cut: {}", hex(&encoded[..cut])));
        }
    }
    report.done("steps, over every encoded scalar value")
}

fn rust_up_to(text: &[u8]) -> usize {
    match std::str::from_utf8(text) {
        Ok(_) => text.len(),
        Err(error) => error.valid_up_to(),
    }
}

fn up_to(report: &mut Report, text: &[u8]) {
    report.same(ours::valid_up_to(text), rust_up_to(text), || hex(text));
}

// Every sequence of one, two and three bytes.
fn short_sequences() -> u64 {
    let mut report = Report::new("short sequences");
    up_to(&mut report, &[]);
    for a in 0..=255 {
        up_to(&mut report, &[a]);
        for b in 0..=255 {
            up_to(&mut report, &[a, b]);
            for c in 0..=255 {
                up_to(&mut report, &[a, b, c]);
            }
        }
    }
    report.done("texts of up to three bytes")
}

// Every sequence of four and five bytes over the bytes beside the limits.
fn long_sequences() -> u64 {
    let mut report = Report::new("long sequences");
    for a in BYTES {
        for b in BYTES {
            for c in BYTES {
                for d in BYTES {
                    up_to(&mut report, &[a, b, c, d]);
                    for e in BYTES {
                        up_to(&mut report, &[a, b, c, d, e]);
                    }
                }
            }
        }
    }
    report.done("texts of four and five bytes")
}

// What Rust reads, as steps: its characters, and then a bad byte or the end.
fn rust_steps(text: &[u8], steps: &mut Vec<Step>) {
    steps.clear();
    let good = rust_up_to(text);
    for (at, c) in std::str::from_utf8(&text[..good]).unwrap().char_indices() {
        steps.push(Step::Char(c as u32, at + c.len_utf8()));
    }
    steps.push(if good == text.len() { Step::End } else { Step::Bad });
}

fn our_steps(text: &[u8], steps: &mut Vec<Step>) {
    steps.clear();
    let mut at = 0;
    loop {
        let step = ours::step(text, at);
        steps.push(step);
        match step {
            Step::Char(_, next) => at = next,
            _ => return,
        }
    }
}

// Random texts: valid, damaged, cut.
fn random_texts(count: u64, seed: u64) -> u64 {
    println!("random texts: seed {seed}");
    let mut random = Random::new(seed);
    let mut validity = Report::new("random texts");
    let mut reading = Report::new("random texts, step by step");
    let mut counting = Report::new("random texts, counted");
    let (mut text, mut ours, mut rust) = (Vec::new(), Vec::new(), Vec::new());
    let mut bad = 0;
    for turn in 0..count {
        random.text(&mut text);
        match turn % 3 {
            0 => {}
            1 => random.damage(&mut text),
            _ => random.cut(&mut text),
        }
        bad += (rust_up_to(&text) < text.len()) as u64;
        up_to(&mut validity, &text);
        our_steps(&text, &mut ours);
        rust_steps(&text, &mut rust);
        reading.same(&ours, &rust, || hex(&text));
        counting.same(ours::count(&text), rust.len() - 1, || hex(&text));
    }
    validity.done(&format!("texts ({bad} of them not valid)")) + reading.done("texts") + counting.done("texts")
}
