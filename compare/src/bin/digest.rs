// Digests of Rust's own answers: the lines that compare/digest.c prints from the answers of the x86-64 code.
const START: u64 = 14695981039346656037;
const BYTES: [u8; 28] = [
    0x00, 0x41, 0x7F, 0x80, 0x8F, 0x90, 0x9F, 0xA0, 0xBF, 0xC0, 0xC1, 0xC2, 0xDF, 0xE0, 0xE1, 0xEC, 0xED, 0xEE, 0xEF, 0xF0, 0xF1, 0xF3, 0xF4, 0xF5, 0xF7, 0xF8,
    0xFE, 0xFF,
];

struct Digest(u64);

impl Digest {
    fn eat(&mut self, answer: u64) {
        self.0 = (self.0 ^ answer).wrapping_mul(1099511628211);
        self.0 ^= self.0 >> 29;
    }

    fn show(&mut self, name: &str) {
        println!("{name} {:016x}", self.0);
        self.0 = START;
    }
}

fn scalars() -> impl Iterator<Item = char> {
    (0..=0x10FFFF).filter_map(char::from_u32)
}

fn up_to(text: &[u8]) -> u64 {
    match std::str::from_utf8(text) {
        Ok(_) => text.len() as u64,
        Err(error) => error.valid_up_to() as u64,
    }
}

fn main() {
    let mut digest = Digest(START);
    for c in scalars() {
        digest.eat(c.is_alphabetic() as u64 * 2 + c.is_numeric() as u64);
    }
    digest.show("classes of every scalar value:");
    for c in scalars() {
        digest.eat(0);
        digest.eat(c as u64);
        digest.eat(c.len_utf8() as u64);
    }
    digest.show("step at every scalar value:");
    for a in 0..=255 {
        for b in 0..=255 {
            for c in 0..=255 {
                digest.eat(up_to(&[a, b, c]));
            }
        }
    }
    digest.show("validity of every three bytes:");
    for a in BYTES {
        for b in BYTES {
            for c in BYTES {
                for d in BYTES {
                    digest.eat(up_to(&[a, b, c, d]));
                }
            }
        }
    }
    digest.show("validity of four bytes beside the limits:");
}
