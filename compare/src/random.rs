// Numbers that look random, the same for the same seed (splitmix64), and texts made of them.
pub struct Random(u64);

impl Random {
    pub fn new(seed: u64) -> Random {
        Random(seed)
    }

    pub fn next(&mut self) -> u64 {
        self.0 = self.0.wrapping_add(0x9E37_79B9_7F4A_7C15);
        let mut z = self.0;
        z = (z ^ (z >> 30)).wrapping_mul(0xBF58_476D_1CE4_E5B9);
        z = (z ^ (z >> 27)).wrapping_mul(0x94D0_49BB_1331_11EB);
        z ^ (z >> 31)
    }

    pub fn below(&mut self, n: u64) -> u64 {
        self.next() % n
    }

    pub fn between(&mut self, first: u32, last: u32) -> u32 {
        first + self.below((last - first + 1) as u64) as u32
    }

    pub fn pick<T: Copy>(&mut self, from: &[T]) -> T {
        from[self.below(from.len() as u64) as usize]
    }

    // A scalar value: of a width of 1 to 4 bytes, or one beside a limit.
    pub fn scalar(&mut self, style: u64) -> char {
        const LIMITS: [u32; 12] = [0, 0x7F, 0x80, 0x7FF, 0x800, 0xFFF, 0x1000, 0xD7FF, 0xE000, 0xFFFF, 0x10000, 0x10FFFF];
        let value = match style {
            0 => self.between(0, 0x7F),
            1 => self.between(0x80, 0x7FF),
            2 => self.between(0x800, 0xFFFF),
            3 => self.between(0x10000, 0x10FFFF),
            4 => self.pick(&LIMITS),
            _ => {
                let style = self.below(5);
                return self.scalar(style);
            }
        };
        // a surrogate is moved out of the surrogates
        char::from_u32(value).unwrap_or_else(|| char::from_u32(value - 0x1000).unwrap())
    }

    // A valid text, of one style or mixed.
    pub fn text(&mut self, text: &mut Vec<u8>) {
        text.clear();
        let style = self.below(9);
        let most = if self.below(16) == 0 { 200 } else { 24 };
        for _ in 0..self.below(most) {
            let scalar = self.scalar(style);
            text.extend_from_slice(scalar.encode_utf8(&mut [0; 4]).as_bytes());
        }
    }

    // Damage: one to three bytes changed, put in or taken out.
    pub fn damage(&mut self, text: &mut Vec<u8>) {
        for _ in 0..1 + self.below(3) {
            let byte = self.next() as u8;
            let at = self.below(text.len() as u64 + 1) as usize;
            match self.below(4) {
                0 => text.insert(at, byte),
                1 if at < text.len() => text[at] = byte,
                2 if at < text.len() => text[at] ^= 1 << self.below(8),
                3 if at < text.len() => drop(text.remove(at)),
                _ => text.push(byte),
            }
        }
    }

    // A cut, at any byte, of the front or of the end.
    pub fn cut(&mut self, text: &mut Vec<u8>) {
        let at = self.below(text.len() as u64 + 1) as usize;
        if self.below(2) == 0 {
            text.truncate(at);
        } else {
            drop(text.drain(..at));
        }
    }
}
