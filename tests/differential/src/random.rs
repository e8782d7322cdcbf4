//! A small generator (xorshift64*), so that a seed settles every input.

pub struct Random(u64);

impl Random {
    /// One stream for each round of a seed: a round can be run again alone.
    pub fn new(seed: u64, round: u64) -> Random {
        let mut state = seed ^ round.wrapping_mul(0x9E37_79B9_7F4A_7C15);
        // Close seeds must not give close streams.
        for _ in 0..2 {
            state = (state ^ (state >> 30)).wrapping_mul(0xBF58_476D_1CE4_E5B9);
            state = (state ^ (state >> 27)).wrapping_mul(0x94D0_49BB_1331_11EB);
            state ^= state >> 31;
        }
        Random(state | 1)
    }

    pub fn next(&mut self) -> u64 {
        self.0 ^= self.0 >> 12;
        self.0 ^= self.0 << 25;
        self.0 ^= self.0 >> 27;
        self.0.wrapping_mul(0x2545_F491_4F6C_DD1D) >> 11
    }

    pub fn below(&mut self, n: usize) -> usize {
        (self.next() % n as u64) as usize
    }

    pub fn between(&mut self, low: usize, high: usize) -> usize {
        low + self.below(high - low + 1)
    }

    pub fn one_in(&mut self, n: usize) -> bool {
        self.below(n) == 0
    }

    pub fn pick<'a, T>(&mut self, from: &'a [T]) -> &'a T {
        &from[self.below(from.len())]
    }

    pub fn byte(&mut self) -> u8 {
        self.next() as u8
    }

    /// `n` bytes, each from `set`.
    pub fn text(&mut self, n: usize, set: &[u8]) -> Vec<u8> {
        (0..n).map(|_| *self.pick(set)).collect()
    }

    /// The text with its letters in any case, or as it was.
    pub fn cased(&mut self, text: &[u8]) -> Vec<u8> {
        match self.below(6) {
            0 => text.to_ascii_uppercase(),
            1 => text.to_ascii_lowercase(),
            2 => text
                .iter()
                .map(|b| {
                    if self.one_in(2) {
                        b.to_ascii_uppercase()
                    } else {
                        b.to_ascii_lowercase()
                    }
                })
                .collect(),
            _ => text.to_vec(),
        }
    }
}
