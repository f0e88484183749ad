//! Chance, from the seed that libFuzzer gives.

/// Numbers at the edge of something.
#[rustfmt::skip]
const EDGES: [i64; 22] = [
    0, 1, 2, 3, 4, 5, 7, 8, 16, 63, 64, 65, -1, -2, 65535, -10_001, 1_000_000, 1_000_001, 2_000_000_000, 2_000_000_001,
    i32::MAX as i64, i32::MIN as i64,
];

pub struct Chance(u64);

impl Chance {
    pub fn new(seed: u32) -> Chance {
        Chance(u64::from(seed) << 8 | 0x5a)
    }

    fn next(&mut self) -> u64 {
        self.0 ^= self.0 << 13;
        self.0 ^= self.0 >> 7;
        self.0 ^= self.0 << 17;
        self.0 >> 11
    }

    /// A number below `end`; 0 where there is none.
    pub fn below(&mut self, end: usize) -> usize {
        self.next() as usize % end.max(1)
    }

    pub fn one_in(&mut self, many: usize) -> bool {
        self.below(many) == 0
    }

    /// Mostly small, at times at the edge of something.
    pub fn number(&mut self) -> i64 {
        match self.below(3) {
            0 => EDGES[self.below(EDGES.len())],
            1 => self.below(4) as i64,
            _ => self.below(40) as i64 - 4,
        }
    }

    /// A word of a row, with bits anywhere.
    pub fn word(&mut self) -> u64 {
        self.next() << 32 ^ self.next()
    }
}
