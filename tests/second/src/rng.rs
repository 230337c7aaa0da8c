//! A seeded generator of numbers (splitmix64), so that a case's number is its seed. It reads no
//! section of document 01.

pub struct Rng {
    state: u64,
}

impl Rng {
    pub fn new(seed: u64) -> Rng {
        Rng { state: seed }
    }

    pub fn u64(&mut self) -> u64 {
        self.state = self.state.wrapping_add(0x9E37_79B9_7F4A_7C15);
        let mut mixed = self.state;
        mixed = (mixed ^ (mixed >> 30)).wrapping_mul(0xBF58_476D_1CE4_E5B9);
        mixed = (mixed ^ (mixed >> 27)).wrapping_mul(0x94D0_49BB_1331_11EB);
        mixed ^ (mixed >> 31)
    }

    pub fn u32(&mut self) -> u32 {
        (self.u64() >> 32) as u32
    }

    /// From low to high, both included.
    pub fn range(&mut self, low: i64, high: i64) -> i64 {
        low + (self.u64() % (high - low + 1) as u64) as i64
    }

    /// From 0 up to but not count.
    pub fn below(&mut self, count: usize) -> usize {
        self.range(0, count as i64 - 1) as usize
    }

    pub fn percent(&mut self, share: i64) -> bool {
        self.range(0, 99) < share
    }

    pub fn pick<T: Copy>(&mut self, choices: &[T]) -> T {
        choices[self.below(choices.len())]
    }

    pub fn shuffle<T>(&mut self, items: &mut [T]) {
        for i in (1..items.len()).rev() {
            items.swap(i, self.below(i + 1));
        }
    }

    /// A byte; 00 and FF come often, since faults of rounding and of alpha sit there.
    pub fn byte(&mut self) -> u8 {
        match self.below(8) {
            0 => 0x00,
            1 => 0xFF,
            _ => self.u64() as u8,
        }
    }

    pub fn bytes(&mut self, count: usize) -> Vec<u8> {
        (0..count).map(|_| self.byte()).collect()
    }
}
