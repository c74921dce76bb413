//! Numbers that are drawn the same way every time.

/// splitmix64 from a given seed.
pub struct Random(u64);

impl Random {
    pub fn new(seed: u64) -> Self {
        Self(seed)
    }

    pub fn draw(&mut self) -> u64 {
        self.0 = self.0.wrapping_add(0x9e37_79b9_7f4a_7c15);
        let mut z = self.0;
        z = (z ^ z >> 30).wrapping_mul(0xbf58_476d_1ce4_e5b9);
        z = (z ^ z >> 27).wrapping_mul(0x94d0_49bb_1331_11eb);
        z ^ z >> 31
    }

    pub fn below(&mut self, bound: u64) -> u64 {
        self.draw() % bound
    }

    pub fn chance(&mut self, one_in: u64) -> bool {
        self.below(one_in) == 0
    }

    pub fn pick<T: Copy>(&mut self, from: &[T]) -> T {
        from[self.below(from.len() as u64) as usize]
    }

    /// A clock and a deadline close to it, or either at an end of the range.
    pub fn clocks(&mut self) -> (u64, u64) {
        let now = match self.below(8) {
            0 => 0,
            1 => u64::MAX,
            _ => self.draw() >> self.below(64),
        };
        let deadline = match self.below(8) {
            0 => 0,
            1 => u64::MAX,
            2 | 3 => now,
            4 | 5 => now.saturating_add(1 + self.below(3)),
            _ => now.saturating_sub(1 + self.below(3)),
        };
        (now, deadline)
    }

    /// A table in which half of the words are zero, and half of the others done.
    pub fn commands(&mut self) -> [u32; 8] {
        core::array::from_fn(|_| {
            if self.chance(2) {
                return 0;
            }
            let count = 1 + self.below(255) as u32;
            let planned = [
                0x3000,
                0x0900 + count,
                0x1800 + count,
                0x1c01,
                0x1000,
                0x2000,
            ];
            let word = match self.below(4) {
                0 => self.draw() as u32,
                _ => self.pick(&planned),
            };
            word & 0x7fff_ffff | (self.below(2) as u32) << 31
        })
    }

    /// Any flags, half the time without errors, so that the command check is reached.
    pub fn flags(&mut self) -> u8 {
        let any = self.draw() as u8;
        if self.chance(2) {
            any
        } else {
            any & 0xe0 | 0x20
        }
    }
}
