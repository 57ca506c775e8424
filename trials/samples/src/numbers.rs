/// Numbers that follow one another (Knuth's linear congruential generator).
#[derive(Drop)]
pub struct Numbers {
    state: u64,
}

impl Numbers {
    /// Each first number has its own that follow.
    pub fn new(first: u64) -> Numbers {
        Numbers {
            state: first.wrapping_mul(0x9e37_79b9_7f4a_7c15),
        }
    }

    /// The next one, below a limit, or 0 where the limit is 0.
    pub fn below(&mut self, limit: u64) -> u64 {
        self.state = self
            .state
            .wrapping_mul(6_364_136_223_846_793_005)
            .wrapping_add(1_442_695_040_888_963_407);
        if limit == 0 {
            return 0;
        }
        (self.state >> 33) % limit
    }

    /// The next one as a byte.
    pub fn byte_below(&mut self, limit: u8) -> u8 {
        self.below(u64::from(limit)) as u8
    }
}
