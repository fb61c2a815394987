//! Random numbers that depend on a seed and on the number of the run alone.

pub struct Random {
    state: u64,
}

impl Random {
    pub fn new(seed: u64, run: u64) -> Random {
        let mut random = Random { state: seed };
        let mixed = random.next() ^ run.wrapping_mul(0xd134_2543_de82_ef95);
        random.state = mixed;
        random.next();
        random
    }

    /// 64 random bits (splitmix64).
    pub fn next(&mut self) -> u64 {
        self.state = self.state.wrapping_add(0x9e37_79b9_7f4a_7c15);
        let mut z = self.state;
        z = (z ^ (z >> 30)).wrapping_mul(0xbf58_476d_1ce4_e5b9);
        z = (z ^ (z >> 27)).wrapping_mul(0x94d0_49bb_1331_11eb);
        z ^ (z >> 31)
    }

    /// Below `n`, which is not 0.
    pub fn below(&mut self, n: usize) -> usize {
        ((self.next() >> 32) * n as u64 >> 32) as usize
    }

    /// True in `k` of a thousand.
    pub fn chance(&mut self, k: usize) -> bool {
        self.below(1000) < k
    }

    /// From 0 to 1.
    pub fn unit(&mut self) -> f64 {
        (self.next() >> 11) as f64 / (1u64 << 53) as f64
    }

    /// From -1 to 1.
    pub fn signed(&mut self) -> f64 {
        2.0 * self.unit() - 1.0
    }

    pub fn pick<T: Copy>(&mut self, from: &[T]) -> T {
        from[self.below(from.len())]
    }
}
