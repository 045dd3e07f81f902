//! A small generator of random numbers: SplitMix64.

/// The numbers that follow from a seed and a case's number.
pub struct Random {
    state: u64,
}

impl Random {
    pub fn new(seed: u64, case: u64) -> Random {
        let mut random = Random { state: seed };
        random.state = random.next() ^ case.wrapping_mul(0xD1342543DE82EF95);
        random
    }

    /// The next 64 random bits.
    fn next(&mut self) -> u64 {
        self.state = self.state.wrapping_add(0x9E3779B97F4A7C15);
        let mut z = self.state;
        z = (z ^ (z >> 30)).wrapping_mul(0xBF58476D1CE4E5B9);
        z = (z ^ (z >> 27)).wrapping_mul(0x94D049BB133111EB);
        z ^ (z >> 31)
    }

    /// A number below the limit, which isn't 0.
    pub fn below(&mut self, limit: usize) -> usize {
        (self.next() % limit as u64) as usize
    }

    /// True so many times in a hundred.
    pub fn chance(&mut self, percent: usize) -> bool {
        self.below(100) < percent
    }

    /// One of these.
    pub fn pick<T: Copy>(&mut self, from: &[T]) -> T {
        from[self.below(from.len())]
    }

    /// Any 32 bits.
    pub fn bits(&mut self) -> u32 {
        self.next() as u32
    }

    /// A number at the edge of something, a small one, or any.
    pub fn word(&mut self) -> u32 {
        let edges = [0, 1, 2, 31, 32, 0x7FFFFFFF, 0x80000000, 0xFFFFFFFF];
        match self.below(4) {
            0 => self.pick(&edges),
            1 => self.below(16) as u32,
            2 => (self.below(16) as u32).wrapping_neg(),
            _ => self.bits(),
        }
    }

    /// So many words.
    pub fn words(&mut self, count: usize) -> Vec<u32> {
        (0..count).map(|_| self.word()).collect()
    }

    /// An index chosen in proportion to the weights.
    pub fn weighted(&mut self, weights: &[usize]) -> usize {
        let mut left = self.below(weights.iter().sum());
        weights
            .iter()
            .position(|weight| {
                let here = left < *weight;
                left = left.wrapping_sub(*weight);
                here
            })
            .expect("a number below the sum lies in some weight")
    }
}
