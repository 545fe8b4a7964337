//! A small seeded source of random choices (splitmix64).

#[derive(Clone)]
pub struct Random {
    state: u64,
}

impl Random {
    /// The source of one sheet: each index has its own, so that a sheet can be made again alone.
    pub fn of(seed: u64, index: u64) -> Random {
        let mut random = Random { state: seed.wrapping_mul(0x2545_f491_4f6c_dd1d) };
        let mixed = random.next() ^ index.wrapping_mul(0x9e37_79b9_7f4a_7c15);
        random.state = mixed;
        random.next();
        random
    }

    pub fn next(&mut self) -> u64 {
        self.state = self.state.wrapping_add(0x9e37_79b9_7f4a_7c15);
        let mut z = self.state;
        z = (z ^ (z >> 30)).wrapping_mul(0xbf58_476d_1ce4_e5b9);
        z = (z ^ (z >> 27)).wrapping_mul(0x94d0_49bb_1331_11eb);
        z ^ (z >> 31)
    }

    /// A number below the bound, which is not 0.
    pub fn below(&mut self, bound: usize) -> usize {
        (self.next() % bound as u64) as usize
    }

    pub fn number(&mut self, bound: u32) -> u32 {
        self.below(bound as usize) as u32
    }

    /// A number from low to high, both included.
    pub fn within(&mut self, low: usize, high: usize) -> usize {
        low + self.below(high - low + 1)
    }

    pub fn percent(&mut self, chance: usize) -> bool {
        self.below(100) < chance
    }

    pub fn pick<'a, T>(&mut self, list: &'a [T]) -> &'a T {
        &list[self.below(list.len())]
    }

    /// An index chosen by weight.
    pub fn weighted(&mut self, weights: &[usize]) -> usize {
        let mut left = self.below(weights.iter().sum());
        for (index, weight) in weights.iter().enumerate() {
            if left < *weight {
                return index;
            }
            left -= weight;
        }
        unreachable!()
    }
}
