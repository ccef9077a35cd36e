//! A small generator of pseudo-random numbers (SplitMix64), the same on every machine for the same seed.

pub struct Random {
    state: u64,
}

fn mixed(mut z: u64) -> u64 {
    z = (z ^ (z >> 30)).wrapping_mul(0xBF58_476D_1CE4_E5B9);
    z = (z ^ (z >> 27)).wrapping_mul(0x94D0_49BB_1331_11EB);
    z ^ (z >> 31)
}

impl Random {
    /// The numbers of item `index` under `seed`: each case or table can be made again without those before it.
    pub fn of(seed: u64, index: u64) -> Random {
        let start = mixed(seed.wrapping_add(0x9E37_79B9_7F4A_7C15));
        Random { state: mixed(start ^ index.wrapping_mul(0xD1B5_4A32_D192_ED03)) }
    }

    pub fn next(&mut self) -> u64 {
        self.state = self.state.wrapping_add(0x9E37_79B9_7F4A_7C15);
        mixed(self.state)
    }

    /// A number in low..=high.
    pub fn within(&mut self, low: i64, high: i64) -> i64 {
        assert!(low <= high);
        low + (self.next() % (high - low + 1) as u64) as i64
    }

    /// An index below `count`.
    pub fn below(&mut self, count: usize) -> usize {
        (self.next() % count as u64) as usize
    }

    pub fn percent(&mut self, chance: i64) -> bool {
        self.within(1, 100) <= chance
    }

    pub fn pick<T: Copy>(&mut self, items: &[T]) -> T {
        items[self.below(items.len())]
    }
}
