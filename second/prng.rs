//! A small deterministic source of random numbers (splitmix64).

pub struct Prng {
    state: u64,
}

impl Prng {
    pub fn new(seed: u64) -> Prng {
        Prng { state: seed }
    }

    /// The source of the item with this index, so that an item does not depend on how many there are.
    pub fn for_item(seed: u64, index: usize) -> Prng {
        let mut outer = Prng::new(seed);
        let key = outer.next();
        Prng::new(key ^ (index as u64).wrapping_mul(0xD1B5_4A32_D192_ED03))
    }

    pub fn next(&mut self) -> u64 {
        self.state = self.state.wrapping_add(0x9E37_79B9_7F4A_7C15);
        let mut word = self.state;
        word = (word ^ (word >> 30)).wrapping_mul(0xBF58_476D_1CE4_E5B9);
        word = (word ^ (word >> 27)).wrapping_mul(0x94D0_49BB_1331_11EB);
        word ^ (word >> 31)
    }

    /// A number from 0 to `bound` - 1, or 0 if the bound is 0.
    pub fn below(&mut self, bound: u64) -> u64 {
        let wide = u128::from(self.next()) * u128::from(bound);
        (wide >> 64) as u64
    }

    /// An index from 0 to `bound` - 1, or 0 if the bound is 0.
    pub fn index(&mut self, bound: usize) -> usize {
        self.below(bound as u64) as usize
    }

    /// A number from `least` to `most`, both included; `least` if the range is empty.
    pub fn between(&mut self, least: i64, most: i64) -> i64 {
        let width = most.saturating_sub(least).max(0) as u64;
        least.saturating_add(self.below(width.saturating_add(1)) as i64)
    }

    pub fn time(&mut self, least: u32, most: u32) -> u32 {
        least.saturating_add(self.below(u64::from(most.saturating_sub(least)) + 1) as u32)
    }

    pub fn byte(&mut self, least: u8, most: u8) -> u8 {
        least.saturating_add(self.below(u64::from(most.saturating_sub(least)) + 1) as u8)
    }

    /// Yes in one of `of` cases.
    pub fn one_in(&mut self, of: u64) -> bool {
        self.below(of) == 0
    }

    pub fn pick<T: Copy, const N: usize>(&mut self, from: [T; N]) -> T {
        const { assert!(N > 0) };
        from[self.index(N)]
    }

    pub fn pick_from<T: Copy>(&mut self, from: &[T]) -> Option<T> {
        from.get(self.index(from.len())).copied()
    }
}
