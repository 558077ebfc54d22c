//! A small generator of numbers, the same on every machine (splitmix64).

pub struct Random(u64);

impl Random {
    /// Numbers that depend on the seed and the case's number alone.
    pub fn new(seed: u64, case: u64) -> Self {
        let mut random = Self(seed.wrapping_mul(0xd134_2543_de82_ef95).wrapping_add(case));
        random.next();
        random
    }

    pub fn next(&mut self) -> u64 {
        self.0 = self.0.wrapping_add(0x9e37_79b9_7f4a_7c15);
        let mut z = self.0;
        z = (z ^ (z >> 30)).wrapping_mul(0xbf58_476d_1ce4_e5b9);
        z = (z ^ (z >> 27)).wrapping_mul(0x94d0_49bb_1331_11eb);
        z ^ (z >> 31)
    }

    /// A number below the bound, which is above 0.
    pub fn below(&mut self, bound: usize) -> usize {
        usize::try_from(self.next() % bound as u64).expect("it is below a usize")
    }

    pub fn between(&mut self, low: usize, high: usize) -> usize {
        low + self.below(high - low + 1)
    }

    /// Yes in so many of a hundred cases.
    pub fn percent(&mut self, chance: usize) -> bool {
        self.below(100) < chance
    }

    pub fn pick<T: Copy>(&mut self, from: &[T]) -> T {
        from[self.below(from.len())]
    }

    /// The value in so many of a hundred cases, else nothing set.
    pub fn bit(&mut self, chance: usize, bit: u8) -> u8 {
        if self.percent(chance) { bit } else { 0 }
    }

    pub fn bit16(&mut self, chance: usize, bit: u16) -> u16 {
        if self.percent(chance) { bit } else { 0 }
    }

    pub fn u16_below(&mut self, bound: usize) -> u16 {
        u16::try_from(self.below(bound)).expect("the bound fits")
    }

    pub fn u32_below(&mut self, bound: u32) -> u32 {
        u32::try_from(self.next() % u64::from(bound)).expect("the bound fits")
    }
}
