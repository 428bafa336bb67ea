//! A small generator of numbers, the same on every machine.

/// SplitMix64.
pub struct Random(u64);

impl Random {
    /// Returns the generator of the envelope `index` of a run.
    pub fn new(seed: u64, index: u64) -> Random {
        let mut random = Random(seed);
        random.0 = random.next() ^ index.wrapping_mul(0xd1b5_4a32_d192_ed03);
        random
    }

    /// Returns the next number.
    pub fn next(&mut self) -> u64 {
        self.0 = self.0.wrapping_add(0x9e37_79b9_7f4a_7c15);
        let mixed = (self.0 ^ (self.0 >> 30)).wrapping_mul(0xbf58_476d_1ce4_e5b9);
        let mixed = (mixed ^ (mixed >> 27)).wrapping_mul(0x94d0_49bb_1331_11eb);
        mixed ^ (mixed >> 31)
    }

    /// Returns a number below `limit`, which is above 0.
    pub fn below(&mut self, limit: usize) -> usize {
        (self.next() % limit as u64) as usize
    }

    /// Returns whether a chance of `parts` in 1,000 came true.
    pub fn chance(&mut self, parts: u64) -> bool {
        self.next() % 1000 < parts
    }

    /// Returns a number of members: below `limit`, and one time in 30 up to 40, past the room that
    /// lists begin with and the keys that one node of a tree holds.
    pub fn count(&mut self, limit: usize) -> usize {
        match self.below(30) {
            0 => self.below(41),
            _ => self.below(limit),
        }
    }

    /// Returns one of a list, which isn't empty.
    pub fn pick<'a, T>(&mut self, list: &'a [T]) -> &'a T {
        &list[self.below(list.len())]
    }
}
