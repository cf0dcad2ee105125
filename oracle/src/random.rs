//! Numbers from a seed (splitmix64), the same on every machine.

#[derive(Clone)]
pub struct Random(u64);

impl Random {
    /// The numbers of one seed and one of its streams.
    pub fn new(seed: u64, stream: u64) -> Random {
        let mut of_seed = Random(seed);
        let mixed = of_seed.next() ^ stream.wrapping_mul(0x9e37_79b9_7f4a_7c15);
        let mut of_both = Random(mixed);
        of_both.next();
        of_both
    }

    pub fn next(&mut self) -> u64 {
        self.0 = self.0.wrapping_add(0x9e37_79b9_7f4a_7c15);
        let mut z = self.0;
        z = (z ^ (z >> 30)).wrapping_mul(0xbf58_476d_1ce4_e5b9);
        z = (z ^ (z >> 27)).wrapping_mul(0x94d0_49bb_1331_11eb);
        z ^ (z >> 31)
    }

    /// A number below this one.
    pub fn below(&mut self, n: usize) -> usize {
        (self.next() % n as u64) as usize
    }

    /// A number from the first to the last of these.
    pub fn between(&mut self, least: usize, most: usize) -> usize {
        least + self.below(most - least + 1)
    }

    /// True in so many of a hundred draws.
    pub fn percent(&mut self, of_hundred: usize) -> bool {
        self.below(100) < of_hundred
    }

    pub fn pick<'a, T>(&mut self, of: &'a [T]) -> &'a T {
        &of[self.below(of.len())]
    }
}
