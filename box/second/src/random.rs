//! Numbers that look random and are the same in every run.

/// SplitMix64 (Steele, Lea and Flood, "Fast splittable pseudorandom number generators").
pub struct Random(u64);

impl Random {
    /// The sequence that belongs to `seed`.
    pub fn new(seed: u64) -> Self {
        Self(seed)
    }

    /// The sequence of one of many cases under one seed, unlike that of any other.
    pub fn of_case(seed: u64, case: u64) -> Self {
        Self(Self(Self(seed).number() ^ case).number())
    }

    fn number(&mut self) -> u64 {
        self.0 = self.0.wrapping_add(0x9E37_79B9_7F4A_7C15);
        let mut z = self.0;
        z = (z ^ (z >> 30)).wrapping_mul(0xBF58_476D_1CE4_E5B9);
        z = (z ^ (z >> 27)).wrapping_mul(0x94D0_49BB_1331_11EB);
        z ^ (z >> 31)
    }

    /// From 0 to `end`, without `end`.
    pub fn below(&mut self, end: usize) -> usize {
        (self.number() % end as u64) as usize
    }

    /// From `lowest` to `highest`, both included.
    pub fn between(&mut self, lowest: usize, highest: usize) -> usize {
        lowest + self.below(highest - lowest + 1)
    }

    /// True once in `turns`.
    pub fn one_in(&mut self, turns: usize) -> bool {
        self.below(turns) == 0
    }

    /// One of `values`.
    pub fn pick<T: Copy>(&mut self, values: &[T]) -> T {
        values[self.below(values.len())]
    }

    /// Each of `values` once in `turns`.
    pub fn some<T: Copy>(&mut self, values: &[T], turns: usize) -> Vec<T> {
        let chosen = values.iter().filter(|_| self.one_in(turns));
        chosen.copied().collect()
    }

    /// Any byte.
    pub fn byte(&mut self) -> u8 {
        self.number() as u8
    }

    /// That many bytes.
    pub fn bytes(&mut self, length: usize) -> Vec<u8> {
        (0..length).map(|_| self.byte()).collect()
    }

    /// That many bytes in little time: of a long row the first 251 over and over.
    pub fn repeated(&mut self, length: usize) -> Vec<u8> {
        let mut bytes = self.bytes(length.min(251)).repeat(length / 251 + 1);
        bytes.truncate(length);
        bytes
    }
}

#[cfg(test)]
mod tests {
    use super::Random;

    #[test]
    fn published_numbers() {
        // Of the reference program splitmix64.c for the seed 1234567, as Rosetta Code lists them.
        let mut random = Random::new(1_234_567);
        assert_eq!(random.number(), 6_457_827_717_110_365_317);
        assert_eq!(random.number(), 3_203_168_211_198_807_973);
    }
}
