//! Numbers that look drawn, and come out the same wherever they are drawn again.

/// The generator with multiplier 48271 over the prime 2^31 - 1.
pub struct Draws(u64);

impl Draws {
    /// The seed lies between 0 and the prime: at both of them every draw is 0.
    pub fn from_seed(seed: u64) -> Self {
        Self(seed)
    }

    pub fn below(&mut self, bound: u16) -> u16 {
        self.0 = self.0 * 48_271 % 2_147_483_647;
        (self.0 % u64::from(bound)) as u16
    }

    pub fn byte_below(&mut self, bound: u8) -> u8 {
        self.below(u16::from(bound)) as u8
    }

    pub fn once_in(&mut self, times: u16) -> bool {
        self.below(times) == 0
    }

    /// A place in something of that length, which is neither 0 nor past 16 bits.
    pub fn place(&mut self, length: usize) -> usize {
        usize::from(self.below(length as u16))
    }

    pub fn pick<T: Copy>(&mut self, items: &[T]) -> T {
        items[self.place(items.len())]
    }
}

/// A number of a list or a table.
pub trait Word: Copy + PartialEq {
    /// As many of the lower bits as it has.
    fn of_bits(bits: u64) -> Self;

    /// The upper byte first, as one reads numbers.
    fn bytes(self) -> Vec<u8>;
}

impl Word for u16 {
    fn of_bits(bits: u64) -> Self {
        bits as Self
    }

    fn bytes(self) -> Vec<u8> {
        self.to_be_bytes().into()
    }
}

impl Word for u32 {
    fn of_bits(bits: u64) -> Self {
        bits as Self
    }

    fn bytes(self) -> Vec<u8> {
        self.to_be_bytes().into()
    }
}

/// The same for many millions of calls: the generator SplitMix64, which has no
/// seed to avoid and a period of 2^64.
pub struct Bits(u64);

impl Bits {
    /// Seeds that lie close together are no less unlike than others.
    pub fn from_seeds(first: u64, second: usize) -> Self {
        let mut bits = Self(first);
        let start = bits.draw() ^ second as u64;
        Self(Self(start).draw())
    }

    pub fn draw(&mut self) -> u64 {
        self.0 = self.0.wrapping_add(0x9E37_79B9_7F4A_7C15);
        let mixed = (self.0 ^ self.0 >> 30).wrapping_mul(0xBF58_476D_1CE4_E5B9);
        let mixed = (mixed ^ mixed >> 27).wrapping_mul(0x94D0_49BB_1331_11EB);
        mixed ^ mixed >> 31
    }

    pub fn byte(&mut self) -> u8 {
        self.draw() as u8
    }

    /// The upper half by multiplication, which is quicker than a remainder.
    pub fn below(&mut self, bound: u32) -> u32 {
        (((self.draw() >> 32) * u64::from(bound)) >> 32) as u32
    }

    pub fn byte_below(&mut self, bound: u8) -> u8 {
        self.below(bound.into()) as u8
    }

    pub fn place(&mut self, length: usize) -> usize {
        self.below(length as u32) as usize
    }

    pub fn once_in(&mut self, times: u32) -> bool {
        self.below(times) == 0
    }

    pub fn pick<T: Copy>(&mut self, items: &[T]) -> T {
        items[self.place(items.len())]
    }

    pub fn fill(&mut self, bytes: &mut [u8]) {
        for chunk in bytes.chunks_mut(8) {
            let drawn = self.draw().to_le_bytes();
            chunk.copy_from_slice(&drawn[..chunk.len()]);
        }
    }

    pub fn array<const N: usize>(&mut self) -> [u8; N] {
        let mut bytes = [0; N];
        self.fill(&mut bytes);
        bytes
    }

    pub fn bytes(&mut self, length: usize) -> Vec<u8> {
        let mut bytes = vec![0; length];
        self.fill(&mut bytes);
        bytes
    }

    pub fn words<T: Word>(&mut self, length: usize) -> Vec<T> {
        (0..length).map(|_| T::of_bits(self.draw())).collect()
    }

    /// The other generator, for what is made with it.
    pub fn draws(&mut self) -> Draws {
        Draws::from_seed(1 + self.draw() % 2_147_483_646)
    }
}

#[cfg(test)]
mod tests {
    use super::*;
    use std::collections::BTreeSet;

    /// As the generator's own page has them, from the seed 1234567.
    #[test]
    fn the_first_bits_are_the_known_ones() {
        let mut bits = Bits(1_234_567);
        for known in [
            6_457_827_717_110_365_317,
            3_203_168_211_198_807_973,
            9_817_491_932_198_370_423,
            4_593_380_528_125_082_431,
            16_408_922_859_458_223_821,
        ] {
            assert_eq!(bits.draw(), known);
        }
    }

    #[test]
    fn bits_below_a_bound_reach_all_of_it() {
        let mut bits = Bits::from_seeds(1, 2);
        let drawn: BTreeSet<u32> = (0..500).map(|_| bits.below(20)).collect();
        assert!(drawn.into_iter().eq(0..20));
        let mut bytes = [0; 13];
        bits.fill(&mut bytes);
        assert!(bytes.iter().filter(|&&byte| byte == 0).count() < 3);
    }

    /// The C++ standard gives this number as a check of its `minstd_rand`, the
    /// same generator, started at 1.
    #[test]
    fn the_ten_thousandth_draw_is_the_known_one() {
        let mut draws = Draws::from_seed(1);
        for _ in 0..10_000 {
            draws.below(1);
        }
        assert_eq!(draws.0, 399_268_537);
    }

    #[test]
    fn every_item_is_picked_sooner_or_later() {
        let mut draws = Draws::from_seed(1);
        let picked: BTreeSet<u8> = (0..100).map(|_| draws.pick(&[3, 5, 7])).collect();
        assert!(picked.into_iter().eq([3, 5, 7]));
    }
}
