//! Random numbers from a seed: SplitMix64. The same seed gives the same numbers everywhere.

pub struct Rng(u64);

impl Rng {
    /// A stream of its own for each case of each section, so that a case can be run again alone.
    pub fn of_case(seed: u64, section: u64, index: u64) -> Rng {
        let mut rng = Rng(seed);
        let mixed = rng.next() ^ section.wrapping_mul(0xD6E8_FEB8_6659_FD93);
        Rng(Rng(mixed).next() ^ Rng(index).next())
    }

    pub fn next(&mut self) -> u64 {
        self.0 = self.0.wrapping_add(0x9E37_79B9_7F4A_7C15);
        let mut z = self.0;
        z = (z ^ (z >> 30)).wrapping_mul(0xBF58_476D_1CE4_E5B9);
        z = (z ^ (z >> 27)).wrapping_mul(0x94D0_49BB_1331_11EB);
        z ^ (z >> 31)
    }

    pub fn byte(&mut self) -> u8 {
        self.next() as u8
    }

    /// Below n; 0 where n is 0.
    pub fn below(&mut self, n: usize) -> usize {
        (self.next() % n.max(1) as u64) as usize
    }

    /// Below n, as a byte.
    pub fn number(&mut self, n: u8) -> u8 {
        self.below(usize::from(n)) as u8
    }

    /// True `times` times in `of`.
    pub fn chance(&mut self, times: usize, of: usize) -> bool {
        self.below(of) < times
    }

    pub fn pick<T: Copy>(&mut self, from: &[T]) -> T {
        from[self.below(from.len())]
    }

    /// From 0 to below 1.
    pub fn unit(&mut self) -> f64 {
        (self.next() >> 11) as f64 / (1u64 << 53) as f64
    }

    /// A number below n that has a property, each with some chance; none where there is none.
    pub fn some(&mut self, n: u8, property: impl Fn(u8) -> bool) -> Option<u8> {
        let first = self.below(usize::from(n));
        (0..usize::from(n)).map(|i| ((first + i) % usize::from(n)) as u8).find(|&i| property(i))
    }
}
