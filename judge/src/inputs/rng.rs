//! A small generator, so that a seed gives the same inputs on every machine (SplitMix64).

#[derive(Clone, Debug)]
pub struct Rng(u64);

impl Rng {
    pub fn new(seed: u64) -> Self { Rng(seed) }

    /// A generator of its own for each input of each family.
    pub fn for_input(seed: u64, family: &str, index: u64) -> Self {
        let mut r = Rng(seed);
        for b in family.bytes() { r.0 = r.next() ^ b as u64; }
        r.0 = r.next() ^ index;
        r.next();
        r
    }

    pub fn next(&mut self) -> u64 {
        self.0 = self.0.wrapping_add(0x9E37_79B9_7F4A_7C15);
        let mut z = self.0;
        z = (z ^ (z >> 30)).wrapping_mul(0xBF58_476D_1CE4_E5B9);
        z = (z ^ (z >> 27)).wrapping_mul(0x94D0_49BB_1331_11EB);
        z ^ (z >> 31)
    }

    /// Below `n`; 0 when `n` is 0.
    pub fn below(&mut self, n: usize) -> usize { if n == 0 { 0 } else { (self.next() % n as u64) as usize } }

    /// From `low` to `high`, both included.
    pub fn within(&mut self, low: usize, high: usize) -> usize { low + self.below(high - low + 1) }

    /// Once in `n`.
    pub fn once_in(&mut self, n: usize) -> bool { self.below(n) == 0 }

    pub fn pick<T: Clone>(&mut self, from: &[T]) -> T { from[self.below(from.len())].clone() }

    pub fn u32(&mut self) -> u32 { self.next() as u32 }
    pub fn u16(&mut self) -> u16 { self.next() as u16 }
    pub fn u8(&mut self) -> u8 { self.next() as u8 }
    pub fn bytes(&mut self, n: usize) -> Vec<u8> { (0..n).map(|_| self.u8()).collect() }
}
