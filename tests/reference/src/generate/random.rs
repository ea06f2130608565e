//! A small generator of random numbers (splitmix64), the same on every machine.

#[derive(Clone, Debug)]
pub struct Random(u64);

impl Random {
    pub fn new(seed: u64) -> Random {
        Random(seed)
    }

    /// The generator of case `number` under a seed: a case can be made again without those before it.
    pub fn of_case(seed: u64, number: u64) -> Random {
        Random(Random(seed).next() ^ Random(number.wrapping_mul(0xD134_2543_DE82_EF95)).next())
    }

    #[allow(clippy::should_implement_trait)]
    pub fn next(&mut self) -> u64 {
        self.0 = self.0.wrapping_add(0x9E37_79B9_7F4A_7C15);
        let mut z = self.0;
        z = (z ^ z >> 30).wrapping_mul(0xBF58_476D_1CE4_E5B9);
        z = (z ^ z >> 27).wrapping_mul(0x94D0_49BB_1331_11EB);
        z ^ z >> 31
    }

    /// A number below `bound`, which is above 0.
    #[inline]
    pub fn below(&mut self, bound: usize) -> usize {
        ((self.next() >> 32) * bound as u64 >> 32) as usize
    }

    /// A number from `low` to `high`.
    pub fn within(&mut self, low: usize, high: usize) -> usize {
        low + self.below(high - low + 1)
    }

    /// True `times` times in `of`.
    #[inline]
    pub fn chance(&mut self, times: usize, of: usize) -> bool {
        self.below(of) < times
    }

    pub fn pick<T: Copy>(&mut self, from: &[T]) -> T {
        from[self.below(from.len())]
    }

    /// A member of a set that is not empty.
    #[inline]
    pub fn member(&mut self, set: u16) -> usize {
        let mut left = set;
        for _ in 0..self.below(set.count_ones() as usize) {
            left &= left - 1;
        }
        left.trailing_zeros() as usize
    }
}
