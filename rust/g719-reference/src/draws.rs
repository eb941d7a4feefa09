//! Drawn numbers for the tests of this package.

/// A linear congruential generator: equal starts draw equal numbers.
pub(crate) struct Draws(pub(crate) u64);

impl Draws {
    /// A number below `limit`, which is not 0. Only the upper bits are used,
    /// since the lower ones repeat soon.
    pub(crate) fn below(&mut self, limit: usize) -> usize {
        self.0 = self.0.wrapping_mul(6_364_136_223_846_793_005).wrapping_add(1);
        (self.0 >> 33) as usize % limit
    }
}
