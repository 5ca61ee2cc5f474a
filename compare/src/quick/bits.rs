//! Small sets as bits.

/// The members of a set, from the least on.
pub struct Members(pub u64);

impl Iterator for Members {
    type Item = usize;

    #[inline]
    fn next(&mut self) -> Option<usize> {
        let least = self.0.trailing_zeros() as usize;
        let left = (self.0 != 0).then_some(least);
        self.0 &= self.0.wrapping_sub(1);
        left
    }
}
