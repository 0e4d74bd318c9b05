//! Small sets as bits: bit k stands for item k.

/// Returns the members of a set, lowest first.
#[inline]
pub fn members(mut set: u32) -> impl Iterator<Item = usize> {
    std::iter::from_fn(move || {
        if set == 0 {
            return None;
        }
        let lowest = set.trailing_zeros() as usize;
        set &= set - 1;
        Some(lowest)
    })
}

/// Returns the set of all items below `count`, which is at most 32.
#[inline]
pub fn below(count: u8) -> u32 {
    ((1u64 << count) - 1) as u32
}

#[cfg(test)]
mod tests {
    use super::*;

    #[test]
    fn members_come_lowest_first() {
        assert_eq!(members(0b1001_0010).collect::<Vec<_>>(), [1, 4, 7]);
        assert_eq!(members(0).count(), 0);
        assert_eq!(members(u32::MAX).last(), Some(31));
    }

    #[test]
    fn below_reaches_the_whole_word() {
        assert_eq!((below(1), below(16), below(32)), (1, 0xffff, u32::MAX));
    }
}
