//! Search for the largest whole number with a property. Square roots, the group
//! distortion and the rounding of the table are all stated by document 01 as
//! such a number, and are worked out here as they are stated.

/// The largest number below 2^`bits` for which `holds` is true. The property
/// must be true of 0 and, once false, stay false for all greater numbers.
pub fn largest(bits: u32, holds: impl Fn(u64) -> bool) -> u64 {
    let mut found = 0;
    for bit in (0..bits).rev() {
        let candidate = found | 1 << bit;
        if holds(candidate) {
            found = candidate;
        }
    }
    found
}

/// The whole part of the square root.
pub fn root(square: u64) -> u64 {
    largest(32, |whole| whole * whole <= square)
}

#[cfg(test)]
mod tests {
    use super::root;

    #[test]
    fn root_is_the_whole_part() {
        let greatest = u64::from(u32::MAX);
        for whole in [0, 1, 2, 3, 1000, 65_535, 65_536, greatest - 1, greatest] {
            assert_eq!(root(whole * whole), whole);
            assert_eq!(root(whole * whole + 2 * whole), whole);
        }
        assert_eq!(root(u64::MAX), greatest);
    }
}
