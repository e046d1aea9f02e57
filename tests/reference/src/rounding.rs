//! Rounding to the nearest whole number, halves up: the greatest whole number
//! that is at most the quotient plus one half, for negative quotients too.

/// `numerator` / `denominator` to the nearest, halves up.
pub fn nearest(numerator: i64, denominator: i64) -> i64 {
    (2 * numerator + denominator).div_euclid(2 * denominator)
}

#[cfg(test)]
mod tests {
    use super::nearest;

    #[test]
    fn halves_go_up_on_both_sides_of_zero() {
        let quarters: Vec<i64> = (-7..=7).map(|n| nearest(n, 4)).collect();
        assert_eq!(quarters, [-2, -1, -1, -1, -1, 0, 0, 0, 0, 1, 1, 1, 1, 2, 2]);
    }
}
