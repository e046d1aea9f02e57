//! The exact sine of the quarter wave (document 01, "Exact sine"): for
//! m = 0..512 the angle is m × p / 1024 with p = 3141592653589793238 / 10^18,
//! and the sine is its series through the 21st power, as a fraction. All 513
//! fractions are brought to one denominator, (1024 × 10^18)^21 × 21!.

use crate::natural::Natural;
use crate::turn::QUARTER_TURN;
use std::sync::OnceLock;

/// p × 10^18.
const P_NUMERATOR: u128 = 3_141_592_653_589_793_238;
/// The denominator of an angle.
const ANGLE_DENOMINATOR: u128 = 1_024 * 1_000_000_000_000_000_000;
/// The last power of the series, that of its eleventh term.
const LAST_POWER: u32 = 21;

/// The 513 exact sines of the quarter wave over one denominator.
pub struct ExactSines {
    /// The numerators at m = 0..512; none is below 0.
    pub numerators: Vec<Natural>,
    /// The denominator of all of them.
    pub denominator: Natural,
}

/// `last`! / `first`!, a whole number as `first` is not above `last`.
fn factorial_quotient(last: u32, first: u32) -> Natural {
    (first + 1..=last)
        .fold(Natural::from(1), |product, factor| &product * &Natural::from(u128::from(factor)))
}

/// The numerator of the sine at m over the common denominator.
fn numerator(m: u128) -> Natural {
    let angle = Natural::from(m * P_NUMERATOR);
    let mut added = Natural::default();
    let mut subtracted = Natural::default();
    for power in (1..=LAST_POWER).step_by(2) {
        let missing = Natural::from(ANGLE_DENOMINATOR).power(LAST_POWER - power);
        let term = &(&angle.power(power) * &missing) * &factorial_quotient(LAST_POWER, power);
        let side = if power % 4 == 1 { &mut added } else { &mut subtracted };
        *side = &*side + &term;
    }
    &added - &subtracted
}

/// The exact sines, worked out once.
pub fn exact_sines() -> &'static ExactSines {
    static SINES: OnceLock<ExactSines> = OnceLock::new();
    SINES.get_or_init(|| ExactSines {
        numerators: (0..=QUARTER_TURN as u128).map(numerator).collect(),
        denominator: &Natural::from(ANGLE_DENOMINATOR).power(LAST_POWER)
            * &factorial_quotient(LAST_POWER, 0),
    })
}

#[cfg(test)]
mod tests {
    use super::*;
    use crate::largest::largest;

    /// The whole part of 10^18 times the sine at m.
    fn eighteen_places(m: usize) -> u64 {
        let sines = exact_sines();
        let scaled = &sines.numerators[m] * &Natural::from(1_000_000_000_000_000_000);
        largest(61, |t| &sines.denominator * &Natural::from(u128::from(t)) <= scaled)
    }

    #[test]
    fn distance_from_the_true_sine_is_below_ten_to_minus_seventeen() {
        // The sines of 0, π/8, π/4, 3π/8 and π/2 to eighteen places.
        for (m, true_sine) in [
            (0, 0),
            (128, 382_683_432_365_089_771),
            (256, 707_106_781_186_547_524),
            (384, 923_879_532_511_286_756),
            (512, 1_000_000_000_000_000_000),
        ] {
            assert!(eighteen_places(m).abs_diff(true_sine) <= 10, "m = {m}");
        }
    }

    #[test]
    fn sines_grow_over_the_quarter() {
        assert!(exact_sines().numerators.is_sorted_by(|a, b| a < b));
    }
}
