//! The exact group G (document 01, "Groups"): exact sines in the sums, A and B
//! each twice the sum unrounded, and no root taken, so that G is a fraction.
//! Here too are the check of demand 3 on one group value, and the check of a three-second
//! value (document 02, card 8).

use crate::groups::{Kind, weighted_lines};
use crate::largest::largest;
use crate::natural::Natural;
use crate::rows::Setup;
use crate::sine::exact_sines;
use crate::spectrum::LINE_COUNT;
use crate::turn::{Place, QUARTER_TURN, cosine_place, sine_place};

/// How far a group value may lie from the exact one, in units.
pub const GROUP_MARGIN: u64 = 7;
/// How far a three-second value may lie from the exact one, in units.
pub const THREE_SECOND_MARGIN: u64 = 8;

/// The exact squares A² + B² of the 512 lines of a window in range.
pub struct ExactLines {
    numerators: Vec<Natural>,
    denominator: Natural,
}

/// A fraction G, the square of the exact group.
pub struct ExactGroup {
    numerator: Natural,
    denominator: Natural,
}

/// The square of twice the sum of the samples times the sine at their places,
/// as a numerator over the square of the sines' denominator. The samples that
/// meet one entry of the quarter wave are summed first.
fn squared_sum(window: &[i32], place_at: impl Fn(usize) -> Place) -> Natural {
    let mut factors = [0; QUARTER_TURN + 1];
    for (j, &sample) in window.iter().enumerate() {
        let place = place_at(j);
        let signed = if place.negated { -i64::from(sample) } else { sample.into() };
        factors[place.quarter_index] += signed;
    }
    let mut added = Natural::default();
    let mut subtracted = Natural::default();
    for (factor, sine) in factors.into_iter().zip(&exact_sines().numerators) {
        let side = if factor < 0 { &mut subtracted } else { &mut added };
        let size = u32::try_from(2 * factor.unsigned_abs()).expect("at most 2^30");
        side.add_product(sine, size);
    }
    let sum = added.distance(&subtracted);
    &sum * &sum
}

/// The exact lines of a window in range.
pub fn exact_lines(window: &[i32]) -> ExactLines {
    let line = |k: usize| {
        let a_squared = squared_sum(window, |j| cosine_place(j * k));
        let b_squared = squared_sum(window, |j| sine_place(j * k));
        &a_squared + &b_squared
    };
    ExactLines {
        numerators: (0..LINE_COUNT).map(line).collect(),
        denominator: exact_sines().denominator.power(2),
    }
}

impl ExactLines {
    /// G of a kind at a setup and order that the refusal table takes; its lines and
    /// weights are those of the edition (document 02, card 7).
    pub fn group(&self, kind: Kind, setup: Setup, order: u64) -> ExactGroup {
        let mut numerator = Natural::default();
        for (number, weight) in weighted_lines(kind, setup, order) {
            numerator.add_product(&self.numerators[number], weight as u32);
        }
        ExactGroup { numerator, denominator: self.denominator.clone() }
    }
}

impl ExactGroup {
    /// `value`² × denominator, which compares with the numerator as `value`²
    /// does with G.
    fn square_at_denominator(&self, value: u64) -> Natural {
        &Natural::from(u128::from(value).pow(2)) * &self.denominator
    }

    /// Demand 3 for one group value R: R less 7 (not below 0), squared, is at
    /// most G, and G is at most R plus 7, squared.
    pub fn is_near(&self, value: u64) -> bool {
        let low = value.saturating_sub(GROUP_MARGIN);
        self.square_at_denominator(low) <= self.numerator
            && self.numerator <= self.square_at_denominator(value + GROUP_MARGIN)
    }

    /// The sum of the G of several windows; of 15 of them a fifteenth is the square of
    /// the exact three-second value.
    pub fn sum(groups: &[ExactGroup]) -> ExactGroup {
        let zero = Natural::default();
        let numerator = groups.iter().fold(zero, |sum, group| &sum + &group.numerator);
        // Every exact line has the same denominator.
        ExactGroup { numerator, denominator: exact_sines().denominator.power(2) }
    }

    /// What card 8 says of a three-second value t, where this is the sum of the G of its
    /// 15 windows: 15 times the square of t less 8 (not below 0) is at most the sum, and
    /// the sum at most 15 times the square of t plus 8.
    pub fn is_near_three_seconds(&self, value: u64) -> bool {
        let times_15 = |value: u64| {
            let mut product = Natural::default();
            product.add_product(&self.square_at_denominator(value), 15);
            product
        };
        let low = value.saturating_sub(THREE_SECOND_MARGIN);
        times_15(low) <= self.numerator && self.numerator <= times_15(value + THREE_SECOND_MARGIN)
    }

    /// The whole part of 1000 times the root of G: thousandths of a unit.
    pub fn root_in_thousandths(&self) -> u64 {
        let mut scaled = Natural::default();
        scaled.add_product(&self.numerator, 1_000_000);
        largest(45, |root| self.square_at_denominator(root) <= scaled)
    }
}
