//! Verdicts (document 01, "Class A verdicts"), in a class (document 02, card 1).
//! Limits stay the exact fractions of the rule, and fractions are compared by
//! cross products.

use crate::limits::{Class, Limit, has_limit, limit_by_rule};
use crate::observation::{Observation, is_sound};
use crate::refusals::Refusal;

/// The largest scale: K, the units per ampere.
pub const LARGEST_SCALE: u64 = 1 << 28;
/// How far a smoothed value may lie from the exact one, in units.
const SMOOTHED_MARGIN: i128 = 12;

/// What is asked: the verdict on an order in a class at a scale.
#[derive(Clone, Copy, Debug, PartialEq, Eq)]
pub struct Question {
    /// The order.
    pub order: u64,
    /// The letter of the class.
    pub class_letter: u8,
    /// K, the units per ampere.
    pub scale: u64,
}

/// The verdict on one order, which it carries.
#[derive(Clone, Copy, Debug, PartialEq, Eq)]
pub enum Verdict {
    /// Both tests are within.
    Within(u64),
    /// Neither of the other two.
    Close(u64),
    /// A test is over.
    Over(u64),
}

/// A fraction; the denominator is above 0.
#[derive(Clone, Copy)]
struct Fraction {
    numerator: i128,
    denominator: i128,
}

impl Fraction {
    fn plus(self, whole: i128) -> Fraction {
        Fraction { numerator: self.numerator + whole * self.denominator, ..self }
    }

    fn at_most(self, other: Fraction) -> bool {
        self.numerator * other.denominator <= other.numerator * self.denominator
    }
}

/// A limit in units: the mA figure × K / 1000, and that times `percent` / 100.
fn limit_in_units(milliamperes: Limit, scale: u64, percent: i128) -> Fraction {
    Fraction {
        numerator: i128::from(milliamperes.numerator) * i128::from(scale) * percent,
        denominator: i128::from(milliamperes.denominator) * 1_000 * 100,
    }
}

/// One test: within if value + 12 is at most the limit, over if value − 12
/// exceeds it, else close.
fn test(value: Fraction, limit: Fraction, order: u64) -> Verdict {
    if value.plus(SMOOTHED_MARGIN).at_most(limit) {
        Verdict::Within(order)
    } else if !value.plus(-SMOOTHED_MARGIN).at_most(limit) {
        Verdict::Over(order)
    } else {
        Verdict::Close(order)
    }
}

/// The verdict on an order. Refused in this order: 7, 10, 6, 15, 11.
pub fn order_verdict(observation: &Observation, question: Question) -> Result<Verdict, Refusal> {
    let Question { order, class_letter, scale } = question;
    if !is_sound(observation) {
        return Err(Refusal::UnsoundRecord);
    }
    if observation.windows == 0 {
        return Err(Refusal::NoWindow);
    }
    if !has_limit(order) {
        return Err(Refusal::OrderOutOfRange);
    }
    let class = Class::of_letter(class_letter)?;
    if !(1..=LARGEST_SCALE).contains(&scale) {
        return Err(Refusal::ScaleOutOfRange);
    }
    let place = order as usize - 1;
    let average = Fraction {
        numerator: observation.sum[place].into(),
        denominator: observation.windows.into(),
    };
    let peak = Fraction { numerator: observation.peak[place].into(), denominator: 1 };
    let limit = limit_by_rule(order, class);
    let tests = [
        test(average, limit_in_units(limit, scale, 100), order),
        test(peak, limit_in_units(limit, scale, 150), order),
    ];
    Ok(if tests.contains(&Verdict::Over(order)) {
        Verdict::Over(order)
    } else if tests == [Verdict::Within(order); 2] {
        Verdict::Within(order)
    } else {
        Verdict::Close(order)
    })
}
