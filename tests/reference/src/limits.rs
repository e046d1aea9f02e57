//! The limits in mA: class A's (document 01, "Class A verdicts"), class B's, which
//! are 150 % of them (document 02, card 1), and for a reader of the printed
//! standard each order's limit in lowest terms (card 2). A verdict works from the
//! rule.

use crate::refusals::Refusal;
use crate::rows::ORDER_COUNT;

/// A class of equipment; a caller names it by its letter.
#[derive(Clone, Copy, Debug, PartialEq, Eq)]
pub enum Class {
    /// Document 01's.
    A,
    /// Portable tools.
    B,
}

impl Class {
    /// The class of a letter. Refused: 15.
    pub fn of_letter(class_letter: u8) -> Result<Class, Refusal> {
        match class_letter {
            b'A' => Ok(Class::A),
            b'B' => Ok(Class::B),
            _ => Err(Refusal::UnknownClass),
        }
    }
}

/// A limit in mA, an exact fraction.
#[derive(Clone, Copy, Debug, PartialEq, Eq)]
pub struct Limit {
    /// The numerator.
    pub numerator: u64,
    /// The denominator, above 0.
    pub denominator: u64,
}

/// Whether an order has a limit: 2..40.
pub fn has_limit(order: u64) -> bool {
    (2..=ORDER_COUNT as u64).contains(&order)
}

/// The class A limit of an order 2..40 as document 01 writes it.
fn class_a_limit(order: u64) -> Limit {
    let (numerator, denominator) = match order {
        2 => (1_080, 1),
        3 => (2_300, 1),
        4 => (430, 1),
        5 => (1_140, 1),
        6 => (300, 1),
        7 => (770, 1),
        9 => (400, 1),
        11 => (330, 1),
        13 => (210, 1),
        _ if order % 2 == 1 => (2_250, order),
        _ => (1_840, order),
    };
    Limit { numerator, denominator }
}

/// The limit of an order 2..40 in a class as the rule gives it, not in lowest
/// terms: class B's is 150 % of class A's.
pub fn limit_by_rule(order: u64, class: Class) -> Limit {
    let Limit { numerator, denominator } = class_a_limit(order);
    match class {
        Class::A => Limit { numerator, denominator },
        Class::B => Limit { numerator: numerator * 150, denominator: denominator * 100 },
    }
}

/// The greatest whole number that divides both; one of them is above 0.
fn greatest_common_divisor(a: u64, b: u64) -> u64 {
    if b == 0 { a } else { greatest_common_divisor(b, a % b) }
}

/// The limit of an order in the class of a letter, in lowest terms. Refused in
/// this order: 6, 15.
pub fn order_limit(order: u64, class_letter: u8) -> Result<Limit, Refusal> {
    if !has_limit(order) {
        return Err(Refusal::OrderOutOfRange);
    }
    let class = Class::of_letter(class_letter)?;
    let Limit { numerator, denominator } = limit_by_rule(order, class);
    let divisor = greatest_common_divisor(numerator, denominator);
    Ok(Limit { numerator: numerator / divisor, denominator: denominator / divisor })
}
