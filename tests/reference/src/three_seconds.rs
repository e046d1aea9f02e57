//! The three-second value of an order (document 02, card 8): "over the latest 15
//! windows, the largest t with 15×t² at most the sum of the 15 squared group values".

use crate::largest::largest;
use crate::observation::{Observation, THREE_SECOND_WINDOWS, is_sound};
use crate::refusals::Refusal;
use crate::rows::is_order;

/// The largest t with 15 × t² at most the sum of the squares of 15 values. A larger
/// one than the largest value never comes, but 40 bits are searched all the same.
pub fn three_second_of(values: &[u32; THREE_SECOND_WINDOWS]) -> u64 {
    let sum: u128 = values.iter().map(|&value| u128::from(value).pow(2)).sum();
    largest(40, |t| THREE_SECOND_WINDOWS as u128 * u128::from(t).pow(2) <= sum)
}

/// The three-second value of an order, in units. Refused in this order: 7, 6, 20.
pub fn three_second_value(observation: &Observation, order: u64) -> Result<u64, Refusal> {
    if !is_sound(observation) {
        return Err(Refusal::UnsoundRecord);
    }
    if !is_order(order) {
        return Err(Refusal::OrderOutOfRange);
    }
    if observation.windows < THREE_SECOND_WINDOWS as u64 {
        return Err(Refusal::TooFewWindows);
    }
    Ok(three_second_of(&observation.latest.map(|row| row[order as usize - 1])))
}
