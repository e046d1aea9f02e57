//! Group distortion (document 01, "Groups"): parts per thousand, unsmoothed.

use crate::largest::largest;
use crate::natural::Natural;
use crate::refusals::Refusal;
use crate::rows::ORDER_COUNT;

fn square(value: u64) -> Natural {
    Natural::from(u128::from(value) * u128::from(value))
}

/// The largest whole t with t² × R1² at most 1,000,000 × the sum of the squares
/// of R2..R40. It is below 2^45, as the sum is at most 39 × 2^64. Refused: 12.
pub fn distortion(values: &[u32; ORDER_COUNT]) -> Result<u64, Refusal> {
    let fundamental = square(values[0].into());
    if values[0] == 0 {
        return Err(Refusal::NoFundamental);
    }
    let mut bound = Natural::default();
    for &value in &values[1..] {
        bound.add_product(&square(value.into()), 1_000_000);
    }
    Ok(largest(45, |t| &square(t) * &fundamental <= bound))
}
