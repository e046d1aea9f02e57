//! The observation record (document 01, section of that name), to which an edition
//! belongs (document 02, card 7) and which keeps the latest rows (card 8). The record's
//! fields are wider than any sound record needs, so that records that are not sound can
//! be tried too.

use crate::refusals::Refusal;
use crate::rounding::nearest;
use crate::rows::{LARGEST_VALUE, ORDER_COUNT, Row, Setup};

/// The most windows of a record, 2.5 hours of them.
pub const MOST_WINDOWS: u64 = 45_000;
/// The windows of a three-second value, whose rows a record keeps.
pub const THREE_SECOND_WINDOWS: usize = 15;

/// The observation record; index 0 of each array is order 1.
#[derive(Clone, Debug, PartialEq, Eq)]
pub struct Observation {
    /// The system and the edition.
    pub setup: Setup,
    /// The count n of windows.
    pub windows: u64,
    /// The smoothed values.
    pub smoothed: [u64; ORDER_COUNT],
    /// The sums of smoothed values.
    pub sum: [u64; ORDER_COUNT],
    /// The peaks of smoothed values.
    pub peak: [u64; ORDER_COUNT],
    /// The values of the latest rows as they came, the newest last; before the first
    /// that came a sound record has rows of zeros.
    pub latest: [[u32; ORDER_COUNT]; THREE_SECOND_WINDOWS],
}

fn empty_record(setup: Setup) -> Observation {
    let zeros = [0; ORDER_COUNT];
    let latest = [[0; ORDER_COUNT]; THREE_SECOND_WINDOWS];
    Observation { setup, windows: 0, smoothed: zeros, sum: zeros, peak: zeros, latest }
}

/// A fresh record of the setup. Refused, with a record of system 10 and edition 2,
/// in this order: 1, 19.
pub fn fresh_record(setup: Setup) -> (Observation, Option<Refusal>) {
    match setup.check() {
        Ok(()) => (empty_record(setup), None),
        Err(refusal) => (empty_record(Setup::edition_2(10)), Some(refusal)),
    }
}

/// Whether a record is sound; one that holds another edition than the two is not
/// (document 02, card 7), and it "has zeros where none has come yet" of the latest rows
/// (card 8).
pub fn is_sound(observation: &Observation) -> bool {
    let no_sum_above = observation.windows.saturating_mul(LARGEST_VALUE);
    let rows_to_come = (THREE_SECOND_WINDOWS as u64).saturating_sub(observation.windows);
    observation.setup.check().is_ok()
        && observation.windows <= MOST_WINDOWS
        && observation.sum.iter().all(|&sum| sum <= no_sum_above)
        && observation.peak.iter().all(|&peak| peak <= LARGEST_VALUE)
        && observation.smoothed.iter().all(|&smoothed| smoothed <= LARGEST_VALUE)
        && observation.latest.iter().take(rows_to_come as usize).all(|row| *row == [0; ORDER_COUNT])
        && (observation.windows > 0 || *observation == empty_record(observation.setup))
}

/// (1000 × new + 7012 × old) / 8012 to the nearest, halves up; both below 2^32.
pub fn smoothed_value(new: u64, old: u64) -> u64 {
    nearest((1_000 * new + 7_012 * old) as i64, 8_012) as u64
}

/// Whether a row can be taken. Refused in this order: 7, 1, 19, 8, 9; "a row made
/// under the other edition is 8" (document 02, card 7).
fn check_row(observation: &Observation, row: &Row) -> Result<(), Refusal> {
    if !is_sound(observation) {
        return Err(Refusal::UnsoundRecord);
    }
    row.setup.check()?;
    if row.setup != observation.setup {
        return Err(Refusal::OtherSetup);
    }
    if observation.windows == MOST_WINDOWS {
        return Err(Refusal::RecordFull);
    }
    Ok(())
}

/// The record after a row; a refused row leaves it unchanged. "As a window arrives the
/// oldest leaves" (document 02, card 8).
pub fn add_row(observation: Observation, row: &Row) -> (Observation, Option<Refusal>) {
    if let Err(refusal) = check_row(&observation, row) {
        return (observation, Some(refusal));
    }
    let mut next = observation;
    for (place, &value) in row.values.iter().enumerate() {
        let new = u64::from(value);
        let first = next.windows == 0;
        let smoothed = if first { new } else { smoothed_value(new, next.smoothed[place]) };
        next.smoothed[place] = smoothed;
        next.sum[place] += smoothed;
        next.peak[place] = next.peak[place].max(smoothed);
    }
    next.windows += 1;
    next.latest.rotate_left(1);
    next.latest[THREE_SECOND_WINDOWS - 1] = row.values;
    (next, None)
}
