//! A record as the words that a call over words takes: system, edition, n, the smoothed
//! values, the sums and the peaks, and then the values of the latest rows, two in a word,
//! the first of them in the lower half. The row of window n, counted from 0, has the
//! place n mod 15 among the rows.

use crate::observation::{Observation, THREE_SECOND_WINDOWS};
use crate::rows::{ORDER_COUNT, Setup};

/// The place of the first word of the latest rows.
pub const LATEST_PLACE: usize = 3 + 3 * ORDER_COUNT;
/// The words of a record.
pub const RECORD_WORDS: usize = LATEST_PLACE + THREE_SECOND_WINDOWS * ORDER_COUNT / 2;

/// The place among the words' rows of the oldest of the latest rows, which is that of
/// the window to come.
fn oldest_place(windows: u64) -> usize {
    (windows % THREE_SECOND_WINDOWS as u64) as usize
}

/// The words of a record.
pub fn words_of(record: &Observation) -> Vec<u64> {
    let Setup { system, edition } = record.setup;
    let mut words = vec![system, edition, record.windows];
    words.extend([record.smoothed, record.sum, record.peak].concat());
    let mut rows = record.latest;
    rows.rotate_right(oldest_place(record.windows));
    let values = rows.concat();
    words.extend(values.chunks(2).map(|pair| u64::from(pair[0]) + (u64::from(pair[1]) << 32)));
    words
}

/// The record that has these words, of which there are 423.
pub fn record_of(words: &[u64]) -> Observation {
    let array = |first: usize| std::array::from_fn(|place| words[first + place]);
    let value = |number: usize| (words[LATEST_PLACE + number / 2] >> (32 * (number % 2))) as u32;
    let row = |row: usize| std::array::from_fn(|place| value(ORDER_COUNT * row + place));
    let mut latest: [[u32; ORDER_COUNT]; THREE_SECOND_WINDOWS] = std::array::from_fn(row);
    latest.rotate_left(oldest_place(words[2]));
    Observation {
        setup: Setup { system: words[0], edition: words[1] },
        windows: words[2],
        smoothed: array(3),
        sum: array(3 + ORDER_COUNT),
        peak: array(3 + 2 * ORDER_COUNT),
        latest,
    }
}
