//! The recordings of `examples/recordings`, judged by the core in both classes as the script beside them says,
//! under each edition. Their records are the second program's, and so are the panel's rows of their windows.

use crate::{panel, setup, Tally};
use kifsang::{Kind, Verdict, CLASS_A, CLASS_B, EDITION_2, EDITION_A1};
use kifsang::{ORDER_COUNT, RECORD_WORDS, WINDOW_LENGTH};
use reference::observe::observe;
use reference::words::words_of;

/// 4,000 counts per ampere, 4,096 units in a count.
const UNITS_PER_AMPERE: u32 = 4_000 * 4_096;

/// The system and the samples of a recording.
fn read(name: &str) -> (u32, Vec<i32>) {
    let path = format!("examples/recordings/{name}.txt");
    let text = std::fs::read(path).expect("the recording");
    let numbers: Vec<i64> = text
        .chunks(9)
        .map(|line| kifsang::read_column(&line[..8]).expect("a column"))
        .collect();
    let samples = numbers[1..].iter().map(|&number| number as i32).collect();
    (numbers[0] as u32, samples)
}

/// The record of a recording under an edition.
fn record_of(tally: &mut Tally, name: &str, edition: u32) -> [u64; RECORD_WORDS] {
    let (system, samples) = read(name);
    let windows = samples.len() / WINDOW_LENGTH;
    let mut record = [0; RECORD_WORDS];
    kifsang::observe(
        &samples,
        0,
        windows,
        system,
        edition,
        Kind::HarmonicGroup,
        &mut record,
    )
    .expect("a record");
    let kind = reference::groups::Kind::HarmonicGroup;
    let expected = observe(&samples, 0, windows, setup(system, edition), kind);
    tally.same(
        name,
        record.to_vec(),
        words_of(&expected.expect("a record of the second program")),
    );
    record
}

/// The orders 2..40 that are over their limit in a class, and those that are close.
fn over_and_close(
    tally: &mut Tally,
    name: &str,
    edition: u32,
    class_letter: u8,
) -> (Vec<u32>, Vec<u32>) {
    let record = record_of(tally, name, edition);
    let judged = |verdict| {
        let given = |order| kifsang::verdict(&record, order, class_letter, UNITS_PER_AMPERE);
        (2..=ORDER_COUNT as u32)
            .filter(|&order| given(order) == Ok(verdict))
            .collect()
    };
    (judged(Verdict::Over), judged(Verdict::Close))
}

pub fn compare(tally: &mut Tally) {
    for name in ["heater_passes", "dimmer", "supply_fails"] {
        let (_, samples) = read(name);
        panel::compare_windows(tally, name, &samples, 0, samples.len() / WINDOW_LENGTH);
    }
    for edition in [EDITION_2, EDITION_A1] {
        let [a, b] = [CLASS_A, CLASS_B].map(|class_letter| {
            for name in ["heater_passes", "dimmer"] {
                let judged = over_and_close(tally, name, edition, class_letter);
                tally.same(name, judged, (Vec::new(), Vec::new()));
            }
            let (over, close) = over_and_close(tally, "supply_fails", edition, class_letter);
            let several_odd = over.len() > 1 && over.iter().all(|order| order % 2 == 1);
            tally.same("the supply's odd orders are over", several_odd, true);
            tally.same("the supply's other orders", close, Vec::new());
            over
        });
        let fewer = b.len() < a.len() && b.iter().all(|order| a.contains(order));
        tally.same("the supply is over at fewer orders in class B", fewer, true);
    }
}
