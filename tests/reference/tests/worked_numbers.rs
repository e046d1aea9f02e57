//! The worked numbers of document 01, by their marks, which keep edition 2, the
//! pulse under edition 2.0 A1 (document 02, card 7), and the worked listing.

use reference::columns::read_column;
use reference::groups::{Kind, group_row, group_value};
use reference::harmlist::harmlist;
use reference::inputs::input_bytes;
use reference::observation::{Observation, add_row, fresh_record};
use reference::refusals::Refusal;
use reference::rows::{Row, Setup};
use reference::signals::{constant, pulse};
use reference::spectrum::{WINDOW_LENGTH, lines_of};
use reference::table::quarter_wave;
use reference::verdict::{Question, Verdict, order_verdict};

/// The pulse of document 01: sample 0 is 1000, the rest 0.
fn pulse_lines() -> [u64; 512] {
    lines_of(&pulse(WINDOW_LENGTH, 0, 1_000).samples, 0).unwrap()
}

/// The record after rows that hold one value at all orders.
fn record_of(system: u64, values: &[u32]) -> Observation {
    let setup = Setup::edition_2(system);
    let (fresh, _) = fresh_record(setup);
    values.iter().fold(fresh, |record, &value| {
        let (record, refusal) = add_row(record, &Row { setup, values: [value; 40] });
        assert_eq!(refusal, None);
        record
    })
}

fn asked_in_class_a(order: u64, scale: u64) -> Question {
    Question { order, class_letter: b'A', scale }
}

#[test]
fn number_1_table_entries() {
    let table = quarter_wave();
    assert_eq!([table[0], table[256], table[512]], [0, 759_250_125, 1_073_741_824]);
}

#[test]
fn number_2_every_line_of_the_pulse() {
    assert_eq!(pulse_lines(), [4_000_000; 512]);
}

#[test]
fn numbers_3_to_7_groups_of_the_pulse() {
    for (kind, at_10, at_12) in [
        (Kind::Component, 2_828, 2_828),
        (Kind::HarmonicSubgroup, 4_898, 4_898),
        (Kind::HarmonicGroup, 8_944, 9_797),
        (Kind::InterharmonicGroup, 8_485, 9_380),
        (Kind::InterharmonicCentredSubgroup, 7_483, 8_485),
    ] {
        for (system, value) in [(10, at_10), (12, at_12)] {
            let setup = Setup::edition_2(system);
            let row = Row { setup, values: [value; 40] };
            assert_eq!(group_row(kind, setup, &pulse_lines()), Ok(row), "{kind:?}");
        }
    }
}

#[test]
fn groups_of_the_pulse_under_a1() {
    // Of each kind the value of order 1 and that of the orders 2..40.
    for (kind, at_10, at_12) in [
        (Kind::Component, [2_828, 2_828], [2_828, 2_828]),
        (Kind::HarmonicSubgroup, [4_898, 4_898], [4_898, 4_898]),
        (Kind::HarmonicGroup, [2_828, 8_944], [2_828, 9_797]),
        (Kind::InterharmonicGroup, [8_485, 8_485], [9_380, 9_380]),
        (Kind::InterharmonicCentredSubgroup, [7_483, 7_483], [8_485, 8_485]),
    ] {
        for (system, [first, later]) in [(10, at_10), (12, at_12)] {
            let setup = Setup { system, edition: 1 };
            let mut values = [later; 40];
            values[0] = first;
            assert_eq!(group_row(kind, setup, &pulse_lines()), Ok(Row { setup, values }));
            let [of_1, of_2] = [1, 2].map(|order| group_value(kind, setup, order, &pulse_lines()));
            assert_eq!([of_1, of_2], [Ok(first.into()), Ok(later.into())], "{kind:?}");
        }
    }
}

#[test]
fn number_8_smoothing() {
    assert_eq!(record_of(10, &[8_944, 0]).smoothed, [7_828; 40]);
    assert_eq!(record_of(10, &[0, 8_944]).smoothed, [1_116; 40]);
}

#[test]
fn number_9_verdicts_on_order_3() {
    for (value, expected) in [
        (2_299_988, Verdict::Within(3)),
        (2_299_989, Verdict::Close(3)),
        (2_300_012, Verdict::Close(3)),
        (2_300_013, Verdict::Over(3)),
    ] {
        assert_eq!(
            order_verdict(&record_of(12, &[value]), asked_in_class_a(3, 1_000_000)),
            Ok(expected),
            "{value}"
        );
    }
}

#[test]
fn number_10_columns() {
    assert_eq!(read_column(b"      -7"), Ok(-7));
    assert_eq!(read_column(b"      07"), Err(Refusal::NotAColumn));
    assert_eq!(read_column(b"      -0"), Err(Refusal::NotAColumn));
}

#[test]
fn unmarked_sample_range() {
    let refusal = |sample| lines_of(&pulse(WINDOW_LENGTH, 9, sample).samples, 0).err();
    assert_eq!(refusal(131_071), None);
    assert_eq!(refusal(131_072), Some(Refusal::SampleOutOfRange));
}

#[test]
fn unmarked_orders() {
    let value = |order| group_value(Kind::Component, Setup::edition_2(12), order, &pulse_lines());
    assert_eq!(value(40), Ok(2_828));
    assert_eq!(value(41), Err(Refusal::OrderOutOfRange));
    assert_eq!(
        order_verdict(&record_of(10, &[0]), asked_in_class_a(40, 1_000_000)),
        Ok(Verdict::Within(40))
    );
    assert_eq!(
        order_verdict(&record_of(10, &[0]), asked_in_class_a(41, 1_000_000)),
        Err(Refusal::OrderOutOfRange)
    );
}

#[test]
fn unmarked_scales() {
    let record = record_of(10, &[0]);
    assert_eq!(order_verdict(&record, asked_in_class_a(2, 268_435_456)), Ok(Verdict::Within(2)));
    assert_eq!(
        order_verdict(&record, asked_in_class_a(2, 268_435_457)),
        Err(Refusal::ScaleOutOfRange)
    );
}

#[test]
fn listing_of_a_constant_window() {
    let input = input_bytes(10, &constant(WINDOW_LENGTH, 500).samples);
    let expected = "  h       group    subgroup    smoothed
  1           0           0           0
";
    assert_eq!(String::from_utf8(harmlist(input.into_iter())).unwrap(), expected);
}
