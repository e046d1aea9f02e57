//! The confusions that document 01 expects, and those about class B and edition
//! 2.0 A1: each test names one and shows that this program does not share it.

use reference::groups::{Kind, group_value};
use reference::observation::{add_row, fresh_record, smoothed_value};
use reference::rows::{Row, Setup};
use reference::spectrum::LINE_COUNT;
use reference::verdict::{Question, Verdict, order_verdict};

/// Whether a line enters the group of order 5.
fn enters(kind: Kind, system: u64, line: u64) -> bool {
    let mut lines = [0; LINE_COUNT];
    lines[line as usize] = 1 << 40;
    group_value(kind, Setup::edition_2(system), 5, &lines).unwrap() > 0
}

#[test]
fn edge_lines_have_half_weight() {
    let pulse = [4_000_000; LINE_COUNT];
    let value = |system, order, lines: &[u64]| {
        group_value(Kind::HarmonicGroup, Setup::edition_2(system), order, lines)
    };
    assert_eq!(value(10, 1, &pulse), Ok(8_944));
    for system in [10, 12] {
        let mut edges = [0; LINE_COUNT];
        edges[(system * 5 - system / 2) as usize] = 1 << 40;
        edges[(system * 5 + system / 2) as usize] = 1 << 40;
        let mut centre = [0; LINE_COUNT];
        centre[system as usize * 5] = 1 << 40;
        assert_eq!(value(system, 5, &edges), value(system, 5, &centre));
    }
}

#[test]
fn lines_of_each_kind_are_counted_from_the_harmonic() {
    for system in [10, 12] {
        let half = system as i64 / 2;
        let last = system as i64 - 1;
        for (kind, from, to) in [
            (Kind::Component, 0, 0),
            (Kind::HarmonicGroup, -half, half),
            (Kind::HarmonicSubgroup, -1, 1),
            (Kind::InterharmonicGroup, 1, last),
            (Kind::InterharmonicCentredSubgroup, 2, last - 1),
        ] {
            for offset in -20..=20 {
                let line = (5 * system as i64 + offset) as u64;
                let expected = (from..=to).contains(&offset);
                assert_eq!(enters(kind, system, line), expected, "{kind:?} {system} {offset}");
            }
        }
    }
}

#[test]
fn values_are_smoothed_and_not_their_squares() {
    let (new, old) = (0.0_f64, 8_944.0_f64);
    let of_squares = ((1_000.0 * new * new + 7_012.0 * old * old) / 8_012.0).sqrt();
    assert_eq!(of_squares.round(), 8_367.0);
    assert_eq!(smoothed_value(0, 8_944), 7_828);
}

/// The verdict on one window with a value at every order, at a million units per
/// ampere.
fn verdict_on(value: u32, order: u64, class_letter: u8) -> Verdict {
    let setup = Setup::edition_2(10);
    let (record, _) = fresh_record(setup);
    let (record, _) = add_row(record, &Row { setup, values: [value; 40] });
    order_verdict(&record, Question { order, class_letter, scale: 1_000_000 }).unwrap()
}

#[test]
fn limit_is_not_divided_before_it_is_compared() {
    // 2250/19 mA is 118421 and 1/19 units.
    assert_eq!(verdict_on(118_409, 19, b'A'), Verdict::Within(19));
    assert_eq!(verdict_on(118_410, 19, b'A'), Verdict::Close(19));
    assert_eq!(verdict_on(118_433, 19, b'A'), Verdict::Close(19));
    assert_eq!(verdict_on(118_434, 19, b'A'), Verdict::Over(19));
}

#[test]
fn class_b_is_not_150_per_cent_of_whole_units() {
    // Class A's 2250/17 mA is 132352 and 16/17 units, class B's limit 198529 and 7/17;
    // 150 % of 132352 would be less by 1 and 7/17.
    assert_eq!(verdict_on(198_517, 17, b'B'), Verdict::Within(17));
    assert_eq!(verdict_on(198_518, 17, b'B'), Verdict::Close(17));
    assert_eq!(verdict_on(198_541, 17, b'B'), Verdict::Close(17));
    assert_eq!(verdict_on(198_542, 17, b'B'), Verdict::Over(17));
}

#[test]
fn band_lies_on_both_sides_and_is_not_wider_in_class_b() {
    for (limit, class_letter) in [(2_300_000, b'A'), (3_450_000, b'B')] {
        for (below, above) in [(limit - 12, limit + 12), (limit - 11, limit + 13)] {
            let sides = [verdict_on(below, 3, class_letter), verdict_on(above, 3, class_letter)];
            assert!(sides.contains(&Verdict::Close(3)));
            assert_ne!(sides[0], sides[1]);
        }
    }
}

#[test]
fn a1_takes_no_lines_from_any_group_but_that_of_order_1() {
    // "Groups interharmonics from the second order up" could be read of the
    // interharmonic kinds, of the subgroup, or of the edge that orders 1 and 2 share.
    let values = |kind, order, line: usize| {
        let mut lines = [0; LINE_COUNT];
        lines[line] = 1 << 40;
        let setups = [Setup::edition_2(10), Setup::edition_a1(10)];
        setups.map(|setup| group_value(kind, setup, order, &lines).unwrap())
    };
    let (half, whole) = (1 << 20, 1_482_910);
    assert_eq!(values(Kind::HarmonicGroup, 1, 15), [half, 0]);
    assert_eq!(values(Kind::HarmonicGroup, 2, 15), [half; 2]);
    assert_eq!(values(Kind::HarmonicGroup, 1, 11), [whole, 0]);
    assert_eq!(values(Kind::HarmonicGroup, 1, 10), [whole; 2]);
    assert_eq!(values(Kind::HarmonicSubgroup, 1, 11), [whole; 2]);
    assert_eq!(values(Kind::InterharmonicGroup, 1, 11), [whole; 2]);
    assert_eq!(values(Kind::InterharmonicCentredSubgroup, 1, 12), [whole; 2]);
}
