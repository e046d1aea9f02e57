//! The two editions beside each other (document 02, card 7): "under A1 the harmonic
//! group of order 1 is its component alone, others and the other kinds as now", and
//! `harmlist` keeps edition 2.

use reference::distortion::distortion;
use reference::groups::{Kind, group_row, group_value, weighted_lines};
use reference::harmlist::harmlist;
use reference::inputs::input_bytes;
use reference::observation::Observation;
use reference::observe::observe;
use reference::rows::{SYSTEMS, Setup, is_edition};
use reference::signals::{
    Signal, appliances, microwave_oven, plain_windows, pulse, seeded_windows,
};
use reference::spectrum::{LINE_COUNT, WINDOW_LENGTH, lines_of};
use reference::verdict::{Question, order_verdict};

/// A system under edition 2 and under A1.
fn both(system: u64) -> [Setup; 2] {
    [Setup::edition_2(system), Setup::edition_a1(system)]
}

fn windows() -> Vec<Signal> {
    let mut signals = plain_windows();
    signals.extend(seeded_windows(7));
    for system in SYSTEMS {
        signals.extend(appliances(WINDOW_LENGTH, system, 7));
    }
    signals
}

#[test]
fn editions_are_the_numbers_0_and_1() {
    assert_eq!([0, 1].map(|edition| Setup { system: 12, edition }), both(12));
    let others = [2, 10, 12, u64::from(u32::MAX), 1 << 32, (1 << 32) + 1, u64::MAX];
    assert!(is_edition(0) && is_edition(1) && !others.into_iter().any(is_edition));
}

#[test]
fn lines_and_weights_differ_at_one_place() {
    for system in SYSTEMS {
        let [two, a1] = both(system);
        for kind in Kind::ALL {
            for order in 1..=40 {
                let component_alone = kind == Kind::HarmonicGroup && order == 1;
                let kind_under_2 = if component_alone { Kind::Component } else { kind };
                let expected = weighted_lines(kind_under_2, two, order);
                assert_eq!(weighted_lines(kind, a1, order), expected, "{kind:?} {a1:?} {order}");
            }
        }
        let alone = vec![(system as usize, 2)];
        assert_eq!(weighted_lines(Kind::HarmonicGroup, a1, 1), alone);
        let under_2 = weighted_lines(Kind::HarmonicGroup, two, 1);
        assert_eq!(under_2.len() as u64, system + 1);
    }
}

#[test]
fn a_line_beside_the_component_enters_order_1_under_edition_2_alone() {
    for system in SYSTEMS {
        for line in 0..=40 {
            let mut lines = [0; LINE_COUNT];
            lines[line as usize] = 1 << 40;
            let enters = both(system)
                .map(|setup| group_value(Kind::HarmonicGroup, setup, 1, &lines).unwrap() > 0);
            let in_group = (system - system / 2..=system + system / 2).contains(&line);
            assert_eq!(enters, [in_group, line == system], "{system} {line}");
        }
    }
}

#[test]
fn rows_are_alike_but_for_the_harmonic_group_of_order_1() {
    let mut differing = 0;
    for signal in windows() {
        let lines = lines_of(&signal.samples, 0).unwrap();
        for system in SYSTEMS {
            for kind in Kind::ALL {
                let [two, a1] = both(system).map(|setup| group_row(kind, setup, &lines).unwrap());
                let mut expected = two.values;
                if kind == Kind::HarmonicGroup {
                    let [component, of_a1] = both(system)
                        .map(|setup| group_row(Kind::Component, setup, &lines).unwrap().values[0]);
                    assert_eq!(component, of_a1);
                    expected[0] = component;
                    differing += usize::from(expected != two.values);
                }
                assert_eq!(a1.values, expected, "{}: {kind:?} {system}", signal.name);
                assert_eq!([two.setup, a1.setup], both(system));
            }
        }
    }
    assert!(differing > 50, "{differing} rows differ");
}

#[test]
fn distortion_is_never_less_under_a1() {
    // The group of order 1 is never less than its component; the others are alike.
    for signal in windows() {
        let lines = lines_of(&signal.samples, 0).unwrap();
        for system in SYSTEMS {
            let [two, a1] = both(system).map(|setup| {
                let row = group_row(Kind::HarmonicGroup, setup, &lines).unwrap();
                distortion(&row.values)
            });
            assert!(a1.is_err() || two.unwrap() <= a1.unwrap(), "{}: {system}", signal.name);
        }
    }
}

/// A record without order 1, and without its edition.
fn from_order_2(record: &Observation) -> (u64, u64, [&[u64]; 3]) {
    let parts = [&record.smoothed[1..], &record.sum[1..], &record.peak[1..]];
    (record.setup.system, record.windows, parts)
}

#[test]
fn records_are_alike_but_for_the_harmonic_group_of_order_1() {
    for system in SYSTEMS {
        let samples = microwave_oven(5 * WINDOW_LENGTH, system, 100_000.0, 17, 9).samples;
        let records =
            |kind| both(system).map(|setup| observe(&samples, 0, 5, setup, kind).unwrap());
        let of_order_1 = |record: &Observation| [record.smoothed[0], record.sum[0], record.peak[0]];
        let component = of_order_1(&records(Kind::Component)[0]);
        for kind in Kind::ALL {
            let [two, a1] = records(kind);
            assert_eq!([two.setup, a1.setup], both(system));
            assert_eq!(from_order_2(&two), from_order_2(&a1));
            if kind == Kind::HarmonicGroup {
                assert_eq!(of_order_1(&a1), component);
                assert_ne!(of_order_1(&two), component);
            } else {
                assert_eq!(of_order_1(&a1), of_order_1(&two));
            }
        }
    }
}

#[test]
fn verdicts_are_alike() {
    // Order 1 has no limit.
    let samples = microwave_oven(3 * WINDOW_LENGTH, 10, 100_000.0, 17, 9).samples;
    let [two, a1] =
        both(10).map(|setup| observe(&samples, 0, 3, setup, Kind::HarmonicGroup).unwrap());
    for class_letter in *b"ABC" {
        for order in 0..=41 {
            for scale in [0, 1_000, 1_000_000, 100_000_000] {
                let question = Question { order, class_letter, scale };
                let of_a1 = order_verdict(&a1, question);
                assert_eq!(order_verdict(&two, question), of_a1, "{question:?}");
            }
        }
    }
}

#[test]
fn harmlist_keeps_edition_2() {
    let input = input_bytes(10, &pulse(WINDOW_LENGTH, 0, 1_000).samples);
    let listing = String::from_utf8(harmlist(input.into_iter())).unwrap();
    let order_1 = listing.lines().nth(1);
    assert_eq!(order_1, Some("  1        8944        4898        8944"));
}
