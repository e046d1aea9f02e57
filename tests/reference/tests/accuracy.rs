//! Demand 3 tried on windows, under both editions: group values lie within 7 units
//! of the exact groups, and smoothed values within 12 of the exact smoothing. Three-second
//! values lie within 8 of the exact ones (document 02, card 8).

use reference::exact_group::{ExactGroup, exact_lines};
use reference::groups::{Kind, group_row, group_value};
use reference::observation::{add_row, fresh_record};
use reference::rows::Setup;
use reference::signals::{Signal, motor_drive, noise, noise_of_ends, pulse, square_wave, tone};
use reference::spectrum::{WINDOW_LENGTH, lines_of};
use reference::three_seconds::three_second_value;

fn setups_and_orders() -> impl Iterator<Item = (Setup, u64)> {
    Setup::ALL.into_iter().flat_map(|setup| (1..=40).map(move |order| (setup, order)))
}

#[test]
fn group_values_lie_within_7_units_of_the_exact_groups() {
    let signals: [Signal; 7] = [
        pulse(WINDOW_LENGTH, 0, 1_000),
        noise(WINDOW_LENGTH, 1, 21),
        noise(WINDOW_LENGTH, 131_071, 22),
        noise_of_ends(WINDOW_LENGTH, 23),
        square_wave(WINDOW_LENGTH, 50.0),
        tone(WINDOW_LENGTH, 57.4, 131_071.0, 0.3),
        motor_drive(WINDOW_LENGTH, 12, 120_000.0, 1.0),
    ];
    for signal in signals {
        let lines = lines_of(&signal.samples, 0).unwrap();
        let exact = exact_lines(&signal.samples);
        for kind in Kind::ALL {
            for (setup, order) in setups_and_orders() {
                let value = group_value(kind, setup, order, &lines).unwrap();
                let group = exact.group(kind, setup, order);
                assert!(group.is_near(value), "{}: {kind:?} {setup:?} {order}", signal.name);
                assert!(group.root_in_thousandths().abs_diff(1_000 * value) <= 7_000);
            }
        }
    }
}

#[test]
fn exact_group_of_the_pulse_is_its_sum_of_squares() {
    // Every exact line of the pulse is 2000² but for the error of the series.
    let exact = exact_lines(&pulse(WINDOW_LENGTH, 0, 1_000).samples);
    let group = exact.group(Kind::HarmonicSubgroup, Setup::edition_2(10), 7);
    assert_eq!(group.root_in_thousandths(), 4_898_979);
    assert!(group.is_near(4_891 + 1));
    assert!(!group.is_near(4_891));
    assert!(!group.is_near(4_906));
}

#[test]
fn exact_group_of_order_1_under_a1_is_the_component() {
    let exact = exact_lines(&pulse(WINDOW_LENGTH, 0, 1_000).samples);
    for system in [10, 12] {
        let group = exact.group(Kind::HarmonicGroup, Setup::edition_a1(system), 1);
        assert_eq!(group.root_in_thousandths(), 2_828_427);
        assert!(group.is_near(2_821 + 1) && group.is_near(2_835));
        assert!(!group.is_near(2_821) && !group.is_near(2_836));
    }
}

#[test]
fn smoothed_values_lie_within_12_units_of_the_exact_smoothing() {
    let setups = [Setup::edition_2(10), Setup::edition_a1(10)];
    let mut records = setups.map(|setup| (fresh_record(setup).0, [0.0; 40]));
    for seed in 0..8 {
        let window = noise(WINDOW_LENGTH, 2_000, 100 + seed).samples;
        let lines = lines_of(&window, 0).unwrap();
        let exact = exact_lines(&window);
        for (record, exact_smoothed) in &mut records {
            let first = record.windows == 0;
            for (order, smoothed) in (1..).zip(exact_smoothed.iter_mut()) {
                let group = exact.group(Kind::HarmonicGroup, record.setup, order);
                let new = group.root_in_thousandths() as f64 / 1_000.0;
                let later = (1_000.0 * new + 7_012.0 * *smoothed) / 8_012.0;
                *smoothed = if first { new } else { later };
            }
            let row = group_row(Kind::HarmonicGroup, record.setup, &lines).unwrap();
            *record = add_row(record.clone(), &row).0;
            for (&reported, exact) in record.smoothed.iter().zip(exact_smoothed) {
                assert!((reported as f64 - *exact).abs() <= 12.0);
            }
        }
        assert_eq!(records.each_ref().map(|(record, _)| record.windows), [seed + 1; 2]);
    }
}

#[test]
fn three_second_values_lie_within_8_units_of_the_exact_ones() {
    // Noise of a few counts, where rounding weighs most, and of all counts.
    let sizes = [1, 1, 1, 2, 3, 131_071];
    let windows: Vec<Vec<i32>> = (0..17)
        .map(|seed| noise(WINDOW_LENGTH, sizes[seed as usize % sizes.len()], 200 + seed).samples)
        .collect();
    let lines: Vec<_> = windows.iter().map(|window| lines_of(window, 0).unwrap()).collect();
    let exact: Vec<_> = windows.iter().map(|window| exact_lines(window)).collect();
    for kind in [Kind::Component, Kind::HarmonicGroup] {
        for setup in [Setup::edition_2(10), Setup::edition_a1(12)] {
            let (mut record, _) = fresh_record(setup);
            for (count, lines) in (1..).zip(&lines) {
                record = add_row(record, &group_row(kind, setup, lines).unwrap()).0;
                for order in (1..=40).filter(|_| count >= 15) {
                    let latest = exact[count - 15..count].iter();
                    let groups: Vec<_> =
                        latest.map(|lines| lines.group(kind, setup, order)).collect();
                    let value = three_second_value(&record, order).unwrap();
                    let sum = ExactGroup::sum(&groups);
                    assert!(sum.is_near_three_seconds(value), "{kind:?} {setup:?} {order}");
                    // One unit past the margin is not near.
                    let root = sum.root_in_thousandths() as f64 / 15.0_f64.sqrt() / 1_000.0;
                    assert!((root - value as f64).abs() <= 8.0);
                    assert!(!sum.is_near_three_seconds(root as u64 + 9));
                    assert!(root < 9.0 || !sum.is_near_three_seconds(root as u64 - 8));
                }
            }
        }
    }
}
