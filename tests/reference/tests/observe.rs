//! Lines from a first line on, and the record after windows back to back: that
//! they are what the calls one by one give, their edges, and the order of their
//! refusals.

use reference::groups::{Kind, group_row};
use reference::observation::{Observation, add_row, fresh_record};
use reference::observe::observe;
use reference::refusals::Refusal;
use reference::rows::{EDITION_A1, Setup};
use reference::signals::{alternating, constant, microwave_oven, noise, pulse};
use reference::spectrum::{LINE_LIMIT, WINDOW_LENGTH, lines_from, lines_of};

/// The lines `first`, `first` + 1, .. of a window, so many.
fn part(window: &[i32], first: usize, count: usize) -> Result<Vec<u64>, Refusal> {
    let mut lines = vec![7; count];
    lines_from(window, 0, first, &mut lines).map(|()| lines)
}

#[test]
fn every_part_is_a_part_of_all_lines() {
    let window = noise(WINDOW_LENGTH, 131_071, 3).samples;
    let all = part(&window, 0, LINE_LIMIT).unwrap();
    assert_eq!(all[..512], lines_of(&window, 0).unwrap());
    for (first, count) in [(0, 0), (0, 1), (1, 1), (45, 11), (511, 2), (1_011, 13), (1_023, 1)] {
        assert_eq!(part(&window, first, count).unwrap(), all[first..first + count], "{first}");
    }
}

#[test]
fn lines_above_511_are_those_of_fast_signals() {
    // Every line of a pulse is alike. A constant has all in line 0, and samples
    // that change their sign each time have all in line 1,024, which is none.
    assert_eq!(part(&pulse(WINDOW_LENGTH, 0, 1_000).samples, 0, 1_024), Ok(vec![4_000_000; 1_024]));
    let of_constant = part(&constant(WINDOW_LENGTH, 500).samples, 0, 1_024).unwrap();
    assert_eq!(of_constant[0], 2_048_000 * 2_048_000);
    assert_eq!(of_constant[1..], [0; 1_023]);
    assert_eq!(part(&alternating(WINDOW_LENGTH, 500).samples, 0, 1_024), Ok(vec![0; 1_024]));
}

#[test]
fn lines_from_refuses_in_order_and_leaves_the_buffer() {
    let mut window = vec![0; WINDOW_LENGTH];
    window[1_000] = 131_072;
    for (start, first, count, expected) in [
        (1, 1_024, 1, Refusal::ShortWindow),
        (usize::MAX, 0, 0, Refusal::ShortWindow),
        (0, 0, 1_025, Refusal::WrongLineCount),
        (0, 1, 1_024, Refusal::WrongLineCount),
        (0, 1_024, 1, Refusal::WrongLineCount),
        (0, 1_025, 0, Refusal::WrongLineCount),
        (0, usize::MAX, 0, Refusal::WrongLineCount),
        (0, usize::MAX, 1, Refusal::WrongLineCount),
        (0, usize::MAX - 511, 512, Refusal::WrongLineCount),
        (0, 0, 1_024, Refusal::SampleOutOfRange),
        (0, 1_023, 1, Refusal::SampleOutOfRange),
        (0, 1_024, 0, Refusal::SampleOutOfRange),
    ] {
        let mut lines = vec![7; count];
        assert_eq!(lines_from(&window, start, first, &mut lines), Err(expected), "{first} {count}");
        assert_eq!(lines, vec![7; count]);
    }
    window[1_000] = 131_071;
    assert_eq!(lines_from(&window, 0, 1_024, &mut []), Ok(()));
}

/// A fresh record and then, for each window, its lines, its row and add row.
fn one_by_one(recording: &[i32], setup: Setup, kind: Kind) -> Observation {
    let (fresh, _) = fresh_record(setup);
    recording.chunks(WINDOW_LENGTH).fold(fresh, |record, window| {
        let lines = lines_of(window, 0).unwrap();
        add_row(record, &group_row(kind, setup, &lines).unwrap()).0
    })
}

#[test]
fn the_record_is_that_of_the_calls_one_by_one() {
    let samples = microwave_oven(4 * WINDOW_LENGTH, 12, 100_000.0, 17, 9).samples;
    for kind in Kind::ALL {
        for setup in Setup::ALL {
            for windows in 0..=4 {
                let recording = [&[i32::MAX; 33], &samples[..], &[i32::MIN; 9]].concat();
                let expected = one_by_one(&samples[..windows * WINDOW_LENGTH], setup, kind);
                assert_eq!(observe(&recording, 33, windows, setup, kind), Ok(expected));
            }
        }
    }
}

#[test]
fn pulses_under_a1() {
    // Order 1 is 2828 in each window, the others are 8944, and so is what is smoothed.
    let samples: Vec<i32> = (0..3).flat_map(|_| pulse(WINDOW_LENGTH, 0, 1_000).samples).collect();
    let setup = Setup { system: 10, edition: 1 };
    let record = observe(&samples, 0, 3, setup, Kind::HarmonicGroup).unwrap();
    let values = |times: u64| {
        let mut values = [times * 8_944; 40];
        values[0] = times * 2_828;
        values
    };
    assert_eq!((record.setup, record.windows), (setup, 3));
    assert_eq!([record.smoothed, record.peak, record.sum], [values(1), values(1), values(3)]);
}

#[test]
fn no_window_needs_no_recording() {
    for setup in Setup::ALL {
        for start in [0, 1, usize::MAX] {
            let fresh = fresh_record(setup).0;
            assert_eq!(observe(&[], start, 0, setup, Kind::Component), Ok(fresh));
        }
    }
}

#[test]
fn first_fault_decides() {
    let kind = Kind::HarmonicGroup;
    let good = vec![0; 3 * WINDOW_LENGTH + 100];
    let mut bad = good.clone();
    bad[2 * WINDOW_LENGTH] = -131_072;
    for edition in [0, 1] {
        let setup = Setup { system: 10, edition };
        let of =
            |recording: &[i32], start, windows| observe(recording, start, windows, setup, kind);
        assert_eq!(of(&good, 0, 4), Err(Refusal::ShortWindow));
        assert_eq!(of(&good, 101, 3), Err(Refusal::ShortWindow));
        assert!(of(&good, 100, 3).is_ok());
        assert_eq!(of(&good, 0, usize::MAX), Err(Refusal::ShortWindow));
        assert_eq!(of(&good, usize::MAX, 1), Err(Refusal::ShortWindow));
        assert!(of(&bad, 0, 2).is_ok());
        assert_eq!(of(&bad, 0, 3), Err(Refusal::SampleOutOfRange));
        assert_eq!(of(&bad, 0, 4), Err(Refusal::SampleOutOfRange));
        assert_eq!(of(&bad, 3 * WINDOW_LENGTH, 1), Err(Refusal::ShortWindow));
    }
    for (system, edition, expected) in [
        (11, EDITION_A1, Refusal::UnknownSystem),
        (11, 2, Refusal::UnknownSystem),
        (10, 2, Refusal::UnknownEdition),
        (12, u64::from(u32::MAX), Refusal::UnknownEdition),
    ] {
        for (start, windows) in [(0, 0), (0, 3), (0, 4), (usize::MAX, 1)] {
            let setup = Setup { system, edition };
            assert_eq!(observe(&bad, start, windows, setup, kind), Err(expected));
        }
    }
}

#[test]
fn window_45001_may_be_short_or_out_of_range_and_is_else_refused() {
    // Zeros that nobody wrote take no memory, and equal windows little time.
    let mut recording = vec![0; 45_001 * WINDOW_LENGTH];
    let (setup, kind) = (Setup::edition_2(10), Kind::Component);
    let full = observe(&recording, 0, 45_000, setup, kind).unwrap();
    assert_eq!(full.windows, 45_000);
    assert_eq!(observe(&recording, 0, 45_001, setup, kind), Err(Refusal::RecordFull));
    assert_eq!(observe(&recording, 1, 45_001, setup, kind), Err(Refusal::ShortWindow));
    recording[45_001 * WINDOW_LENGTH - 1] = 131_072;
    assert_eq!(observe(&recording, 0, 45_001, setup, kind), Err(Refusal::SampleOutOfRange));
}
