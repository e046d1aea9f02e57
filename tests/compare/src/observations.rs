//! The record after windows back to back, in one call and by the calls one by one.

use crate::panel;
use crate::windows::KINDS;
use crate::{numbers, setup, system_and_edition, Tally, EDITIONS};
use kifsang::{Refusal, LINE_COUNT, MOST_WINDOWS, ORDER_COUNT, RECORD_WORDS, WINDOW_LENGTH};
use reference::groups::Kind;
use reference::observe::observe;
use reference::random::Random;
use reference::rows::Setup;
use reference::signals;
use reference::words::words_of;

/// What every word of a record holds before a call.
const BEFORE: u64 = 0xABCD;

/// Which windows of a recording are observed: the place of the first, how many, the number of the kind.
#[derive(Clone, Copy, Debug)]
struct Asked {
    start: usize,
    windows: usize,
    setup: Setup,
    kind: usize,
}

/// The calls one by one, up to the first that is refused.
fn chain(recording: &[i32], asked: Asked) -> Result<Vec<u64>, Refusal> {
    let mut lines = [0; LINE_COUNT];
    let mut row = [0; ORDER_COUNT];
    let mut record = vec![BEFORE; RECORD_WORDS];
    let (system, edition) = system_and_edition(asked.setup);
    kifsang::fresh_record(system, edition, &mut record)?;
    for window in 0..asked.windows {
        kifsang::spectrum(recording, asked.start + window * WINDOW_LENGTH, &mut lines)?;
        kifsang::row(KINDS[asked.kind], system, edition, &lines, &mut row)?;
        kifsang::add_row(&mut record, system, edition, &row)?;
    }
    Ok(record)
}

fn compare_observe(tally: &mut Tally, recording: &[i32], asked: Asked) {
    let Asked {
        start,
        windows,
        setup,
        kind,
    } = asked;
    let mut core = vec![BEFORE; RECORD_WORDS];
    let (system, edition) = system_and_edition(setup);
    let answer = kifsang::observe(
        recording,
        start,
        windows,
        system,
        edition,
        KINDS[kind],
        &mut core,
    );
    let expected = observe(recording, start, windows, setup, Kind::ALL[kind]);
    let (number, refusal) = numbers(&answer, &expected);
    let what = format!("{asked:?} of {} samples", recording.len());
    tally.same(&what, number, refusal);
    let expected = expected.map_or(vec![BEFORE; RECORD_WORDS], |record| words_of(&record));
    tally.same(&what, &core, &expected);
    let one_by_one = chain(recording, asked);
    tally.same(&what, answer.map(|()| core), one_by_one);
}

/// All kinds, both systems and both editions, from a start and for a count of windows.
fn compare_kinds(tally: &mut Tally, recording: &[i32], start: usize, windows: usize) {
    for kind in 0..KINDS.len() {
        for setup in Setup::ALL {
            compare_observe(
                tally,
                recording,
                Asked {
                    start,
                    windows,
                    setup,
                    kind,
                },
            );
        }
    }
}

/// A recording with one sample changed.
fn with_sample(recording: &[i32], place: usize, sample: i32) -> Vec<i32> {
    let mut recording = recording.to_vec();
    recording[place] = sample;
    recording
}

/// A slice that is no record, which comes before all else; the other calls have theirs in `records`.
fn compare_wrong_word_counts(tally: &mut Tally) {
    for count in [0, RECORD_WORDS - 1, RECORD_WORDS + 1] {
        for (system, edition) in [(10, 0), (10, 2), (11, 1)] {
            let mut words = vec![BEFORE; count];
            let answer = kifsang::observe(&[], 0, 1, system, edition, KINDS[0], &mut words);
            tally.same("observe without a record", answer, Err(Refusal(102)));
            tally.same("the words after it", words, vec![BEFORE; count]);
        }
    }
}

pub fn compare(tally: &mut Tally, seed: u64) {
    let mut random = Random::new(seed ^ 0x0B5E);
    let windows = 10;
    let length = windows * WINDOW_LENGTH;

    // An appliance in each window, so that smoothing matters; what is not to be looked at is out of range.
    let start = 5;
    let mut recording = vec![i32::MIN; start];
    let appliances = signals::appliances(WINDOW_LENGTH, 12, random.bits());
    for signal in &appliances[..windows] {
        recording.extend(&signal.samples);
    }
    recording.extend([i32::MAX; 3]);
    for count in [0, 1, 2, 3, windows] {
        compare_kinds(tally, &recording, start, count);
    }
    panel::compare_windows(tally, "windows back to back", &recording, start, windows);

    // A bad sample in each window, first, last and between; windows are taken up to it, and one that is
    // short comes after it.
    let good = signals::noise(length, 131_071, random.bits()).samples;
    panel::compare_windows(tally, "noise back to back", &good, 0, windows);
    for start in [77, WINDOW_LENGTH, 4_173] {
        compare_kinds(tally, &good, start, 2);
    }
    for window in 0..windows {
        let between = 1 + random.below(WINDOW_LENGTH as u64 - 2) as usize;
        for (place, sample) in [
            (0, 131_072),
            (between, i32::MIN),
            (WINDOW_LENGTH - 1, -131_072),
        ] {
            let bad = with_sample(&good, window * WINDOW_LENGTH + place, sample);
            panel::compare_window(tally, "a bad sample", &bad, window * WINDOW_LENGTH);
            let asked = Asked {
                start: 0,
                windows,
                setup: Setup::ALL[window % 4],
                kind: place % KINDS.len(),
            };
            for windows in [window, window + 1, windows + 1] {
                compare_observe(tally, &bad, Asked { windows, ..asked });
            }
            for edition in EDITIONS {
                for system in [0, 11] {
                    let setup = setup(system, edition);
                    compare_observe(tally, &bad, Asked { setup, ..asked });
                }
            }
            for edition in &EDITIONS[2..] {
                let setup = setup(12, *edition);
                compare_observe(tally, &bad, Asked { setup, ..asked });
            }
        }
    }

    // Recordings that end with a window, one sample before, or one after; a bad sample in a window that
    // is short; counts past the end.
    for window in 0..=3 {
        let end = window * WINDOW_LENGTH;
        for end in [end.saturating_sub(1), end, end + 1, end + WINDOW_LENGTH - 1] {
            let mut short = good[..end].to_vec();
            for windows in [
                0,
                1,
                window,
                window + 1,
                MOST_WINDOWS as usize + 1,
                usize::MAX,
            ] {
                for start in [0, 1, WINDOW_LENGTH, usize::MAX] {
                    for (system, edition) in [(12, 0), (12, 1), (13, 0), (12, 2), (13, 2)] {
                        let asked = Asked {
                            start,
                            windows,
                            setup: setup(system, edition),
                            kind: 1,
                        };
                        compare_observe(tally, &short, asked);
                    }
                }
            }
            if let Some(last) = short.last_mut() {
                *last = 131_072;
                for windows in [window, window + 1] {
                    compare_observe(
                        tally,
                        &short,
                        Asked {
                            start: 0,
                            windows,
                            setup: Setup::edition_a1(12),
                            kind: 0,
                        },
                    );
                }
            }
        }
    }
    compare_wrong_word_counts(tally);
}
