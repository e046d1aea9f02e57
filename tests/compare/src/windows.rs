//! Spectra, groups, the panel's rows and distortion.

use crate::panel;
use crate::{numbers, setup, system_and_edition, Tally, EDITIONS};
use kifsang::{LINE_COUNT, LINE_LIMIT, ORDER_COUNT, WINDOW_LENGTH};
use reference::annex_c::{comparison, own_spectrum, Agreement};
use reference::glitch;
use reference::groups::{group_row, group_value, Kind};
use reference::random::Random;
use reference::rows::Setup;
use reference::signals;
use std::cell::RefCell;

pub const KINDS: [kifsang::Kind; 5] = [
    kifsang::Kind::Component,
    kifsang::Kind::HarmonicGroup,
    kifsang::Kind::HarmonicSubgroup,
    kifsang::Kind::InterharmonicGroup,
    kifsang::Kind::InterharmonicCentredSubgroup,
];

/// One spectrum call on both sides, with all that the buffers hold after it, and the panel's rows of its
/// window.
fn compare_spectrum(tally: &mut Tally, name: &str, recording: &[i32], start: usize, room: usize) {
    let mut core = vec![0xABCD; room];
    let mut other = core.clone();
    let answer = kifsang::spectrum(recording, start, &mut core);
    let expected = reference::spectrum::spectrum(recording, start, &mut other);
    let (number, expected) = numbers(&answer, &expected);
    tally.same(
        &format!("spectrum of {name} from {start}"),
        number,
        expected,
    );
    tally.same(&format!("lines of {name} from {start}"), core, other);
    if room == LINE_COUNT {
        panel::compare_window(tally, name, recording, start);
    }
}

/// One call for a part of the lines on both sides, with all that the buffers hold after it.
fn compare_lines_from(
    tally: &mut Tally,
    name: &str,
    recording: &[i32],
    start: usize,
    (first, room): (usize, usize),
) {
    let mut core = vec![0xABCD; room];
    let mut other = core.clone();
    let answer = kifsang::lines_from(recording, start, first, &mut core);
    let expected = reference::spectrum::lines_from(recording, start, first, &mut other);
    let (number, expected) = numbers(&answer, &expected);
    let what = format!("{room} lines of {name} from {start}, the first {first}");
    tally.same(&what, number, expected);
    tally.same(&what, core, other);
}

/// All lines of a window, and parts of them at every place; the panel's rows of it.
fn compare_line_parts(tally: &mut Tally, name: &str, window: &[i32]) {
    let part = |first, count| {
        let mut lines = vec![0xABCD; count];
        kifsang::lines_from(window, 0, first, &mut lines).map(|()| lines)
    };
    compare_lines_from(tally, name, window, 0, (0, LINE_LIMIT));
    let all = part(0, LINE_LIMIT).expect("all lines");
    for first in 0..=LINE_LIMIT {
        for count in [0, 1, 13, LINE_COUNT] {
            let expected = all.get(first..first + count).map(<[u64]>::to_vec);
            if count < LINE_COUNT || first % 64 == 0 {
                let what = format!("{count} of all lines of {name} from line {first}");
                tally.same(&what, part(first, count).ok(), expected);
            }
        }
    }
    let mut spectrum = vec![0; LINE_COUNT];
    kifsang::spectrum(window, 0, &mut spectrum).expect("a window in range");
    tally.same("the spectrum", &spectrum[..], &all[..LINE_COUNT]);
    panel::compare_window(tally, name, window, 0);
}

/// Parts that are refused: each fault alone and each two of them, and the edges beside them.
fn compare_line_refusals(tally: &mut Tally, seed: u64) {
    let mut recording = signals::noise(2 * WINDOW_LENGTH + 77, 131_071, seed).samples;
    recording[WINDOW_LENGTH + 77] = -131_072;
    let length = recording.len();
    for start in [
        0,
        77,
        78,
        WINDOW_LENGTH + 77,
        WINDOW_LENGTH + 78,
        length,
        usize::MAX,
    ] {
        for first in [
            0,
            1,
            511,
            1011,
            1012,
            1023,
            1024,
            1025,
            usize::MAX - 12,
            usize::MAX,
        ] {
            for room in [0, 1, 2, 13, 512, 1023, 1024, 1025] {
                let name = "a damaged recording";
                compare_lines_from(tally, name, &recording, start, (first, room));
            }
        }
    }
}

/// A group value of some lines on both sides.
fn compare_group_value(
    tally: &mut Tally,
    name: &str,
    kind: usize,
    setup: Setup,
    order: u32,
    lines: &[u64],
) {
    let (system, edition) = system_and_edition(setup);
    let core = kifsang::group_value(KINDS[kind], system, edition, order, lines);
    let expected = group_value(Kind::ALL[kind], setup, order.into(), lines);
    let what = format!("{:?} of {name}, {setup:?}, order {order}", KINDS[kind]);
    let (number, refusal) = numbers(&core, &expected);
    tally.same(&what, number, refusal);
    tally.same(&what, core.ok(), expected.ok());
}

/// A row of some lines on both sides, with all that the buffer holds after it, which is answered.
fn compare_row(
    tally: &mut Tally,
    name: &str,
    kind: usize,
    setup: Setup,
    lines: &[u64],
) -> [u32; ORDER_COUNT] {
    let before = [0xABCD; ORDER_COUNT];
    let mut core = before;
    let (system, edition) = system_and_edition(setup);
    let answer = kifsang::row(KINDS[kind], system, edition, lines, &mut core);
    let expected = group_row(Kind::ALL[kind], setup, lines);
    let what = format!("row of {:?} of {name}, {setup:?}", KINDS[kind]);
    let (number, refusal) = numbers(&answer, &expected);
    tally.same(&what, number, refusal);
    tally.same(&what, core, expected.map_or(before, |row| row.values));
    core
}

/// All kinds and orders of both systems and both editions for some lines, rows and distortion with them.
fn compare_groups(tally: &mut Tally, name: &str, lines: &[u64]) {
    for kind in 0..KINDS.len() {
        for setup in Setup::ALL {
            for order in 1..=ORDER_COUNT as u32 {
                compare_group_value(tally, name, kind, setup, order, lines);
            }
            let row = compare_row(tally, name, kind, setup, lines);
            compare_distortion(tally, name, &row);
        }
    }
}

fn compare_distortion(tally: &mut Tally, name: &str, row: &[u32; ORDER_COUNT]) {
    let core = kifsang::distortion(row);
    let expected = reference::distortion::distortion(row);
    let (number, refusal) = numbers(&core, &expected);
    tally.same(&format!("distortion of {name}"), number, refusal);
    tally.same(&format!("distortion of {name}"), core.ok(), expected.ok());
}

/// Group values and rows that are refused: each fault alone and each pair of neighbours in the order.
fn compare_group_refusals(tally: &mut Tally) {
    let good = vec![4_000_000; LINE_COUNT];
    let mut at_edge = good.clone();
    at_edge[511] = 1 << 59;
    let mut above = good.clone();
    above[511] = (1 << 59) + 1;
    let short = vec![4_000_000; LINE_COUNT - 1];
    for lines in [&good, &at_edge, &above, &short] {
        for system in [0, 9, 10, 11, 12, 13, u32::MAX] {
            for edition in EDITIONS {
                let setup = setup(system, edition);
                let name = "good and damaged lines";
                for kind in 0..KINDS.len() {
                    for order in [0, 1, 2, 39, 40, 41, u32::MAX] {
                        compare_group_value(tally, name, kind, setup, order, lines);
                    }
                    compare_row(tally, name, kind, setup, lines);
                }
            }
        }
    }
}

/// The worked examples of IEC 61000-4-7, annex C: the core's lines and groups of their windows, and so
/// the figures that are set beside the printed ones (`reference annex-c`).
fn compare_annex_c(tally: &mut Tally) {
    let tally = RefCell::new(tally);
    let by_core = |samples: &[i32]| {
        let mut lines = [0; LINE_COUNT];
        kifsang::spectrum(samples, 0, &mut lines).expect("a window in range");
        let mut tally = tally.borrow_mut();
        tally.same("lines of annex C", lines, own_spectrum(samples));
        compare_groups(&mut tally, "annex C", &lines);
        panel::compare_window(&mut tally, "annex C", samples, 0);
        lines
    };
    let figures = comparison(&by_core);
    let met = figures
        .iter()
        .filter(|figure| figure.agreement() == Agreement::Rounds)
        .count();
    println!(
        "annex C of IEC 61000-4-7: {met} of {} figures round to the printed ones",
        figures.len()
    );
}

pub fn compare(tally: &mut Tally, seed: u64) {
    compare_annex_c(tally);
    let mut windows = signals::plain_windows();
    windows.extend(signals::seeded_windows(seed));
    for system in [10, 12] {
        windows.extend(signals::appliances(WINDOW_LENGTH, system, seed));
    }
    for glitch in glitch::whole_range([1, 40].into_iter())
        .into_iter()
        .chain(glitch::seeded(seed, 1))
    {
        windows.extend([glitch.one, glitch.other]);
    }
    for signal in &windows {
        compare_spectrum(tally, &signal.name, &signal.samples, 0, LINE_COUNT);
        let mut lines = vec![0; LINE_COUNT];
        kifsang::spectrum(&signal.samples, 0, &mut lines).expect("a window in range");
        compare_groups(tally, &signal.name, &lines);
    }

    // A recording longer than a window, with the window in its middle and at its ends, and starts
    // near the largest number; a sample out of range inside the window and outside.
    let mut random = Random::new(seed);
    let mut long = signals::noise(3 * WINDOW_LENGTH + 77, 131_071, random.bits());
    for start in [
        0,
        1,
        1000,
        2048,
        4096,
        4173,
        4174,
        6221,
        usize::MAX,
        usize::MAX - 2047,
    ] {
        compare_spectrum(tally, "a long recording", &long.samples, start, LINE_COUNT);
        for part in [(0, LINE_LIMIT), (511, 2), (700, 13)] {
            compare_lines_from(tally, "a long recording", &long.samples, start, part);
        }
    }
    long.samples[3000] = 131_072;
    for start in [0, 951, 952, 953, 2999, 3000, 3001, 4174, usize::MAX] {
        for room in [0, 511, 512, 513] {
            compare_spectrum(tally, "a damaged recording", &long.samples, start, room);
        }
    }
    long.samples[3000] = -131_072;
    compare_spectrum(
        tally,
        "a damaged recording",
        &long.samples,
        2000,
        LINE_COUNT,
    );

    for size in [1, 1000, 131_071] {
        let window = signals::noise(WINDOW_LENGTH, size, random.bits());
        compare_line_parts(tally, &window.name, &window.samples);
    }
    for signal in &windows {
        compare_lines_from(
            tally,
            &signal.name,
            &signal.samples,
            0,
            (LINE_COUNT, LINE_COUNT),
        );
    }
    compare_line_refusals(tally, random.bits());

    compare_group_refusals(tally);
    panel::compare_refusals(tally, seed);
    for _ in 0..2000 {
        let bits = 1 + random.below(32);
        let mut row = [0; ORDER_COUNT];
        for value in &mut row {
            *value = random.below(1 << bits) as u32;
        }
        if random.below(4) == 0 {
            row[0] = random.below(3) as u32;
        }
        compare_distortion(tally, "a random row", &row);
    }
    compare_distortion(tally, "the largest row", &[u32::MAX; ORDER_COUNT]);
    let mut steep = [u32::MAX; ORDER_COUNT];
    steep[0] = 1;
    compare_distortion(tally, "the steepest row", &steep);
}
