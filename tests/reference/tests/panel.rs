//! The panel's row (document 02, card 6): that it is the row of the harmonic groups, and
//! that 13 lines are enough for each of them; what the buffer holds; the edges; and every
//! set of faults; and what the panel of `examples/c` shows.

use reference::distortion::distortion;
use reference::groups::{Kind, group_row, weighted_lines};
use reference::largest::root;
use reference::panel::{PANEL_LINES, Panel, panel_row};
use reference::refusals::Refusal;
use reference::rows::{EDITION_A1, Row, Setup};
use reference::signals::{noise, plain_windows, pulse, seeded_windows, tone};
use reference::spectrum::{WINDOW_LENGTH, lines_from, lines_of};

/// What a buffer holds before a call.
const BEFORE: u64 = 0xABCD;

/// The row of a window, and that the buffer holds zeros after it.
fn accepted(recording: &[i32], start: usize, setup: Setup) -> Row {
    let mut lines = [BEFORE; PANEL_LINES];
    let (row, refusal) = panel_row(recording, start, setup, &mut lines);
    assert_eq!(refusal, None);
    assert_eq!(lines, [0; PANEL_LINES]);
    row
}

/// The refusal of a call, and that its row is zeros with system 10 and edition 0 and the
/// buffer is as it was; none where it is accepted.
fn refusal(recording: &[i32], start: usize, setup: Setup, line_count: usize) -> Option<Refusal> {
    let mut lines = vec![BEFORE; line_count];
    let (row, refusal) = panel_row(recording, start, setup, &mut lines);
    if refusal.is_some() {
        assert_eq!(row, Row { setup: Setup { system: 10, edition: 0 }, values: [0; 40] });
        assert_eq!(lines, vec![BEFORE; line_count]);
    }
    refusal
}

/// One order with no more lines than the buffer has: those from the first of its group on.
fn by_13_lines(window: &[i32], setup: Setup, order: u64) -> u64 {
    let group = weighted_lines(Kind::HarmonicGroup, setup, order);
    let first = group.iter().map(|&(number, _)| number).min().unwrap();
    let mut lines = [0; PANEL_LINES];
    lines_from(window, 0, first, &mut lines).unwrap();
    root(group.iter().map(|&(number, weight)| weight * lines[number - first]).sum())
}

#[test]
fn row_is_that_of_the_harmonic_groups_and_needs_13_lines() {
    for signal in plain_windows().into_iter().chain(seeded_windows(3)) {
        let lines = lines_of(&signal.samples, 0).unwrap();
        for setup in Setup::ALL {
            let row = accepted(&signal.samples, 0, setup);
            let expected = group_row(Kind::HarmonicGroup, setup, &lines);
            assert_eq!(Ok(&row), expected.as_ref(), "{}", signal.name);
            for (order, value) in (1..).zip(row.values) {
                let by_13_lines = by_13_lines(&signal.samples, setup, order);
                assert_eq!(u64::from(value), by_13_lines, "{} {setup:?} {order}", signal.name);
            }
        }
    }
}

#[test]
fn pulse_has_the_worked_numbers() {
    let window = pulse(WINDOW_LENGTH, 0, 1_000).samples;
    for (system, group) in [(10, 8_944), (12, 9_797)] {
        let mut values = [group; 40];
        let setup = Setup { system, edition: 0 };
        assert_eq!(accepted(&window, 0, setup), Row { setup, values });
        values[0] = 2_828;
        let setup = Setup { system, edition: 1 };
        assert_eq!(accepted(&window, 0, setup), Row { setup, values });
    }
}

#[test]
fn a_tone_enters_the_groups_of_its_line() {
    // The r.m.s. value of the tone in units, and that of half its square. What the
    // rounding of the samples leaves in the other lines is far below it.
    let whole = 131_071.0 * 4_096.0 / 2_f64.sqrt();
    let halved = whole / 2_f64.sqrt();
    for setup in Setup::ALL {
        let half = setup.system / 2;
        for order in [1, 2, 40] {
            let centre = setup.system * order;
            for line in centre - half - 1..=centre + half + 1 {
                let window = tone(WINDOW_LENGTH, line as f64, 131_071.0, 0.0).samples;
                let value = accepted(&window, 0, setup).values[order as usize - 1];
                let last = if setup.edition == EDITION_A1 && order == 1 { 0 } else { half };
                let expected = match line.abs_diff(centre) {
                    distance if distance > last => 0.0,
                    distance if distance == half => halved,
                    _ => whole,
                };
                let distance = (f64::from(value) - expected).abs();
                assert!(distance < 1_000.0, "{setup:?} {order} {line}: {value} for {expected}");
            }
        }
    }
}

#[test]
fn a_panel_gives_each_window_its_own_row() {
    // A window in range, another, one that is not, and these again in all turns.
    let mut bad = noise(WINDOW_LENGTH, 131_071, 1).samples;
    let windows = [bad.clone(), noise(WINDOW_LENGTH, 131_071, 2).samples];
    bad[2_047] = 131_072;
    let [one, other] = &windows;
    let panel = &mut Panel::begin();
    for window in [&bad, one, one, other, &bad, other, one, &bad, one, other, other] {
        for setup in Setup::ALL {
            let mut lines = [[BEFORE; PANEL_LINES]; 2];
            let [of_panel, alone] = &mut lines;
            let expected = panel_row(window, 0, setup, alone);
            assert_eq!(panel.row(window, 0, setup, of_panel), expected);
            assert_eq!(of_panel, alone);
        }
    }
}

#[test]
fn buffer_may_hold_anything_before() {
    let window = noise(WINDOW_LENGTH, 131_071, 4).samples;
    for setup in Setup::ALL {
        let expected = (accepted(&window, 0, setup), None);
        for before in [0, 1, 1 << 59, u64::MAX] {
            let mut lines = [before; PANEL_LINES];
            assert_eq!(panel_row(&window, 0, setup, &mut lines), expected);
            assert_eq!(lines, [0; PANEL_LINES]);
        }
    }
}

#[test]
fn window_stands_anywhere_and_nothing_outside_is_looked_at() {
    let window = noise(WINDOW_LENGTH, 131_071, 5).samples;
    for setup in Setup::ALL {
        let alone = accepted(&window, 0, setup);
        for (before, after) in [(3, 0), (0, 9), (2_500, 1), (1, 5_000)] {
            let recording = [&vec![i32::MAX; before], &window[..], &vec![i32::MIN; after]].concat();
            assert_eq!(accepted(&recording, before, setup), alone);
            for past in [recording.len() - WINDOW_LENGTH + 1, recording.len(), usize::MAX] {
                let short = Some(Refusal::ShortWindow);
                assert_eq!(refusal(&recording, past, setup, PANEL_LINES), short);
            }
        }
        assert_eq!(refusal(&[], 0, setup, PANEL_LINES), Some(Refusal::ShortWindow));
    }
}

#[test]
fn thirteen_lines_are_taken_for_both_systems_and_no_other_count() {
    let window = [0; WINDOW_LENGTH];
    for setup in Setup::ALL {
        for line_count in (0..30).chain([511, 512, 513, 1_024]) {
            let expected = (line_count != 13).then_some(Refusal::WrongLineCount);
            assert_eq!(refusal(&window, 0, setup, line_count), expected, "{line_count}");
        }
    }
}

#[test]
fn first_of_any_faults_decides() {
    // Every set of the five faults: each bit is one, in the order in which they decide.
    let order = [
        Refusal::UnknownSystem,
        Refusal::UnknownEdition,
        Refusal::ShortWindow,
        Refusal::WrongLineCount,
        Refusal::SampleOutOfRange,
    ];
    for (system, edition, start, line_count, sample) in
        [(11, 2, 1, 12, 131_072), (0, u64::MAX, usize::MAX, 512, i32::MIN)]
    {
        for faults in 0..32_u32 {
            let has = |bit: u32| faults >> bit & 1 == 1;
            let setup = Setup {
                system: if has(0) { system } else { 12 },
                edition: if has(1) { edition } else { 1 },
            };
            let start = if has(2) { start } else { 0 };
            let line_count = if has(3) { line_count } else { 13 };
            let mut window = [0; WINDOW_LENGTH];
            window[1_000] = if has(4) { sample } else { -131_071 };
            let expected = order.get(faults.trailing_zeros() as usize).copied();
            assert_eq!(refusal(&window, start, setup, line_count), expected, "{faults:05b}");
        }
    }
}

/// A window of `examples/c/panel.c`: the current flows about the crests alone, forward in the first half of a
/// cycle and backward in the second, and a converter of 18 bits stays at its ends.
fn supply_current(amperes: i32, resting: usize) -> Vec<i32> {
    (0..WINDOW_LENGTH)
        .map(|place| {
            let part = 12 * 12 * place / WINDOW_LENGTH;
            let flows = (resting..6 - resting).contains(&(part % 6));
            let sign = [1, -1][part / 6 % 2];
            (1_600 * amperes * sign * i32::from(flows)).clamp(-131_072, 131_071)
        })
        .collect()
}

#[test]
fn the_front_panel_shows_these_values() {
    let repository = std::path::Path::new(env!("CARGO_MANIFEST_DIR")).join("../..");
    let printed = std::fs::read_to_string(repository.join("examples/c/panel.txt")).unwrap();
    let mut expected =
        String::from("window  1, mA      3      5      7      9     11  distortion, %\n");
    for (window, (amperes, resting)) in
        [(0, 0), (90, 1), (14, 1), (8, 1), (3, 2)].into_iter().enumerate()
    {
        let mut lines = [0; PANEL_LINES];
        let samples = supply_current(amperes, resting);
        let (row, refusal) = panel_row(&samples, 0, Setup::edition_a1(12), &mut lines);
        expected.push_str(&format!("{:6}", window + 1));
        if let Some(refusal) = refusal {
            expected.push_str(&format!("     refused {:2}\n", refusal as u32));
            continue;
        }
        for order in (1..=11).step_by(2) {
            let milliamperes = f64::from(row.values[order - 1]) / (1.6 * 4_096.0);
            expected.push_str(&format!("  {milliamperes:5.0}"));
        }
        match distortion(&row.values) {
            Ok(parts) => expected.push_str(&format!("  {:13.1}\n", parts as f64 / 10.0)),
            Err(refusal) => expected.push_str(&format!("     refused {:2}\n", refusal as u32)),
        }
    }
    assert_eq!(printed, expected);
}
