//! The panel's row: beside that of the second program, and beside the core's own spectrum and row.

use crate::{numbers, setup, system_and_edition, Tally, EDITIONS};
use kifsang::{Kind, Refusal, LINE_COUNT, ORDER_COUNT, PANEL_LINES, WINDOW_LENGTH};
use reference::panel::Panel;
use reference::rows::Setup;
use reference::signals;

/// The core's spectrum and then its row of harmonic groups.
fn chain(recording: &[i32], start: usize, setup: Setup) -> Result<[u32; ORDER_COUNT], Refusal> {
    let mut lines = [0; LINE_COUNT];
    let mut row = [0; ORDER_COUNT];
    let (system, edition) = system_and_edition(setup);
    kifsang::spectrum(recording, start, &mut lines)?;
    kifsang::row(Kind::HarmonicGroup, system, edition, &lines, &mut row)?;
    Ok(row)
}

/// One call on both sides, with all that the buffers hold after it. The lines and the values that are lent stand
/// between two others; all lines hold more than any line before the call, and all values 7.
fn compare_panel_row(
    tally: &mut Tally,
    panel: &mut Panel,
    name: &str,
    recording: &[i32],
    start: usize,
    (setup, room): (Setup, usize),
) {
    let mut core = Vec::from_iter((0..room as u64 + 2).map(|place| u64::MAX - place));
    let mut other = core.clone();
    let (system, edition) = system_and_edition(setup);
    let mut values = [7; ORDER_COUNT + 2];
    let mut left = values;
    let lent = &mut values[1..=ORDER_COUNT];
    let answer = kifsang::panel_row(recording, start, system, edition, &mut core[1..=room], lent);
    let (row, refusal) = panel.row(recording, start, setup, &mut other[1..=room]);
    let expected = refusal.map_or(Ok(()), Err);
    if expected.is_ok() {
        left[1..=ORDER_COUNT].copy_from_slice(&row.values);
    }
    let what = format!("panel row of {name} from {start}, {setup:?}, {room} lines");
    let (number, refusal) = numbers(&answer, &expected);
    tally.same(&what, number, refusal);
    tally.same(&what, values, left);
    tally.same(&what, core, other);
    if answer.is_ok() {
        let chained = chain(recording, start, setup);
        tally.same(
            &what,
            chained.as_ref().map(|row| &row[..]),
            Ok(&values[1..=ORDER_COUNT]),
        );
    }
}

/// The window from a start, or its refusal, in both systems and under both editions.
pub fn compare_window(tally: &mut Tally, name: &str, recording: &[i32], start: usize) {
    let panel = &mut Panel::begin();
    for setup in Setup::ALL {
        compare_panel_row(tally, panel, name, recording, start, (setup, PANEL_LINES));
    }
}

/// Windows back to back from a start, and the one after them.
pub fn compare_windows(
    tally: &mut Tally,
    name: &str,
    recording: &[i32],
    start: usize,
    windows: usize,
) {
    for window in 0..=windows {
        compare_window(tally, name, recording, start + window * WINDOW_LENGTH);
    }
}

/// Calls that are refused: each fault alone and each two or more of them, and the edges beside them.
pub fn compare_refusals(tally: &mut Tally, seed: u64) {
    let mut recording = signals::noise(2 * WINDOW_LENGTH + 77, 131_071, seed).samples;
    recording[WINDOW_LENGTH + 77] = -131_072;
    let starts = [
        0,
        77,
        78,
        WINDOW_LENGTH + 77,
        WINDOW_LENGTH + 78,
        recording.len(),
        usize::MAX,
    ];
    let panel = &mut Panel::begin();
    for system in [0, 9, 10, 11, 12, 13, u32::MAX] {
        for edition in EDITIONS {
            for start in starts {
                for room in [0, 1, 11, 12, 13, 14, 512, 1024] {
                    let name = "a damaged recording";
                    let asked = (setup(system, edition), room);
                    compare_panel_row(tally, panel, name, &recording, start, asked);
                }
            }
        }
    }
}
