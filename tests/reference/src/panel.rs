//! The panel's row (document 02, card 6): "a row of 40 groups from a window with a lent
//! buffer of 13 lines in place of 512", under an edition (card 7).

use crate::groups::{Kind, group_row};
use crate::refusals::Refusal;
use crate::rows::{ORDER_COUNT, Row, Setup};
use crate::spectrum::{LastWindow, window_at};

/// The lines of the lent buffer.
pub const PANEL_LINES: usize = 13;

/// A panel, which works out the lines of a window once for all rows of it that follow.
pub struct Panel {
    last: LastWindow,
}

impl Panel {
    /// A panel with no window yet.
    pub fn begin() -> Panel {
        Panel { last: LastWindow::none() }
    }

    /// "The row is that of the harmonic groups for every window." Refused in this order:
    /// 1; 19, "directly after the system" (card 7); 2; "4 with 13 as the length"; 3.
    fn harmonic_row(
        &mut self,
        recording: &[i32],
        start: usize,
        setup: Setup,
        line_count: usize,
    ) -> Result<Row, Refusal> {
        setup.check()?;
        let window = window_at(recording, start)?;
        if line_count != PANEL_LINES {
            return Err(Refusal::WrongLineCount);
        }
        group_row(Kind::HarmonicGroup, setup, self.last.lines_of(window)?)
    }

    /// The row of the window that begins at `start`, "and the buffer then holds zeros",
    /// whatever it held. Refused in this order: 1, 19, 2, 4, 3. "A refused row is zeros
    /// with system 10", and edition 2, "and the buffer stays".
    pub fn row(
        &mut self,
        recording: &[i32],
        start: usize,
        setup: Setup,
        lines: &mut [u64],
    ) -> (Row, Option<Refusal>) {
        match self.harmonic_row(recording, start, setup, lines.len()) {
            Ok(row) => {
                lines.fill(0);
                (row, None)
            }
            Err(refusal) => {
                let refused = Row { setup: Setup::edition_2(10), values: [0; ORDER_COUNT] };
                (refused, Some(refusal))
            }
        }
    }
}

/// The row of one window, by a panel of its own.
pub fn panel_row(
    recording: &[i32],
    start: usize,
    setup: Setup,
    lines: &mut [u64],
) -> (Row, Option<Refusal>) {
    Panel::begin().row(recording, start, setup, lines)
}
