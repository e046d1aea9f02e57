//! From the samples of windows back to back to the record after them: a fresh
//! record, and then for each window its spectrum, its row and add row
//! (document 01, "From samples to spectrum" to "The observation record").

use crate::groups::{Kind, group_row};
use crate::observation::{Observation, add_row, fresh_record};
use crate::refusals::Refusal;
use crate::rows::{Row, Setup};
use crate::spectrum::{LastWindow, WINDOW_LENGTH, window_at};

/// An observation under way: the record after some windows, and the last of
/// them with its lines.
pub struct Observing {
    /// The record after the windows so far.
    pub observation: Observation,
    kind: Kind,
    last: LastWindow,
}

impl Observing {
    /// No window yet. Refused in this order: 1, 19.
    pub fn begin(setup: Setup, kind: Kind) -> Result<Observing, Refusal> {
        let (observation, refusal) = fresh_record(setup);
        refusal.map_or(Ok(Observing { observation, kind, last: LastWindow::none() }), Err)
    }

    /// The last window's row of a kind, under the record's setup.
    pub fn row(&self, kind: Kind) -> Result<Row, Refusal> {
        group_row(kind, self.observation.setup, self.last.lines())
    }

    /// Takes the window that begins at `start`. Refused in this order: 2, 3, 9.
    pub fn take(&mut self, recording: &[i32], start: usize) -> Result<(), Refusal> {
        self.last.lines_of(window_at(recording, start)?)?;
        let (observation, refusal) = add_row(self.observation.clone(), &self.row(self.kind)?);
        self.observation = observation;
        refusal.map_or(Ok(()), Err)
    }
}

/// The record after so many windows back to back, the first at `start`, each
/// with its row of the kind. Refused: 1, then 19, and then at the first window that
/// gives one of them, in this order, 2, 3, 9.
pub fn observe(
    recording: &[i32],
    start: usize,
    windows: usize,
    setup: Setup,
    kind: Kind,
) -> Result<Observation, Refusal> {
    let mut observing = Observing::begin(setup, kind)?;
    for number in 0..windows {
        // A place that no number of 64 bits has is past the end of every recording.
        let place = start.saturating_add(number.saturating_mul(WINDOW_LENGTH));
        observing.take(recording, place)?;
    }
    Ok(observing.observation)
}
