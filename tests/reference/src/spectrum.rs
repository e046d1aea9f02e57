//! From samples to spectrum (document 01, section of that name).

use crate::refusals::Refusal;
use crate::rounding::nearest;
use crate::table::wave;
use crate::turn::{QUARTER_TURN, TURN};

/// Samples in a window.
pub const WINDOW_LENGTH: usize = TURN;
/// Lines in a spectrum.
pub const LINE_COUNT: usize = 512;
/// Line numbers are below this: half of the samples in a window.
pub const LINE_LIMIT: usize = 1_024;
/// The largest size of a sample.
pub const LARGEST_SAMPLE: i32 = 131_071;
/// The largest line.
pub const LARGEST_LINE: u64 = 1 << 59;
/// What the two sums of a line are divided by.
const SUM_DIVISOR: i64 = 1 << 29;

/// Whether a sample lies outside −131,071..131,071.
pub fn out_of_range(sample: i32) -> bool {
    !(-LARGEST_SAMPLE..=LARGEST_SAMPLE).contains(&sample)
}

/// Line k of a window in range. Each sum stays below 2^11 × 2^17 × 2^30 = 2^58.
fn line_of(window: &[i32], k: usize) -> u64 {
    let wave = wave();
    let mut cosine_sum = 0;
    let mut sine_sum = 0;
    for (j, &sample) in window.iter().enumerate() {
        let index = j * k % TURN;
        cosine_sum += i64::from(sample) * i64::from(wave[(index + QUARTER_TURN) % TURN]);
        sine_sum += i64::from(sample) * i64::from(wave[index]);
    }
    let a = nearest(cosine_sum, SUM_DIVISOR).unsigned_abs();
    let b = nearest(sine_sum, SUM_DIVISOR).unsigned_abs();
    a * a + b * b
}

/// The window that begins at `start`. Refused: 2.
pub fn window_at(recording: &[i32], start: usize) -> Result<&[i32], Refusal> {
    let after_start = recording.get(start..).unwrap_or(&[]);
    after_start.get(..WINDOW_LENGTH).ok_or(Refusal::ShortWindow)
}

/// Writes the lines `first`, `first` + 1, .. of a window. Refused: 3.
fn write_lines(window: &[i32], first: usize, lines: &mut [u64]) -> Result<(), Refusal> {
    if window.iter().any(|&sample| out_of_range(sample)) {
        return Err(Refusal::SampleOutOfRange);
    }
    for (place, k) in lines.iter_mut().zip(first..) {
        *place = line_of(window, k);
    }
    Ok(())
}

/// Writes the 512 lines of the window that begins at `start` to `lines`. A
/// refusal leaves `lines` as it was. Refused in this order: 2, 4, 3.
pub fn spectrum(recording: &[i32], start: usize, lines: &mut [u64]) -> Result<(), Refusal> {
    let window = window_at(recording, start)?;
    if lines.len() != LINE_COUNT {
        return Err(Refusal::WrongLineCount);
    }
    write_lines(window, 0, lines)
}

/// Writes the lines `first`, `first` + 1, .. of the window that begins at
/// `start`, as many as `lines` holds; none is taken too. A refusal leaves
/// `lines` as it was. Refused in this order: 2; 4 for a buffer that reaches past
/// line 1,023; 3.
pub fn lines_from(
    recording: &[i32],
    start: usize,
    first: usize,
    lines: &mut [u64],
) -> Result<(), Refusal> {
    let window = window_at(recording, start)?;
    if first > LINE_LIMIT || lines.len() > LINE_LIMIT - first {
        return Err(Refusal::WrongLineCount);
    }
    write_lines(window, first, lines)
}

/// The 512 lines of the window that begins at `start`, in an array of their own.
pub fn lines_of(recording: &[i32], start: usize) -> Result<[u64; LINE_COUNT], Refusal> {
    let mut lines = [0; LINE_COUNT];
    spectrum(recording, start, &mut lines)?;
    Ok(lines)
}

/// The last window whose lines were asked for, with its lines: where the next is equal,
/// these are not worked out again.
pub struct LastWindow {
    window: Vec<i32>,
    lines: [u64; LINE_COUNT],
}

impl LastWindow {
    /// No window yet.
    pub fn none() -> LastWindow {
        LastWindow { window: Vec::new(), lines: [0; LINE_COUNT] }
    }

    /// The lines of the last window.
    pub fn lines(&self) -> &[u64; LINE_COUNT] {
        &self.lines
    }

    /// The lines of a window, which is then the last. Refused: 3.
    pub fn lines_of(&mut self, window: &[i32]) -> Result<&[u64; LINE_COUNT], Refusal> {
        if window != self.window {
            self.lines = lines_of(window, 0)?;
            self.window = window.to_vec();
        }
        Ok(&self.lines)
    }
}
