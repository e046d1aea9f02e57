//! Safe wrappers of the proved harmonic core. `include/kifsang.h` is its manual: formulas, units, the
//! order in buffers, and the definition that each result is proved to equal.
//!
//! Each function hands its slices to the core as they are and tests nothing itself: the core is
//! proved for every input and refuses what the specification refuses. It answers `Ok`, or the number
//! of the first fault, in the order listed with it; a refused call leaves every buffer as it was.
//! Calls share no state, so they may run on several threads. Values are in units of 1/4096 sample
//! count, r.m.s.
//!
//! From samples to verdicts:
//!
//! ```
//! use kifsang::{Kind, Verdict, CLASS_A, CLASS_B, EDITION_2};
//! use kifsang::{RECORD_WORDS, UNITS_PER_COUNT, WINDOW_LENGTH};
//!
//! // Fifteen windows of 0.2 s at 50 Hz: a square wave of 5 A, 1,600 counts per ampere.
//! let recording: Vec<i32> = (0..15 * WINDOW_LENGTH)
//!     .map(|place| if place * 20 / WINDOW_LENGTH % 2 == 0 { 8000 } else { -8000 })
//!     .collect();
//! let mut record = [0; RECORD_WORDS];
//! kifsang::observe(&recording, 0, 15, 10, EDITION_2, Kind::HarmonicGroup, &mut record)?;
//! let units_per_ampere = 1600 * UNITS_PER_COUNT;
//! assert_eq!(kifsang::verdict(&record, 3, CLASS_A, units_per_ampere)?, Verdict::Within);
//! assert_eq!(kifsang::verdict(&record, 9, CLASS_A, units_per_ampere)?, Verdict::Over);
//! // 0.5 A at order 9, where a portable tool may have half as much again as 0.4 A.
//! assert_eq!(kifsang::verdict(&record, 9, CLASS_B, units_per_ampere)?, Verdict::Within);
//! # Ok::<(), kifsang::Refusal>(())
//! ```
//!
//! The build links `libkifsang.a` from `target/staticlib` of the repository, where `make` writes it, or
//! from the folder that the variable `KIFSANG_ARCHIVE_FOLDER` names; a relative one counts from this
//! package's folder. Where there is no archive the build stops and says where it looked.

use std::fmt;

/// Samples in a window.
pub const WINDOW_LENGTH: usize = 2048;
/// Lines of a spectrum.
pub const LINE_COUNT: usize = 512;
/// The numbers of lines are below it.
pub const LINE_LIMIT: usize = 1024;
/// Lines of the panel's buffer: the most that a group has.
pub const PANEL_LINES: usize = 13;
/// Values of a row: the orders 1..40, the value of order h at place h - 1.
pub const ORDER_COUNT: usize = 40;
/// Units in a sample count.
pub const UNITS_PER_COUNT: u32 = 4096;
/// The largest size of a sample, in counts.
pub const LARGEST_SAMPLE: i32 = 131071;
/// The most units per ampere.
pub const LARGEST_SCALE: u32 = 1 << 28;
/// The most windows of a record.
pub const MOST_WINDOWS: u64 = 45000;
/// Bytes of a number column.
pub const COLUMN_WIDTH: usize = 8;
/// Bytes that a listing may need.
pub const LISTING_ROOM: usize = 1640;
/// Units either way of a limit in which a verdict is close.
pub const SMOOTHED_MARGIN: u32 = 12;
/// Per cent of the limit: what the peak of an order is judged against.
pub const PEAK_PERCENT: u32 = 150;
/// Windows of a three-second value: the rows that a record keeps.
pub const THREE_SECOND_WINDOWS: usize = 15;

/// The class letter of class A. A class letter is a byte, as a front panel or a file has it, and the core
/// refuses any other with 15.
pub const CLASS_A: u8 = b'A';
/// The class letter of class B: portable tools.
pub const CLASS_B: u8 = b'B';

/// Edition 2 of IEC 61000-4-7. An edition is a number, as a record holds it, and the core refuses any
/// other than these two with 19.
pub const EDITION_2: u32 = 0;
/// Edition 2 with its amendment A1: the harmonic group of order 1 is its component alone, and all else is
/// as in edition 2.
pub const EDITION_A1: u32 = 1;

/// The place of the system among a record's words.
pub const SYSTEM_PLACE: usize = 0;
/// The place of the edition.
pub const EDITION_PLACE: usize = 1;
/// The place of the count of windows.
pub const WINDOWS_PLACE: usize = 2;
/// The first of the 40 places of the smoothed values.
pub const SMOOTHED_PLACE: usize = 3;
/// The first of the 40 places of their sums.
pub const SUM_PLACE: usize = SMOOTHED_PLACE + ORDER_COUNT;
/// The first of the 40 places of their peaks.
pub const PEAK_PLACE: usize = SUM_PLACE + ORDER_COUNT;
/// The first of the 300 places of the latest rows, two values in a word: with the windows counted from 0, the
/// value of order h of window n stands at place `LATEST_PLACE + 20 * (n % 15) + (h - 1) / 2`, in the lower 32
/// bits where h is odd and in the upper 32 where it is even.
pub const LATEST_PLACE: usize = PEAK_PLACE + ORDER_COUNT;
/// Words of a record.
pub const RECORD_WORDS: usize = LATEST_PLACE + THREE_SECOND_WINDOWS * ORDER_COUNT / 2;

/// Why a call was refused.
#[derive(Clone, Copy, Debug, PartialEq, Eq)]
pub struct Refusal(pub u32);

/// Gives each number its name and its words.
macro_rules! refusals {
    ($($number:literal $name:ident $words:literal)*) => {
        impl Refusal {
            $(
                #[doc = $words]
                pub const $name: Refusal = Refusal($number);
            )*

            /// What the number stands for.
            pub fn words(self) -> &'static str {
                match self.0 {
                    $($number => $words,)*
                    _ => "a number that the core does not have",
                }
            }
        }
    };
}

refusals! {
    1 UNKNOWN_SYSTEM "the system is neither 10 nor 12"
    2 SHORT_WINDOW "fewer than 2,048 samples from the start"
    3 SAMPLE_OUT_OF_RANGE "a sample of the window is outside -131071..131071"
    4 WRONG_LINE_COUNT "not 512 lines (13 for the panel's row), or lines past number 1023"
    5 LINE_TOO_LARGE "a line above 2^59"
    6 ORDER_OUT_OF_RANGE "an order outside the orders of the call"
    7 UNSOUND_RECORD "words that are not a sound record"
    8 OTHER_SETUP "a row whose system or edition is not the record's"
    9 RECORD_FULL "the record holds 45,000 windows"
    10 NO_WINDOW "the record holds no window yet"
    11 SCALE_OUT_OF_RANGE "units per ampere outside 1..2^28"
    12 NO_FUNDAMENTAL "the value of order 1 is 0"
    13 NOT_A_COLUMN "no number column, or a number wider than its column"
    14 WRONG_BUFFER_LENGTH "a text buffer of the wrong length"
    15 UNKNOWN_CLASS "a class letter other than A or B"
    19 UNKNOWN_EDITION "the edition is neither 0 nor 1"
    20 TOO_FEW_WINDOWS "the record holds fewer than 15 windows"
    101 UNKNOWN_KIND "a number that stands for no kind"
    102 WRONG_WORD_COUNT "not 40 words for a row, or not 423 for a record"
}

impl fmt::Display for Refusal {
    fn fmt(&self, out: &mut fmt::Formatter<'_>) -> fmt::Result {
        write!(out, "refused, number {}: {}", self.0, self.words())
    }
}

impl std::error::Error for Refusal {}

/// Which lines a group has.
#[derive(Clone, Copy, Debug, PartialEq, Eq)]
#[repr(u32)]
pub enum Kind {
    Component = 0,
    HarmonicGroup = 1,
    HarmonicSubgroup = 2,
    InterharmonicGroup = 3,
    InterharmonicCentredSubgroup = 4,
}

/// A limit in milliamperes, an exact fraction in lowest terms.
#[derive(Clone, Copy, Debug, PartialEq, Eq)]
pub struct Limit {
    pub numerator: u64,
    pub denominator: u64,
}

impl Limit {
    /// The limit as the nearest floating-point number, to draw or to print. A verdict compares exactly.
    pub fn milliamperes(self) -> f64 {
        self.numerator as f64 / self.denominator as f64
    }
}

/// How an order stands to its limit. 0 is none of them.
#[derive(Clone, Copy, Debug, PartialEq, Eq)]
#[repr(u32)]
pub enum Verdict {
    Within = 1,
    Close = 2,
    Over = 3,
}

mod raw {
    // A slice is a pointer and then its length, of 64 bits on every board; a single number is a
    // pointer.
    extern "C" {
        pub fn kifsang_spectrum(
            recording: *const i32,
            recording_length: u64,
            start: u64,
            lines: *mut u64,
            line_count: u64,
        ) -> u32;
        pub fn kifsang_lines_from(
            recording: *const i32,
            recording_length: u64,
            start: u64,
            first: u64,
            lines: *mut u64,
            line_count: u64,
        ) -> u32;
        pub fn kifsang_group_value(
            kind: u32,
            system: u32,
            edition: u32,
            order: u32,
            lines: *const u64,
            line_count: u64,
            value: *mut u64,
        ) -> u32;
        pub fn kifsang_row(
            kind: u32,
            system: u32,
            edition: u32,
            lines: *const u64,
            line_count: u64,
            values: *mut u32,
            value_count: u64,
        ) -> u32;
        pub fn kifsang_panel_row(
            recording: *const i32,
            recording_length: u64,
            start: u64,
            system: u32,
            edition: u32,
            lines: *mut u64,
            line_count: u64,
            values: *mut u32,
            value_count: u64,
        ) -> u32;
        pub fn kifsang_distortion(
            values: *const u32,
            value_count: u64,
            parts_per_thousand: *mut u64,
        ) -> u32;
        pub fn kifsang_fresh_record(
            system: u32,
            edition: u32,
            record: *mut u64,
            record_words: u64,
        ) -> u32;
        pub fn kifsang_add_row(
            record: *mut u64,
            record_words: u64,
            system: u32,
            edition: u32,
            values: *const u32,
            value_count: u64,
        ) -> u32;
        pub fn kifsang_observe(
            recording: *const i32,
            recording_length: u64,
            start: u64,
            windows: u64,
            system: u32,
            edition: u32,
            kind: u32,
            record: *mut u64,
            record_words: u64,
        ) -> u32;
        pub fn kifsang_limit(
            order: u32,
            class_letter: u8,
            numerator: *mut u64,
            denominator: *mut u64,
        ) -> u32;
        pub fn kifsang_verdict(
            record: *const u64,
            record_words: u64,
            order: u32,
            class_letter: u8,
            units_per_ampere: u32,
            verdict: *mut u32,
        ) -> u32;
        pub fn kifsang_three_second_value(
            record: *const u64,
            record_words: u64,
            order: u32,
            value: *mut u64,
        ) -> u32;
        pub fn kifsang_read_column(text: *const u8, text_length: u64, number: *mut i64) -> u32;
        pub fn kifsang_write_column(buffer: *mut u8, buffer_length: u64, number: i64) -> u32;
        pub fn kifsang_fill_listing(
            group: *const u32,
            group_count: u64,
            subgroup: *const u32,
            subgroup_count: u64,
            smoothed: *const u32,
            smoothed_count: u64,
            buffer: *mut u8,
            buffer_length: u64,
            written: *mut u64,
        ) -> u32;
    }
}

fn length<T>(slice: &[T]) -> u64 {
    slice.len() as u64
}

fn answered<T>(refusal: u32, value: T) -> Result<T, Refusal> {
    if refusal == 0 {
        Ok(value)
    } else {
        Err(Refusal(refusal))
    }
}

/// Works out the spectral lines of the window of 2,048 samples that begins at `start`, into a buffer
/// of 512 lines. Only the window is looked at.
///
/// Refusals: 2 fewer than 2,048 samples from the start; 4 not 512 lines; 3 a sample of the window
/// outside -131071..131071.
///
/// Proved error: A and B of each line are each at most 3/4 from those with the exact cosine and sine,
/// unrounded.
pub fn spectrum(recording: &[i32], start: usize, lines: &mut [u64]) -> Result<(), Refusal> {
    // SAFETY: each pointer comes with the length of its slice.
    let refusal = unsafe {
        raw::kifsang_spectrum(
            recording.as_ptr(),
            length(recording),
            start as u64,
            lines.as_mut_ptr(),
            length(lines),
        )
    };
    answered(refusal, ())
}

/// Works out the spectral lines `first`, `first + 1`, .. of the window that begins at `start`, as many
/// as the buffer holds; their numbers are below [`LINE_LIMIT`]. Those below 512 are [`spectrum`]'s. Only
/// the window is looked at, and a buffer of no lines is taken too.
///
/// Refusals: 2 fewer than 2,048 samples from the start; 4 the buffer reaches past line 1023; 3 a sample
/// of the window outside -131071..131071.
///
/// Proved error: that of [`spectrum`], for each line.
///
/// ```
/// // Every line of a single sample of 1000 is 4000000; here the last 13 of them.
/// let mut recording = [0; kifsang::WINDOW_LENGTH];
/// recording[0] = 1000;
/// let mut lines = [0; 13];
/// kifsang::lines_from(&recording, 0, kifsang::LINE_LIMIT - 13, &mut lines)?;
/// assert_eq!(lines, [4_000_000; 13]);
/// # Ok::<(), kifsang::Refusal>(())
/// ```
pub fn lines_from(
    recording: &[i32],
    start: usize,
    first: usize,
    lines: &mut [u64],
) -> Result<(), Refusal> {
    // SAFETY: each pointer comes with the length of its slice.
    let refusal = unsafe {
        raw::kifsang_lines_from(
            recording.as_ptr(),
            length(recording),
            start as u64,
            first as u64,
            lines.as_mut_ptr(),
            length(lines),
        )
    };
    answered(refusal, ())
}

/// Works out one group value, below 2^32, from 512 lines of at most 2^59 each; the edition is
/// [`EDITION_2`] or [`EDITION_A1`], the order is 1..40.
///
/// Refusals: 1 system not 10 or 12; 19 edition not 0 or 1; 6 order outside 1..40; 4 not 512 lines; 5 a
/// line above 2^59.
///
/// Proved error: for the lines of a window in range the value is at most 7 units from the exact
/// group of the edition. One sample of the window that is off by d counts moves it by at most
/// 10 × d + 14 units.
///
/// ```
/// use kifsang::{group_value, Kind, EDITION_2, EDITION_A1};
///
/// // The lines of a single sample of 1000. Amendment A1 groups from the second order up.
/// let mut recording = [0; kifsang::WINDOW_LENGTH];
/// recording[0] = 1000;
/// let mut lines = [0; kifsang::LINE_COUNT];
/// kifsang::spectrum(&recording, 0, &mut lines)?;
/// assert_eq!(group_value(Kind::HarmonicGroup, 10, EDITION_2, 1, &lines)?, 8944);
/// assert_eq!(group_value(Kind::HarmonicGroup, 10, EDITION_A1, 1, &lines)?, 2828);
/// for edition in [EDITION_2, EDITION_A1] {
///     assert_eq!(group_value(Kind::HarmonicGroup, 10, edition, 2, &lines)?, 8944);
/// }
/// # Ok::<(), kifsang::Refusal>(())
/// ```
pub fn group_value(
    kind: Kind,
    system: u32,
    edition: u32,
    order: u32,
    lines: &[u64],
) -> Result<u64, Refusal> {
    let mut value = 0;
    // SAFETY: each pointer comes with the length of its slice, or points to one number.
    let refusal = unsafe {
        raw::kifsang_group_value(
            kind as u32,
            system,
            edition,
            order,
            lines.as_ptr(),
            length(lines),
            &mut value,
        )
    };
    answered(refusal, value)
}

/// Works out the 40 group values of a kind, a row, into a buffer of 40.
///
/// Refusals: 102 not 40 values; 1 system not 10 or 12; 19 edition not 0 or 1; 4 not 512 lines; 5 a line
/// above 2^59.
///
/// Proved error: that of [`group_value`], for each order.
pub fn row(
    kind: Kind,
    system: u32,
    edition: u32,
    lines: &[u64],
    values: &mut [u32],
) -> Result<(), Refusal> {
    // SAFETY: each pointer comes with the length of its slice.
    let refusal = unsafe {
        raw::kifsang_row(
            kind as u32,
            system,
            edition,
            lines.as_ptr(),
            length(lines),
            values.as_mut_ptr(),
            length(values),
        )
    };
    answered(refusal, ())
}

/// Works out the row of the harmonic groups of the window that begins at `start`, with a buffer of
/// [`PANEL_LINES`] lines in place of [`LINE_COUNT`]: the very row that [`spectrum`] and then [`row`], with
/// [`Kind::HarmonicGroup`], would leave. What the lines held does not matter, and after an accepted call
/// all of them are 0. It needs a seventh of the stack of [`spectrum`], and takes several times as long as those
/// two calls. Only the window is looked at.
///
/// Refusals: 102 not 40 values; 1 system not 10 or 12; 19 edition not 0 or 1; 2 fewer than 2,048 samples
/// from the start; 4 not 13 lines; 3 a sample of the window outside -131071..131071.
///
/// Proved error: each value is at most 7 units from the exact group of the edition. The row is that of
/// [`spectrum`] and [`row`], so what is said of such a row holds of it.
///
/// ```
/// use kifsang::{panel_row, Kind, Refusal, EDITION_2, EDITION_A1};
/// use kifsang::{LINE_COUNT, ORDER_COUNT, PANEL_LINES, WINDOW_LENGTH};
///
/// // The groups of a single sample of 1000, over 13 lines at a time.
/// let mut recording = [0; WINDOW_LENGTH];
/// recording[0] = 1000;
/// let (mut lines, mut panel) = ([1; PANEL_LINES], [0; ORDER_COUNT]);
/// panel_row(&recording, 0, 10, EDITION_2, &mut lines, &mut panel)?;
/// assert_eq!(panel, [8944; ORDER_COUNT]);
/// assert_eq!(lines, [0; PANEL_LINES]);
///
/// // The same row over 512 lines.
/// let (mut all_lines, mut values) = ([0; LINE_COUNT], [0; ORDER_COUNT]);
/// kifsang::spectrum(&recording, 0, &mut all_lines)?;
/// kifsang::row(Kind::HarmonicGroup, 10, EDITION_2, &all_lines, &mut values)?;
/// assert_eq!(panel, values);
///
/// // Amendment A1 groups from the second order up.
/// panel_row(&recording, 0, 10, EDITION_A1, &mut lines, &mut panel)?;
/// assert_eq!((panel[0], panel[1]), (2828, 8944));
///
/// let refused = panel_row(&recording, 0, 10, EDITION_2, &mut all_lines, &mut panel);
/// assert_eq!(refused, Err(Refusal::WRONG_LINE_COUNT));
/// # Ok::<(), Refusal>(())
/// ```
pub fn panel_row(
    recording: &[i32],
    start: usize,
    system: u32,
    edition: u32,
    lines: &mut [u64],
    values: &mut [u32],
) -> Result<(), Refusal> {
    // SAFETY: each pointer comes with the length of its slice.
    let refusal = unsafe {
        raw::kifsang_panel_row(
            recording.as_ptr(),
            length(recording),
            start as u64,
            system,
            edition,
            lines.as_mut_ptr(),
            length(lines),
            values.as_mut_ptr(),
            length(values),
        )
    };
    answered(refusal, ())
}

/// Works out the group distortion of a row of 40 values, in parts per thousand of the value of order
/// 1, below 2^45.
///
/// Refusals: 102 not 40 values; 12 the value of order 1 is 0.
///
/// Proved error: none, it is exact for the values that are given.
pub fn distortion(values: &[u32]) -> Result<u64, Refusal> {
    let mut parts_per_thousand = 0;
    // SAFETY: the pointer comes with the length of its slice, the other points to one number.
    let refusal = unsafe {
        raw::kifsang_distortion(values.as_ptr(), length(values), &mut parts_per_thousand)
    };
    answered(refusal, parts_per_thousand)
}

/// Begins an observation: a record of a system and an edition with no window, into [`RECORD_WORDS`] words.
///
/// Refusals: 102 not 423 words; 1 system not 10 or 12; 19 edition not 0 or 1.
pub fn fresh_record(system: u32, edition: u32, record: &mut [u64]) -> Result<(), Refusal> {
    // SAFETY: the pointer comes with the length of its slice.
    let refusal =
        unsafe { raw::kifsang_fresh_record(system, edition, record.as_mut_ptr(), length(record)) };
    answered(refusal, ())
}

/// Adds the row of one window, 40 values with their system and edition, to a record; any words may be
/// handed over as one. The row itself becomes one of the latest rows, from the 16th on in the
/// place of the oldest.
///
/// Refusals: 102 not 423 words or not 40 values; 7 the record is not sound; 1 system not 10 or 12; 19
/// edition not 0 or 1; 8 another system or another edition than the record's; 9 the record holds 45,000
/// windows.
///
/// Proved error: after any list of calls from a fresh record, with rows of one kind worked from
/// windows in range, with their own system and edition, each smoothed value is at most 12 units from the
/// exact one. One sample of the row's window that is off by d counts moves it by at most
/// (10 × d + 14) / 8.012 units, rounded up, if the record held at least one window.
pub fn add_row(
    record: &mut [u64],
    system: u32,
    edition: u32,
    values: &[u32],
) -> Result<(), Refusal> {
    // SAFETY: each pointer comes with the length of its slice.
    let refusal = unsafe {
        raw::kifsang_add_row(
            record.as_mut_ptr(),
            length(record),
            system,
            edition,
            values.as_ptr(),
            length(values),
        )
    };
    answered(refusal, ())
}

/// Observes windows that stand back to back, the first at `start`: leaves the record after so many of
/// them, with the row of one kind of each. It is what [`fresh_record`] and then, for each window,
/// [`spectrum`], [`row`] and [`add_row`] would leave; no window leaves a fresh record. Only the windows
/// are looked at.
///
/// Refusals: 102 not 423 words; 1 system not 10 or 12; 19 edition not 0 or 1; then for each window in
/// turn: 2 fewer than 2,048 samples from its start; 3 a sample of it outside -131071..131071; 9 45,000
/// windows are before it.
///
/// Proved error: each smoothed value is at most 12 units from the exact one, and a verdict or a
/// three-second value that is asked of the record keeps what [`verdict`] or [`three_second_value`] says of
/// it.
pub fn observe(
    recording: &[i32],
    start: usize,
    windows: usize,
    system: u32,
    edition: u32,
    kind: Kind,
    record: &mut [u64],
) -> Result<(), Refusal> {
    // SAFETY: each pointer comes with the length of its slice.
    let refusal = unsafe {
        raw::kifsang_observe(
            recording.as_ptr(),
            length(recording),
            start as u64,
            windows as u64,
            system,
            edition,
            kind as u32,
            record.as_mut_ptr(),
            length(record),
        )
    };
    answered(refusal, ())
}

/// Looks up the limit of an order, 2..40, in a class, [`CLASS_A`] or [`CLASS_B`]: the milliamperes r.m.s.
/// up to which the average of the order may go. Its peak may go up to [`PEAK_PERCENT`] per cent of that.
///
/// Refusals: 6 order outside 2..40; 15 class letter not A or B.
///
/// Proved error: none, the fraction is exact.
///
/// ```
/// // 2250/39 mA, in lowest terms.
/// let limit = kifsang::limit(39, b'A')?;
/// assert_eq!((limit.numerator, limit.denominator), (750, 13));
/// assert_eq!(format!("{:.3} mA", limit.milliamperes()), "57.692 mA");
///
/// // 150 % of it.
/// let limit = kifsang::limit(39, b'B')?;
/// assert_eq!((limit.numerator, limit.denominator), (1125, 13));
/// assert_eq!(format!("{:.3} mA", limit.milliamperes()), "86.538 mA");
///
/// assert_eq!(kifsang::limit(39, b'b'), Err(kifsang::Refusal::UNKNOWN_CLASS));
/// # Ok::<(), kifsang::Refusal>(())
/// ```
pub fn limit(order: u32, class_letter: u8) -> Result<Limit, Refusal> {
    let (mut numerator, mut denominator) = (0, 0);
    // SAFETY: each pointer points to one number.
    let refusal =
        unsafe { raw::kifsang_limit(order, class_letter, &mut numerator, &mut denominator) };
    let limit = Limit {
        numerator,
        denominator,
    };
    answered(refusal, limit)
}

/// Judges an order, 2..40, against its limit in a class, [`CLASS_A`] or [`CLASS_B`]: the average of its
/// smoothed values against the limit, their peak against 150 % of it, with so many units in an ampere
/// r.m.s., 1..2^28.
///
/// Refusals: 102 not 423 words; 7 the record is not sound; 10 no window yet; 6 order outside 2..40; 15
/// class letter not A or B; 11 units per ampere outside 1..2^28.
///
/// Proved error: after a list of calls as of [`add_row`], within and over hold for the exact average
/// and peak too; close is given only where a value is at most 12 units from its limit.
pub fn verdict(
    record: &[u64],
    order: u32,
    class_letter: u8,
    units_per_ampere: u32,
) -> Result<Verdict, Refusal> {
    let mut number = 0;
    // SAFETY: the pointer comes with the length of its slice, the other points to one number.
    let refusal = unsafe {
        raw::kifsang_verdict(
            record.as_ptr(),
            length(record),
            order,
            class_letter,
            units_per_ampere,
            &mut number,
        )
    };
    answered(refusal, ())?;
    match number {
        1 => Ok(Verdict::Within),
        2 => Ok(Verdict::Close),
        3 => Ok(Verdict::Over),
        other => unreachable!("the core has three verdicts, and {other} is none of them"),
    }
}

/// Works out the three-second value of an order, 1..40, below 2^32: the largest whole t with 15 * t^2 at most
/// the sum of the squares of the order's values in the latest 15 rows. As a window arrives the oldest leaves.
///
/// Refusals: 102 not 423 words; 7 the record is not sound; 6 order outside 1..40; 20 fewer than 15 windows.
///
/// Proved error: none for the rows that were added; after any list of calls from a fresh record, refused
/// ones included, it is the value of the last 15 accepted rows. Where these come from [`observe`], from
/// [`spectrum`] and [`row`] or, for harmonic groups, from [`panel_row`], all of one kind, it is at most 8
/// units from the exact one, whose square is a fifteenth of the sum of the squares of the 15 windows' exact
/// groups.
///
/// ```
/// use kifsang::{add_row, three_second_value, Refusal};
/// use kifsang::{EDITION_2, ORDER_COUNT, RECORD_WORDS, THREE_SECOND_WINDOWS};
///
/// let mut record = [0; RECORD_WORDS];
/// kifsang::fresh_record(10, EDITION_2, &mut record)?;
/// add_row(&mut record, 10, EDITION_2, &[2000; ORDER_COUNT])?;
/// for _ in 2..THREE_SECOND_WINDOWS {
///     add_row(&mut record, 10, EDITION_2, &[1000; ORDER_COUNT])?;
/// }
/// assert_eq!(three_second_value(&record, 3), Err(Refusal::TOO_FEW_WINDOWS));
///
/// // With the fifteenth window the squares have the sum 18000000, a fifteenth of it is 1200000.
/// add_row(&mut record, 10, EDITION_2, &[1000; ORDER_COUNT])?;
/// assert_eq!(three_second_value(&record, 3)?, 1095);
///
/// // With the next one the first leaves.
/// add_row(&mut record, 10, EDITION_2, &[1000; ORDER_COUNT])?;
/// assert_eq!(three_second_value(&record, 3)?, 1000);
/// # Ok::<(), Refusal>(())
/// ```
pub fn three_second_value(record: &[u64], order: u32) -> Result<u64, Refusal> {
    let mut value = 0;
    // SAFETY: the pointer comes with the length of its slice, the other points to one number.
    let refusal = unsafe {
        raw::kifsang_three_second_value(record.as_ptr(), length(record), order, &mut value)
    };
    answered(refusal, value)
}

/// Reads a number column: 8 bytes, right-justified, blanks before, a minus directly before the
/// digits, no leading zero but the single 0, no -0. The number is -9999999..99999999.
///
/// Refusals: 13 not 8 bytes, or not of the form.
pub fn read_column(text: &[u8]) -> Result<i64, Refusal> {
    let mut number = 0;
    // SAFETY: the pointer comes with the length of its slice, the other points to one number.
    let refusal = unsafe { raw::kifsang_read_column(text.as_ptr(), length(text), &mut number) };
    answered(refusal, number)
}

/// Writes a number column of 8 bytes, of the form that [`read_column`] reads.
///
/// Refusals: 14 not 8 bytes; 13 the number is wider than 8 bytes.
pub fn write_column(buffer: &mut [u8], number: i64) -> Result<(), Refusal> {
    // SAFETY: the pointer comes with the length of its slice.
    let refusal = unsafe { raw::kifsang_write_column(buffer.as_mut_ptr(), length(buffer), number) };
    answered(refusal, ())
}

/// Fills a buffer with the listing of three rows of 40 values and gives the count of its bytes,
/// 80..1640: a header, and a line of 40 bytes for each order of which a value is not 0, and for order
/// 1 always. Bytes after the listing stay.
///
/// Refusals: 102 not 40 values in one of the rows; 14 a buffer below 1640 bytes.
pub fn fill_listing(
    group: &[u32],
    subgroup: &[u32],
    smoothed: &[u32],
    buffer: &mut [u8],
) -> Result<u64, Refusal> {
    let mut written = 0;
    // SAFETY: each pointer comes with the length of its slice, the last points to one number.
    let refusal = unsafe {
        raw::kifsang_fill_listing(
            group.as_ptr(),
            length(group),
            subgroup.as_ptr(),
            length(subgroup),
            smoothed.as_ptr(),
            length(smoothed),
            buffer.as_mut_ptr(),
            length(buffer),
            &mut written,
        )
    };
    answered(refusal, written)
}
