//! The program `harmlist` as a function from its input's bytes to its output's
//! (document 01, "Columns and the listing"). The input is a line with the
//! system and then one line per sample, windows back to back. The first fault
//! in input order decides; the bytes after it are not read. It keeps edition 2
//! (document 02, card 7).

use crate::columns::{COLUMN_WIDTH, column_text, read_column};
use crate::groups::Kind;
use crate::listing::{REFUSAL_WIDTH, listing_text};
use crate::observe::Observing;
use crate::refusals::Refusal;
use crate::rows::{Setup, is_system};
use crate::spectrum::{WINDOW_LENGTH, out_of_range};

/// The next line's number, or none at the end of the input. Refused: 13 for a
/// line that is not one column and a newline; a shorter line is found by a
/// newline among the eight bytes, a longer one by the ninth.
fn next_number(input: &mut impl Iterator<Item = u8>) -> Result<Option<i64>, Refusal> {
    let mut line = [0; COLUMN_WIDTH + 1];
    let length = line.iter_mut().zip(input).map(|(place, byte)| *place = byte).count();
    match line[..length].strip_suffix(b"\n") {
        _ if length == 0 => Ok(None),
        Some(column) => read_column(column).map(Some),
        None => Err(Refusal::NotAColumn),
    }
}

/// The system of the first line. Refused in this order: 13, 1.
fn read_system(input: &mut impl Iterator<Item = u8>) -> Result<u64, Refusal> {
    let number = next_number(input)?.ok_or(Refusal::NotAColumn)?;
    let system = u64::try_from(number).map_err(|_| Refusal::UnknownSystem)?;
    if is_system(system) { Ok(system) } else { Err(Refusal::UnknownSystem) }
}

/// A sample's number as a sample. Refused: 3.
fn sample_of(number: i64) -> Result<i32, Refusal> {
    let sample = i32::try_from(number).map_err(|_| Refusal::SampleOutOfRange)?;
    if out_of_range(sample) { Err(Refusal::SampleOutOfRange) } else { Ok(sample) }
}

/// The listing of an observation of harmonic groups.
fn listing_of(observing: &Observing) -> Result<Vec<u8>, Refusal> {
    let group = observing.row(Kind::HarmonicGroup)?.values;
    let subgroup = observing.row(Kind::HarmonicSubgroup)?.values;
    let smoothed = observing.observation.smoothed.map(|value| value as u32);
    Ok(listing_text(&group, &subgroup, &smoothed))
}

/// The listing after the last window, or the first fault.
fn listing_or_fault(mut input: impl Iterator<Item = u8>) -> Result<Vec<u8>, Refusal> {
    let setup = Setup::edition_2(read_system(&mut input)?);
    let mut observing = Observing::begin(setup, Kind::HarmonicGroup)?;
    let mut window = Vec::with_capacity(WINDOW_LENGTH);
    while let Some(number) = next_number(&mut input)? {
        window.push(sample_of(number)?);
        if window.len() == WINDOW_LENGTH {
            observing.take(&window, 0)?;
            window.clear();
        }
    }
    if !window.is_empty() {
        return Err(Refusal::ShortWindow);
    }
    if observing.observation.windows == 0 {
        return Err(Refusal::NoWindow);
    }
    listing_of(&observing)
}

/// The one line of output for a fault.
fn refused_line(refusal: Refusal) -> Vec<u8> {
    let mut line = b"refused".to_vec();
    line.extend(
        column_text(refusal.number().into(), REFUSAL_WIDTH).expect("a number has two digits"),
    );
    line.push(b'\n');
    line
}

/// All that `harmlist` writes for an input.
pub fn harmlist(input: impl Iterator<Item = u8>) -> Vec<u8> {
    listing_or_fault(input).unwrap_or_else(refused_line)
}
