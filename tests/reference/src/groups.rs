//! Groups of spectral lines (document 01, "Groups"), under an edition (document
//! 02, card 7).

use crate::largest::root;
use crate::refusals::Refusal;
use crate::rows::{EDITION_A1, ORDER_COUNT, Row, Setup, is_order};
use crate::spectrum::{LARGEST_LINE, LINE_COUNT};

/// The five kinds, in the order of document 01's table.
#[derive(Clone, Copy, Debug, PartialEq, Eq)]
pub enum Kind {
    /// The line at N×h alone.
    Component,
    /// N/2 lines on either side, the outermost with weight 1/2.
    HarmonicGroup,
    /// One line on either side.
    HarmonicSubgroup,
    /// All lines between h and h+1.
    InterharmonicGroup,
    /// The same without the lines beside the two harmonics.
    InterharmonicCentredSubgroup,
}

impl Kind {
    /// All kinds, in the order of document 01's table.
    pub const ALL: [Kind; 5] = [
        Kind::Component,
        Kind::HarmonicGroup,
        Kind::HarmonicSubgroup,
        Kind::InterharmonicGroup,
        Kind::InterharmonicCentredSubgroup,
    ];
}

/// The lines of a kind, counted from N×h, each with its weight times 2.
fn doubled_weights(kind: Kind, system: i64) -> Vec<(i64, u64)> {
    let whole = |first: i64, last: i64| (first..=last).map(|offset| (offset, 2)).collect();
    let half = system / 2;
    match kind {
        Kind::Component => whole(0, 0),
        Kind::HarmonicGroup => {
            let mut lines: Vec<(i64, u64)> = whole(1 - half, half - 1);
            lines.extend([(-half, 1), (half, 1)]);
            lines
        }
        Kind::HarmonicSubgroup => whole(-1, 1),
        Kind::InterharmonicGroup => whole(1, system - 1),
        Kind::InterharmonicCentredSubgroup => whole(2, system - 2),
    }
}

/// The kind whose lines a group has: "under A1 the harmonic group of order 1 is its
/// component alone, others and the other kinds as now" (document 02, card 7).
fn grouped_as(kind: Kind, edition: u64, order: u64) -> Kind {
    match kind {
        Kind::HarmonicGroup if edition == EDITION_A1 && order == 1 => Kind::Component,
        _ => kind,
    }
}

/// The line numbers of a group, each with its weight times 2.
pub fn weighted_lines(kind: Kind, setup: Setup, order: u64) -> Vec<(usize, u64)> {
    let Setup { system, edition } = setup;
    let centre = (system * order) as i64;
    let kind = grouped_as(kind, edition, order);
    let from_centre = doubled_weights(kind, system as i64).into_iter();
    from_centre.map(|(offset, weight)| ((centre + offset) as usize, weight)).collect()
}

/// The value of one group: the whole part of the root of the sum of 2 × w × L.
/// The sum is at most 24 × 2^59. Refused in this order: 1, 19, 6, 4, 5.
pub fn group_value(kind: Kind, setup: Setup, order: u64, lines: &[u64]) -> Result<u64, Refusal> {
    setup.check()?;
    if !is_order(order) {
        return Err(Refusal::OrderOutOfRange);
    }
    if lines.len() != LINE_COUNT {
        return Err(Refusal::WrongLineCount);
    }
    if lines.iter().any(|&line| line > LARGEST_LINE) {
        return Err(Refusal::LineTooLarge);
    }
    let group = weighted_lines(kind, setup, order).into_iter();
    Ok(root(group.map(|(number, weight)| weight * lines[number]).sum()))
}

/// The row of one kind: its values at the orders 1..40. Each is below 2^32, as
/// its square is at most 24 × 2^59. Refused in this order: 1, 19, 4, 5.
pub fn group_row(kind: Kind, setup: Setup, lines: &[u64]) -> Result<Row, Refusal> {
    let mut values = [0; ORDER_COUNT];
    for (order, place) in (1..).zip(&mut values) {
        *place = group_value(kind, setup, order, lines)? as u32;
    }
    Ok(Row { setup, values })
}
