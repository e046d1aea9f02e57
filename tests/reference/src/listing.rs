//! The listing (document 01, "Columns and the listing"): a header and a line
//! for each order that is not all zeros, order 1 always.

use crate::columns::column_text;
use crate::refusals::Refusal;
use crate::rows::ORDER_COUNT;

/// The shortest buffer that holds every listing: 41 lines of 40 bytes.
pub const LISTING_ROOM: usize = 1_640;
const HEADER: &[u8] = b"  h       group    subgroup    smoothed\n";

/// The width of the order's column.
const ORDER_WIDTH: usize = 3;
/// The width of the three value columns.
const VALUE_WIDTH: usize = 12;
/// The width of a refusal's number, where it stands in place of the listing.
pub const REFUSAL_WIDTH: usize = 3;

/// The whole listing.
pub fn listing_text(
    group: &[u32; ORDER_COUNT],
    subgroup: &[u32; ORDER_COUNT],
    smoothed: &[u32; ORDER_COUNT],
) -> Vec<u8> {
    let mut text = HEADER.to_vec();
    for place in 0..ORDER_COUNT {
        let order = place + 1;
        let values = [group[place], subgroup[place], smoothed[place]];
        if order > 1 && values == [0; 3] {
            continue;
        }
        text.extend(column_text(order as i64, ORDER_WIDTH).expect("an order has two digits"));
        for value in values {
            text.extend(column_text(value.into(), VALUE_WIDTH).expect("a value has ten digits"));
        }
        text.push(b'\n');
    }
    text
}

/// Writes the listing to the buffer's first bytes and answers their count; the
/// bytes after them stay, and a refusal leaves all. Refused: 14.
pub fn fill_listing(
    group: &[u32; ORDER_COUNT],
    subgroup: &[u32; ORDER_COUNT],
    smoothed: &[u32; ORDER_COUNT],
    buffer: &mut [u8],
) -> Result<usize, Refusal> {
    if buffer.len() < LISTING_ROOM {
        return Err(Refusal::WrongBufferLength);
    }
    let text = listing_text(group, subgroup, smoothed);
    buffer[..text.len()].copy_from_slice(&text);
    Ok(text.len())
}
