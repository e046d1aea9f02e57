//! Number columns (document 01, "Columns and the listing"): right-justified,
//! one digit or more, blanks before, a minus directly before the digits, no
//! leading zero but the single 0, and no −0. The rule is the same for every
//! width; the public columns are of 8 bytes.

use crate::refusals::Refusal;

/// The width of a number column.
pub const COLUMN_WIDTH: usize = 8;

/// The number as the text of a column, if it is not wider.
pub fn column_text(number: i64, width: usize) -> Option<Vec<u8>> {
    let text = format!("{number:>width$}").into_bytes();
    (text.len() == width).then_some(text)
}

/// Whether bytes are digits of a column: one or more, and no leading zero but
/// the single 0.
fn are_digits(bytes: &[u8]) -> bool {
    let leading_zero = bytes.len() > 1 && bytes[0] == b'0';
    !bytes.is_empty() && bytes.iter().all(u8::is_ascii_digit) && !leading_zero
}

/// The number in a column of at most 18 bytes, if the text has the form.
pub fn column_number(text: &[u8]) -> Option<i64> {
    let blanks = text.iter().take_while(|&&byte| byte == b' ').count();
    let signed = &text[blanks..];
    let digits = signed.strip_prefix(b"-").unwrap_or(signed);
    let negative = digits.len() < signed.len();
    if !are_digits(digits) || (negative && digits == b"0") {
        return None;
    }
    let size = digits.iter().fold(0, |size, digit| 10 * size + i64::from(digit - b'0'));
    Some(if negative { -size } else { size })
}

/// Reads a column of 8 bytes. Refused: 13.
pub fn read_column(text: &[u8]) -> Result<i64, Refusal> {
    if text.len() != COLUMN_WIDTH {
        return Err(Refusal::NotAColumn);
    }
    column_number(text).ok_or(Refusal::NotAColumn)
}

/// Writes a column of 8 bytes; a refusal leaves the buffer as it was. Refused
/// in this order: 14, 13.
pub fn write_column(buffer: &mut [u8], number: i64) -> Result<(), Refusal> {
    if buffer.len() != COLUMN_WIDTH {
        return Err(Refusal::WrongBufferLength);
    }
    let text = column_text(number, COLUMN_WIDTH).ok_or(Refusal::NotAColumn)?;
    buffer.copy_from_slice(&text);
    Ok(())
}
