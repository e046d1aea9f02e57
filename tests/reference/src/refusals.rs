//! The refusals and their numbers (document 01, "Where each refusal is
//! checked", and the cards of document 02). The order of the checks stands in the
//! functions that make them.

/// Why a call was turned away. The discriminant is the documents' number.
#[derive(Clone, Copy, Debug, PartialEq, Eq)]
pub enum Refusal {
    /// The system is neither 10 nor 12.
    UnknownSystem = 1,
    /// Fewer than 2,048 samples from the start.
    ShortWindow = 2,
    /// A sample lies outside −131,071..131,071.
    SampleOutOfRange = 3,
    /// The buffer of lines does not hold 512, 13 for the panel's row (document 02, card
    /// 6), or reaches past line 1,023.
    WrongLineCount = 4,
    /// A line is above 2^59.
    LineTooLarge = 5,
    /// The order is outside the orders of the call.
    OrderOutOfRange = 6,
    /// The observation record is not sound.
    UnsoundRecord = 7,
    /// The row's system or its edition differs from the record's.
    OtherSetup = 8,
    /// The record holds 45,000 windows already.
    RecordFull = 9,
    /// No window has come yet.
    NoWindow = 10,
    /// K is outside 1..2^28.
    ScaleOutOfRange = 11,
    /// The group of order 1 is 0.
    NoFundamental = 12,
    /// The text or number does not fit a column.
    NotAColumn = 13,
    /// The buffer has the wrong length.
    WrongBufferLength = 14,
    /// The class letter is neither A nor B (document 02, card 1).
    UnknownClass = 15,
    /// The edition is neither 0 nor 1 (document 02, card 7).
    UnknownEdition = 19,
    /// The record holds fewer than 15 windows (document 02, card 8).
    TooFewWindows = 20,
}

impl Refusal {
    /// The documents' number of this refusal.
    pub fn number(self) -> u8 {
        self as u8
    }
}

/// The number of a result's refusal, 0 when there is none.
pub fn number_or_zero<T>(result: &Result<T, Refusal>) -> u8 {
    result.as_ref().err().map_or(0, |refusal| refusal.number())
}
