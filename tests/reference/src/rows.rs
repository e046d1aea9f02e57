//! What all sections share: the orders, the systems, the editions (document 02,
//! card 7), and a row of values (document 01, "The observation record": "a row by
//! value: 40 values of 32 bits without sign, orders 1..40, with their system").

use crate::refusals::Refusal;

/// The orders are 1..40.
pub const ORDER_COUNT: usize = 40;
/// The largest value of a row.
pub const LARGEST_VALUE: u64 = u32::MAX as u64;
/// Both systems.
pub const SYSTEMS: [u64; 2] = [10, 12];
/// The number of IEC 61000-4-7 edition 2.
pub const EDITION_2: u64 = 0;
/// The number of edition 2.0 A1.
pub const EDITION_A1: u64 = 1;

/// Whether a system is 10 or 12.
pub fn is_system(system: u64) -> bool {
    SYSTEMS.contains(&system)
}

/// Whether an edition is one of the two (document 02, card 7: "the number 0 for 2
/// and 1 for A1").
pub fn is_edition(edition: u64) -> bool {
    edition == EDITION_2 || edition == EDITION_A1
}

/// Whether an order is 1..40.
pub fn is_order(order: u64) -> bool {
    (1..=ORDER_COUNT as u64).contains(&order)
}

/// What a row and a record are made under.
#[derive(Clone, Copy, Debug, PartialEq, Eq)]
pub struct Setup {
    /// The cycles in a window.
    pub system: u64,
    /// The edition whose groups are taken.
    pub edition: u64,
}

impl Setup {
    /// Both systems under both editions.
    pub const ALL: [Setup; 4] = [
        Setup::edition_2(SYSTEMS[0]),
        Setup::edition_2(SYSTEMS[1]),
        Setup::edition_a1(SYSTEMS[0]),
        Setup::edition_a1(SYSTEMS[1]),
    ];

    /// A system under edition 2.
    pub const fn edition_2(system: u64) -> Setup {
        Setup { system, edition: EDITION_2 }
    }

    /// A system under edition 2.0 A1.
    pub const fn edition_a1(system: u64) -> Setup {
        Setup { system, edition: EDITION_A1 }
    }

    /// Refused in this order: 1, 19 (document 02, card 7: "tested directly after
    /// the system").
    pub fn check(self) -> Result<(), Refusal> {
        if !is_system(self.system) {
            return Err(Refusal::UnknownSystem);
        }
        if !is_edition(self.edition) {
            return Err(Refusal::UnknownEdition);
        }
        Ok(())
    }
}

/// A row of group values at the orders 1..40, with what they are made under.
#[derive(Clone, Debug, PartialEq, Eq)]
pub struct Row {
    /// The system and the edition.
    pub setup: Setup,
    /// The values at the orders 1..40.
    pub values: [u32; ORDER_COUNT],
}
