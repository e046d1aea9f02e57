//! Compares the proved core, through its C interface, with the second program of `tests/reference`,
//! call by call: spectra and parts of them, all kinds, orders, systems and editions, the panel's rows,
//! distortion, records, windows back to back, limits, verdicts, three-second values, columns and listings,
//! on valid and on damaged arguments. Every buffer is compared after every call, refused ones too; the
//! numbers that the wrappers' names stand for are compared with figures first. With the path of the built
//! `harmlist` as its argument it compares that program instead, byte for byte. The seed is fixed, so that a
//! run can be repeated.

mod columns;
mod examples;
mod harmlist;
mod limits;
mod names;
mod observations;
mod panel;
mod records;
mod three_seconds;
mod windows;

use reference::rows::Setup;

/// Counts comparisons and ends the program at the first that fails.
pub struct Tally {
    compared: u64,
}

impl Tally {
    pub fn same<T: PartialEq + std::fmt::Debug>(&mut self, what: &str, core: T, reference: T) {
        if core != reference {
            eprintln!("{what}: the core gives {core:?}, the second program {reference:?}");
            std::process::exit(1);
        }
        self.compared += 1;
    }
}

/// A refusal of the core and one of the second program, both as document 01's number, 0 for none.
pub fn numbers<T, U>(
    core: &Result<T, kifsang::Refusal>,
    reference: &Result<U, reference::refusals::Refusal>,
) -> (u32, u32) {
    let of_core = core.as_ref().err().map_or(0, |refusal| refusal.0);
    (
        of_core,
        u32::from(reference::refusals::number_or_zero(reference)),
    )
}

/// Both editions, and numbers of none.
pub const EDITIONS: [u32; 4] = [kifsang::EDITION_2, kifsang::EDITION_A1, 2, u32::MAX];

/// A system and an edition as the second program takes them.
pub fn setup(system: u32, edition: u32) -> Setup {
    Setup {
        system: system.into(),
        edition: edition.into(),
    }
}

/// The same as the wrappers take them.
pub fn system_and_edition(setup: Setup) -> (u32, u32) {
    (setup.system as u32, setup.edition as u32)
}

const SEED: u64 = 1;

fn main() {
    let mut tally = Tally { compared: 0 };
    match std::env::args().nth(1) {
        Some(program) => harmlist::compare(&mut tally, &program, SEED),
        None => {
            names::compare();
            windows::compare(&mut tally, SEED);
            records::compare(&mut tally, SEED);
            three_seconds::compare(&mut tally, SEED);
            limits::compare(&mut tally);
            observations::compare(&mut tally, SEED);
            columns::compare(&mut tally, SEED);
            examples::compare(&mut tally);
        }
    }
    println!(
        "{} comparisons with the second program, all alike",
        tally.compared
    );
}
