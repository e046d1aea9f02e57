//! From samples to verdicts: the current of `examples/c/verdicts.c`, judged against class A and class B.

use kifsang::{Kind, Refusal, Verdict, CLASS_A, CLASS_B, EDITION_2};
use kifsang::{ORDER_COUNT, RECORD_WORDS, UNITS_PER_COUNT, WINDOW_LENGTH};
use std::f64::consts::TAU;

/// Cycles in a window: 50 Hz.
const SYSTEM: u32 = 10;
/// Of IEC 61000-4-7; A1 changes order 1 alone, which has no limit.
const EDITION: u32 = EDITION_2;
const WINDOWS: usize = 15;
/// Of the converter with its sensor.
const COUNTS_PER_AMPERE: u32 = 1600;
const UNITS_PER_AMPERE: u32 = COUNTS_PER_AMPERE * UNITS_PER_COUNT;

/// Windows back to back: 3 A at 50 Hz, 3.2 A at 150 Hz and 2 A at 250 Hz, peak values.
fn samples() -> Vec<i32> {
    let sample = |place: usize| {
        let angle = TAU * f64::from(SYSTEM) * place as f64 / WINDOW_LENGTH as f64;
        let amperes = 3.0 * angle.sin() + 3.2 * (3.0 * angle).sin() + 2.0 * (5.0 * angle).sin();
        (f64::from(COUNTS_PER_AMPERE) * amperes).round() as i32
    };
    (0..WINDOWS * WINDOW_LENGTH).map(sample).collect()
}

fn word(verdict: Verdict) -> &'static str {
    match verdict {
        Verdict::Within => "within",
        Verdict::Close => "close",
        Verdict::Over => "over",
    }
}

fn main() -> Result<(), Refusal> {
    let mut record = [0; RECORD_WORDS];
    kifsang::observe(
        &samples(),
        0,
        WINDOWS,
        SYSTEM,
        EDITION,
        Kind::HarmonicGroup,
        &mut record,
    )?;
    for order in 2..=ORDER_COUNT as u32 {
        let in_a = kifsang::verdict(&record, order, CLASS_A, UNITS_PER_AMPERE)?;
        let in_b = kifsang::verdict(&record, order, CLASS_B, UNITS_PER_AMPERE)?;
        println!(
            "order {order:2}: class A {}, class B {}",
            word(in_a),
            word(in_b)
        );
    }
    Ok(())
}
