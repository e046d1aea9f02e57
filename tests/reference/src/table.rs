//! The sine table (document 01, "Table"): the 513 entries of the quarter wave
//! are each 2^30 times the exact sine, to the nearest whole number, halves up;
//! the full wave of 2,048 follows by the reflections.

use crate::largest::largest;
use crate::natural::Natural;
use crate::sine::exact_sines;
use crate::turn::{QUARTER_TURN, TURN, sine_place};
use std::sync::OnceLock;

/// The table's sine of 1.
pub const FULL_SCALE: u32 = 1 << 30;

/// 2^30 × `sine` / `denominator` to the nearest, halves up: the largest whole
/// e with e at most that quotient plus one half.
fn entry(sine: &Natural, denominator: &Natural) -> i32 {
    let two = Natural::from(2);
    let doubled_bound = &(&(sine * &two) * &Natural::from(u128::from(FULL_SCALE))) + denominator;
    let doubled_denominator = denominator * &two;
    largest(31, |e| &doubled_denominator * &Natural::from(u128::from(e)) <= doubled_bound) as i32
}

/// The quarter wave, entries 0..512, worked out once.
pub fn quarter_wave() -> &'static [i32; QUARTER_TURN + 1] {
    static WAVE: OnceLock<[i32; QUARTER_TURN + 1]> = OnceLock::new();
    WAVE.get_or_init(|| {
        let sines = exact_sines();
        std::array::from_fn(|m| entry(&sines.numerators[m], &sines.denominator))
    })
}

/// The table sine at the indexes 0..2047, worked out once.
pub fn wave() -> &'static [i32; TURN] {
    static WAVE: OnceLock<[i32; TURN]> = OnceLock::new();
    WAVE.get_or_init(|| {
        std::array::from_fn(|index| {
            let place = sine_place(index);
            let value = quarter_wave()[place.quarter_index];
            if place.negated { -value } else { value }
        })
    })
}

#[cfg(test)]
mod tests {
    use super::*;

    #[test]
    fn entries_are_near_the_floating_sine() {
        for (m, &value) in quarter_wave().iter().enumerate() {
            let angle = m as f64 * std::f64::consts::FRAC_PI_2 / QUARTER_TURN as f64;
            let distance = angle.sin() * f64::from(FULL_SCALE) - f64::from(value);
            assert!(distance.abs() <= 0.500_001, "entry {m} is {distance} away");
        }
    }

    #[test]
    fn wave_is_odd_about_the_half_turn() {
        let wave = wave();
        for index in 0..TURN {
            assert_eq!(wave[index], -wave[(index + TURN / 2) % TURN]);
            assert_eq!(wave[index], -wave[(TURN - index) % TURN]);
        }
    }
}
