//! The full turn of 2,048 steps and its reflections into the quarter wave
//! (document 01, "From samples to spectrum": "the usual reflections, index
//! modulo 2,048; cosine at m is sine at m+512").

/// Steps in a full turn, and samples in a window.
pub const TURN: usize = 2_048;
/// Steps in a quarter turn.
pub const QUARTER_TURN: usize = TURN / 4;

/// Where the sine at some index stands in the quarter wave.
#[derive(Clone, Copy, Debug, PartialEq, Eq)]
pub struct Place {
    /// Index in the quarter wave, 0..512.
    pub quarter_index: usize,
    /// Whether the sine there is the negated entry.
    pub negated: bool,
}

/// The place of sine at `index`.
pub fn sine_place(index: usize) -> Place {
    let half = TURN / 2;
    let in_half = index % half;
    Place { quarter_index: in_half.min(half - in_half), negated: index % TURN >= half }
}

/// The place of cosine at `index`.
pub fn cosine_place(index: usize) -> Place {
    sine_place(index % TURN + QUARTER_TURN)
}

#[cfg(test)]
mod tests {
    use super::*;

    #[test]
    fn reflections_agree_with_the_sine() {
        let angle = |index: usize| index as f64 * std::f64::consts::TAU / TURN as f64;
        let value = |place: Place| {
            let sine = angle(place.quarter_index).sin();
            if place.negated { -sine } else { sine }
        };
        for index in 0..3 * TURN {
            assert!((value(sine_place(index)) - angle(index).sin()).abs() < 1e-9);
            assert!((value(cosine_place(index)) - angle(index).cos()).abs() < 1e-9);
        }
    }
}
