//! What one bad sample can do (document 02, card 14): two accepted windows alike but
//! for one sample, what the card allows their groups and the smoothed values after them
//! to differ by, and windows made to come near that.

use crate::groups::{Kind, group_row};
use crate::observation::{Observation, add_row};
use crate::random::Random;
use crate::rows::{ORDER_COUNT, Setup};
use crate::signals::{Signal, noise, to_sample};
use crate::spectrum::{LARGEST_SAMPLE, WINDOW_LENGTH, lines_of};
use std::f64::consts::TAU;

/// The greatest size: from one end of the range to the other.
pub const WHOLE_RANGE: u64 = 2 * LARGEST_SAMPLE as u64;

/// "At most 10×d + 14 units", with d the size of the difference.
pub fn group_shift(size: u64) -> u64 {
    10 * size + 14
}

/// "At most (10×d + 14)/8.012, rounded up".
pub fn smoothed_shift(size: u64) -> u64 {
    (1_000 * group_shift(size)).div_ceil(8_012)
}

/// Two windows alike but for one sample.
pub struct Glitch {
    /// One of them.
    pub one: Signal,
    /// The other, with the sample in its name.
    pub other: Signal,
    /// The size of the difference.
    pub size: u64,
}

/// A window, and what it becomes with another sample at a place.
fn glitch(one: Signal, place: usize, sample: i32) -> Glitch {
    let before = one.samples[place];
    let mut samples = one.samples.clone();
    samples[place] = sample;
    let name = format!("{}, at {place} {sample} for {before}", one.name);
    Glitch { one, other: Signal { name, samples }, size: u64::from(before.abs_diff(sample)) }
}

/// The lines about an order's centre in phase, so that they all add up at a place, where
/// the sample is full scale. Each line is larger than the whole range at that place
/// makes it, so that the glitch to the other end of the range takes from it.
fn lines_in_phase(system: u64, order: u64, place: usize, peak: f64) -> Signal {
    let half = system / 2;
    let lines = order * system - half..=order * system + half;
    let count = (system + 1) as f64;
    let mut samples: Vec<i32> = (0..WINDOW_LENGTH)
        .map(|j| {
            let turns = (j as f64 - place as f64) / WINDOW_LENGTH as f64;
            let sum: f64 = lines.clone().map(|line| (TAU * line as f64 * turns).cos()).sum();
            to_sample(peak * sum / count)
        })
        .collect();
    samples[place] = LARGEST_SAMPLE;
    Signal { name: format!("lines in phase {system} {order} {peak}"), samples }
}

/// Glitches of the whole range, 262,142, each made for the harmonic group of an order.
pub fn whole_range(orders: impl Iterator<Item = u64> + Clone) -> Vec<Glitch> {
    let places = [0, 1, 511, 512, 1_024, 1_999, 2_047];
    let mut glitches = Vec::new();
    for system in [10, 12] {
        for (number, order) in orders.clone().enumerate() {
            for peak in [2_500.0, 131_071.0] {
                let place = places[number % places.len()];
                let signal = lines_in_phase(system, order, place, peak);
                glitches.push(glitch(signal, place, -LARGEST_SAMPLE));
            }
        }
    }
    glitches
}

/// Glitches of any size in signals of any kind: full scale from silence, a count or a few
/// in noise, where rounding weighs most, and the whole range in noise of full scale.
pub fn seeded(seed: u64, count: usize) -> Vec<Glitch> {
    let mut random = Random::new(seed);
    let mut glitches = Vec::new();
    for _ in 0..count {
        let place = random.below(WINDOW_LENGTH as u64) as usize;
        let silence = Signal { name: "silence".into(), samples: vec![0; WINDOW_LENGTH] };
        glitches.push(glitch(silence, place, LARGEST_SAMPLE));
        for (most, size) in [(1, 1), (4, 2), (40, 9), (131_000, 1), (131_000, 71)] {
            let signal = noise(WINDOW_LENGTH, most, random.bits());
            let sample = signal.samples[place] + 1 + random.below(size) as i32;
            glitches.push(glitch(signal, place, sample));
        }
        let mut signal = noise(WINDOW_LENGTH, LARGEST_SAMPLE, random.bits());
        signal.samples[place] = LARGEST_SAMPLE;
        glitches.push(glitch(signal, place, -LARGEST_SAMPLE));
    }
    glitches
}

/// How far a glitch moves what is reported, in units.
#[derive(Clone, Copy, Debug, Default)]
pub struct Moved {
    /// The group that moves most, of all kinds, setups and orders.
    pub group: u64,
    /// The smoothed value that moves most, after records that held at least one window.
    pub smoothed: u64,
}

fn difference(one: &[u64; ORDER_COUNT], other: &[u64; ORDER_COUNT]) -> u64 {
    one.iter().zip(other).map(|(a, b)| a.abs_diff(*b)).max().unwrap_or(0)
}

/// What it moves, with each setup's record as it is given.
pub fn moved(glitch: &Glitch, record: impl Fn(Setup) -> Observation) -> Moved {
    let lines = [&glitch.one, &glitch.other]
        .map(|signal| lines_of(&signal.samples, 0).expect("signals are in range"));
    let mut most = Moved::default();
    for kind in Kind::ALL {
        for setup in Setup::ALL {
            let rows = lines
                .each_ref()
                .map(|lines| group_row(kind, setup, lines).expect("lines are in range"));
            let values = rows.each_ref().map(|row| row.values.map(u64::from));
            most.group = most.group.max(difference(&values[0], &values[1]));
            let after = rows.map(|row| add_row(record(setup), &row).0.smoothed);
            most.smoothed = most.smoothed.max(difference(&after[0], &after[1]));
        }
    }
    most
}
