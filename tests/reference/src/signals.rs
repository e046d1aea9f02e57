//! Signals to try the core on: edges of the range, single tones, noise, and
//! currents that look like those of real appliances. All samples lie in range.
//! An appliance's generator counts time in mains cycles, `system` of them to a
//! window of 2,048 samples, and takes a peak current in sample counts.

use crate::random::Random;
use crate::spectrum::{LARGEST_SAMPLE, WINDOW_LENGTH};
use crate::table::quarter_wave;
use std::f64::consts::TAU;

/// A recording with a name that says how it was made.
pub struct Signal {
    /// Generator and parameters, words parted by blanks.
    pub name: String,
    /// The samples.
    pub samples: Vec<i32>,
}

fn signal(name: String, samples: Vec<i32>) -> Signal {
    Signal { name, samples }
}

/// The nearest sample in range.
pub fn to_sample(value: f64) -> i32 {
    let greatest = f64::from(LARGEST_SAMPLE);
    value.round().clamp(-greatest, greatest) as i32
}

/// All samples alike.
pub fn constant(length: usize, value: i32) -> Signal {
    signal(format!("constant {value}"), vec![value; length])
}

/// One sample that is not 0.
pub fn pulse(length: usize, position: usize, value: i32) -> Signal {
    let mut samples = vec![0; length];
    samples[position] = value;
    signal(format!("pulse {position} {value}"), samples)
}

/// Samples that change their sign each time.
pub fn alternating(length: usize, value: i32) -> Signal {
    let samples = (0..length).map(|j| if j % 2 == 0 { value } else { -value }).collect();
    signal(format!("alternating {value}"), samples)
}

/// The angle at sample j of a tone with so many periods in a window.
fn angle(j: usize, periods: f64) -> f64 {
    TAU * periods * (j as f64) / WINDOW_LENGTH as f64
}

/// A sine with so many periods in a window, ahead by `phase` of a turn.
pub fn tone(length: usize, periods: f64, peak: f64, phase: f64) -> Signal {
    let sample = |j| to_sample(peak * (angle(j, periods) + TAU * phase).sin());
    signal(format!("tone {periods} {peak} {phase}"), (0..length).map(sample).collect())
}

/// The sign of a cosine at the range's ends: no signal has a greater line here.
pub fn square_wave(length: usize, periods: f64) -> Signal {
    let is_high = |j| angle(j, periods).cos() >= 0.0;
    let sample = |j| if is_high(j) { LARGEST_SAMPLE } else { -LARGEST_SAMPLE };
    signal(format!("square_wave {periods}"), (0..length).map(sample).collect())
}

/// Independent samples in −size..size.
pub fn noise(length: usize, size: i32, seed: u64) -> Signal {
    let mut random = Random::new(seed);
    let samples = (0..length).map(|_| random.within(size)).collect();
    signal(format!("noise {size} {seed}"), samples)
}

/// Samples at the two ends of the range, each with an even chance.
pub fn noise_of_ends(length: usize, seed: u64) -> Signal {
    let mut random = Random::new(seed);
    let ends = [LARGEST_SAMPLE, -LARGEST_SAMPLE];
    let samples = (0..length).map(|_| ends[random.below(2) as usize]).collect();
    signal(format!("noise_of_ends {seed}"), samples)
}

/// A lamp behind a rectifier and a capacitor: a short pulse of current about
/// each crest of the voltage, steeper at its front.
pub fn lamp_with_rectifier(length: usize, system: u64, peak: f64) -> Signal {
    let sample = |j| {
        let mains = angle(j, system as f64);
        let charged_until = if mains.tan() > 0.0 { 0.86 } else { 0.96 };
        let above = (mains.sin().abs() - charged_until).max(0.0) / (1.0 - charged_until);
        to_sample(peak * above * mains.sin().signum())
    };
    signal(format!("lamp_with_rectifier {system} {peak}"), (0..length).map(sample).collect())
}

/// A phase-cut dimmer on a resistive lamp: in each half cycle the current
/// begins only after the share `cut` of it.
pub fn phase_cut_dimmer(length: usize, system: u64, peak: f64, cut: f64) -> Signal {
    let sample = |j: usize| {
        let half_cycles = 2.0 * system as f64 * j as f64 / WINDOW_LENGTH as f64;
        let conducts = half_cycles.fract() >= cut;
        to_sample(if conducts { peak * angle(j, system as f64).sin() } else { 0.0 })
    };
    signal(format!("phase_cut_dimmer {system} {peak} {cut}"), (0..length).map(sample).collect())
}

/// A motor drive behind a six-pulse rectifier: two blocks of current in each
/// half cycle, rounded, and a torque that changes slowly against the mains.
pub fn motor_drive(length: usize, system: u64, peak: f64, torque_periods: f64) -> Signal {
    let sample = |j| {
        let mains = angle(j, system as f64);
        let block = |shift: f64| ((mains + shift).sin() * 6.0).tanh();
        let six_pulse = (block(TAU / 12.0) + block(-TAU / 12.0)) / 2.0;
        let ripple = 1.0 + 0.12 * (6.0 * mains).cos();
        let torque = 0.8 + 0.2 * angle(j, torque_periods).sin();
        to_sample(peak * six_pulse * ripple * torque / 1.12)
    };
    let name = format!("motor_drive {system} {peak} {torque_periods}");
    signal(name, (0..length).map(sample).collect())
}

/// A microwave oven: a current with strong odd harmonics that is on for some
/// mains cycles and off for others, switched at zero crossings.
pub fn microwave_oven(length: usize, system: u64, peak: f64, on: u64, off: u64) -> Signal {
    let sample = |j| {
        let cycle = (j as u64 * system) / WINDOW_LENGTH as u64;
        let mains = angle(j, system as f64);
        let current = mains.sin() - 0.35 * (3.0 * mains).sin()
            + 0.12 * (5.0 * mains).sin()
            + 0.1 * (2.0 * mains).sin();
        to_sample(if cycle % (on + off) < on { peak * current / 1.6 } else { 0.0 })
    };
    let name = format!("microwave_oven {system} {peak} {on} {off}");
    signal(name, (0..length).map(sample).collect())
}

/// The inverse of an odd number modulo 2^64, by Newton's steps.
fn inverse_of_odd(number: u64) -> u64 {
    (0..6).fold(number, |inverse, _| {
        inverse.wrapping_mul(2_u64.wrapping_sub(number.wrapping_mul(inverse)))
    })
}

/// Factors (a, b) such that a × the table cosine at 128 plus b × that at 256 is
/// an odd multiple of 2^28, with both sizes below 2^24. The cosine at 256 is odd.
fn halfway_factors() -> (i32, i32) {
    let cosine_at_128 = quarter_wave()[384] as u64;
    let inverse = inverse_of_odd(quarter_wave()[256] as u64);
    let modulus = 1_u64 << 29;
    let b_for =
        |a: u64| (modulus / 2).wrapping_sub(a * cosine_at_128).wrapping_mul(inverse) % modulus;
    let is_small = |&(_, b): &(u64, u64)| b < 1 << 24;
    let (a, b) = (0..1 << 24).map(|a| (a, b_for(a))).find(is_small).expect("one in 32 is small");
    (a as i32, b as i32)
}

/// A window whose line 128 has a sum that lies exactly halfway between two
/// multiples of 2^29, times `sign`: the cosine sum, or the sine sum if
/// `of_sine`. Samples 16 apart meet the same entry of the wave there.
pub fn halfway_window(sign: i32, of_sine: bool) -> Signal {
    let first_class = if of_sine { 5 } else { 1 };
    let (a, b) = halfway_factors();
    let mut samples = vec![0; WINDOW_LENGTH];
    for (class, total) in [(first_class, a), (first_class + 1, b)] {
        let places: Vec<usize> = (class..WINDOW_LENGTH).step_by(16).collect();
        let count = places.len() as i32;
        for (&place, number) in places.iter().zip(0..) {
            samples[place] = sign * (total / count + i32::from(number < total % count));
        }
    }
    signal(format!("halfway_window {sign} {of_sine}"), samples)
}

/// Two signals added, each sample kept in range.
pub fn sum(first: Signal, second: Signal) -> Signal {
    let pairs = first.samples.iter().zip(&second.samples);
    let samples = pairs.map(|(a, b)| to_sample(f64::from(a + b))).collect();
    signal(format!("{} plus {}", first.name, second.name), samples)
}

/// The appliances' currents of one system, `length` samples each.
pub fn appliances(length: usize, system: u64, seed: u64) -> Vec<Signal> {
    let mains = || tone(length, system as f64, 80_000.0, 0.0);
    vec![
        lamp_with_rectifier(length, system, 125_000.0),
        lamp_with_rectifier(length, system, 900.0),
        phase_cut_dimmer(length, system, 131_071.0, 0.25),
        phase_cut_dimmer(length, system, 60_000.0, 0.5),
        phase_cut_dimmer(length, system, 60_000.0, 0.813),
        motor_drive(length, system, 120_000.0, 1.0),
        motor_drive(length, system, 40_000.0, 0.37),
        microwave_oven(length, system, 118_000.0, system / 2, system / 2),
        microwave_oven(length, system, 70_000.0, 7, 4),
        sum(mains(), noise(length, 500, seed)),
        sum(mains(), tone(length, 57.4, 20_000.0, 0.1)),
    ]
}

/// One window each of the signals that sit at an edge or hold a single line.
pub fn plain_windows() -> Vec<Signal> {
    let mut signals = vec![
        constant(WINDOW_LENGTH, 0),
        constant(WINDOW_LENGTH, 500),
        constant(WINDOW_LENGTH, LARGEST_SAMPLE),
        constant(WINDOW_LENGTH, -LARGEST_SAMPLE),
        alternating(WINDOW_LENGTH, LARGEST_SAMPLE),
        alternating(WINDOW_LENGTH, -1),
        pulse(WINDOW_LENGTH, 0, 1_000),
        pulse(WINDOW_LENGTH, 0, -1_000),
        pulse(WINDOW_LENGTH, 1_024, 1),
        pulse(WINDOW_LENGTH, 2_047, LARGEST_SAMPLE),
        pulse(WINDOW_LENGTH, 777, -LARGEST_SAMPLE),
    ];
    for sign in [1, -1] {
        signals.push(halfway_window(sign, false));
        signals.push(halfway_window(sign, true));
    }
    for line in [1.0, 2.0, 10.0, 12.0, 30.0, 50.0, 255.0, 400.0, 480.0, 511.0] {
        signals.push(tone(WINDOW_LENGTH, line, 131_071.0, 0.0));
        signals.push(tone(WINDOW_LENGTH, line, 131_071.0, 0.25));
        signals.push(square_wave(WINDOW_LENGTH, line));
    }
    for periods in [35.6, 57.4, 104.5] {
        signals.push(tone(WINDOW_LENGTH, periods, 100_000.0, 0.125));
    }
    signals
}

/// One window each of signals that depend on the seed.
pub fn seeded_windows(seed: u64) -> Vec<Signal> {
    let mut random = Random::new(seed);
    let mut signals = Vec::new();
    for size in [1, 3, 40, 1_000, 30_000, LARGEST_SAMPLE] {
        signals.push(noise(WINDOW_LENGTH, size, random.bits()));
    }
    signals.push(noise_of_ends(WINDOW_LENGTH, random.bits()));
    for _ in 0..4 {
        let periods = random.below(511_000) as f64 / 1_000.0;
        let peak = 1.0 + random.below(131_000) as f64;
        signals.push(tone(WINDOW_LENGTH, periods, peak, random.below(1_000) as f64 / 1_000.0));
        let position = random.below(WINDOW_LENGTH as u64) as usize;
        signals.push(pulse(WINDOW_LENGTH, position, random.within(LARGEST_SAMPLE)));
    }
    signals
}
