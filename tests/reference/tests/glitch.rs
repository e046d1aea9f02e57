//! What one bad sample can do (document 02, card 14), tried on windows that are made to
//! come near what is allowed.

use reference::glitch::{
    Glitch, WHOLE_RANGE, group_shift, moved, seeded, smoothed_shift, whole_range,
};
use reference::groups::{Kind, group_row, group_value};
use reference::observation::{Observation, add_row, fresh_record, is_sound, smoothed_value};
use reference::random::Random;
use reference::rows::{LARGEST_VALUE, ORDER_COUNT, Row, Setup};
use reference::signals::pulse;
use reference::spectrum::{LARGEST_SAMPLE, WINDOW_LENGTH, lines_of};

/// The harmonic group of order 1 at 12 cycles.
fn group_of(samples: &[i32]) -> u64 {
    let lines = lines_of(samples, 0).unwrap();
    group_value(Kind::HarmonicGroup, Setup::edition_2(12), 1, &lines).unwrap()
}

/// A window with a sample 0 and a sample 3, the rest 0.
fn two_samples(first: i32, fourth: i32) -> Vec<i32> {
    let mut samples = pulse(WINDOW_LENGTH, 0, first).samples;
    samples[3] = fourth;
    samples
}

#[test]
fn worked_pairs() {
    let silence = two_samples(0, 0);
    assert_eq!(group_of(&silence), 0);
    assert_eq!(group_of(&two_samples(1_000, 0)), 9_797);
    assert_eq!((group_shift(1_000), smoothed_shift(1_000)), (10_014, 1_250));
    // Full scale and nothing: more than 9.797 times the size, so more than 9 times it and 14.
    let full_scale = group_of(&two_samples(LARGEST_SAMPLE, 0));
    assert_eq!(full_scale, 1_284_228);
    assert!(full_scale > 9 * LARGEST_SAMPLE as u64 + 14);
    // The whole range.
    let ends = [LARGEST_SAMPLE, -LARGEST_SAMPLE];
    let groups = ends.map(|end| group_of(&two_samples(end, LARGEST_SAMPLE)));
    assert_eq!(groups, [2_564_212, 147_604]);
    assert!(groups[0] - groups[1] > 9 * WHOLE_RANGE + 14);
    assert_eq!((group_shift(WHOLE_RANGE), smoothed_shift(WHOLE_RANGE)), (2_621_434, 327_189));
}

/// A number with a comma before each three digits.
fn with_commas(number: u64) -> String {
    if number < 1_000 {
        return number.to_string();
    }
    format!("{},{:03}", with_commas(number / 1_000), number % 1_000)
}

/// So many units in milliamperes, at 4,000 counts per ampere: three digits, rounded up as
/// a bound is.
fn in_milliamperes(units: u64) -> String {
    let exact = 1_000.0 * units as f64 / (4_096.0 * 4_000.0);
    let places = (2.0 - exact.log10().floor()).max(0.0);
    let scale = 10.0_f64.powf(places);
    let (rounded, places) = ((exact * scale).ceil() / scale, places as usize);
    format!("{rounded:.places$} mA")
}

/// A text's words, without the marks of a comment's lines.
fn words_of(text: &str) -> String {
    let lines = text.lines().map(|line| line.trim_start().trim_start_matches(['*', '/']));
    lines.flat_map(str::split_whitespace).collect::<Vec<_>>().join(" ")
}

/// What the header, the README and the wrappers say: the bounds, and the examples in
/// amperes.
#[test]
fn what_users_are_told() {
    let header = include_str!("../../../include/kifsang.h");
    let read_me = include_str!("../../../README.md");
    let wrappers = include_str!("../../../bindings/rust/src/lib.rs");
    let texts = [header, read_me, wrappers].map(|text| words_of(text).replace(" * ", " × "));
    for text in &texts {
        let bounds: Vec<&str> = text.split(" × d + ").collect();
        let pairs = bounds.windows(2);
        assert!(pairs.len() >= 2);
        let is_ten_and_14 = |pair: &[&str]| pair[0].ends_with("10") && pair[1].starts_with("14");
        assert!(pairs.into_iter().all(is_ten_and_14));
        assert!(text.contains("by at most 10 × d + 14 units"));
        assert!(text.contains("by at most (10 × d + 14) / 8.012 units, rounded up, if the record"));
    }
    let of_an_ampere = [group_shift(4_000), smoothed_shift(4_000)];
    let of_the_range = [group_shift(WHOLE_RANGE), smoothed_shift(WHOLE_RANGE)];
    let [group, smoothed] = of_an_ampere
        .map(|units| format!("at most {} units, {}", with_commas(units), in_milliamperes(units)));
    let [range_group, range_smoothed] = of_the_range.map(in_milliamperes);
    let range = format!("the whole range, {} counts or 65.5 A", with_commas(WHOLE_RANGE));
    assert_eq!(WHOLE_RANGE * 10 / 4_000, 655);
    let of_the_range = format!("by at most {range_group} and {range_smoothed}");
    for text in &texts[..2] {
        for figures in [&group, &smoothed, &range, &of_the_range] {
            assert!(text.contains(figures.as_str()), "{figures}");
        }
    }
}

#[test]
fn the_first_window_is_not_smoothed() {
    let setup = Setup::edition_2(12);
    let rows = [0, 1_000].map(|height| {
        let lines = lines_of(&two_samples(height, 0), 0).unwrap();
        group_row(Kind::HarmonicGroup, setup, &lines).unwrap()
    });
    let (fresh, _) = fresh_record(setup);
    let (silent, _) = add_row(fresh.clone(), &rows[0]);
    assert_eq!(add_row(silent, &rows[1]).0.smoothed[0], 1_223);
    let first = add_row(fresh, &rows[1]).0.smoothed[0];
    assert_eq!(first, 9_797);
    assert!(first > smoothed_shift(1_000));
}

#[test]
fn the_smoothed_bound_is_rounded_up() {
    // Values that differ by 10 × 1 + 14.
    assert_eq!(group_shift(1), 28 - 4);
    assert_eq!(smoothed_value(28, 0) - smoothed_value(4, 0), 3);
    assert_eq!(smoothed_shift(1), 3);
    assert!(1_000 * group_shift(1) / 8_012 < 3);
}

/// A sound record with a window or more, and any smoothed values.
fn record_with(setup: Setup, windows: u64, most: u64, seed: u64) -> Observation {
    let mut random = Random::new(seed);
    let (fresh, _) = fresh_record(setup);
    let (mut record, _) = add_row(fresh, &Row { setup, values: [0; ORDER_COUNT] });
    record.windows = windows;
    record.smoothed = record.smoothed.map(|_| random.below(most + 1));
    assert!(is_sound(&record));
    record
}

/// Every kind, setup and order, in records that hold little, some and as much as can be.
fn holds_of(glitch: &Glitch) {
    for (windows, most) in [(1, 0), (1, 9), (7, 3_000_000), (44_999, LARGEST_VALUE)] {
        let most = moved(glitch, |setup| record_with(setup, windows, most, windows));
        assert!(most.group <= group_shift(glitch.size), "{}: {most:?}", glitch.other.name);
        assert!(most.smoothed <= smoothed_shift(glitch.size), "{}: {most:?}", glitch.other.name);
    }
}

#[test]
fn glitches_of_the_whole_range() {
    let glitches = whole_range([1, 2, 3, 20, 39, 40].into_iter());
    assert!(glitches.iter().all(|glitch| glitch.size == WHOLE_RANGE));
    glitches.iter().for_each(holds_of);
    // The harmonic group at 12 cycles moves by the root of 96 times the size, but for the
    // rounding.
    let record = |setup| record_with(setup, 1, 0, 1);
    let greatest = glitches.iter().map(|glitch| moved(glitch, record).group).max().unwrap();
    let ratio = greatest as f64 / WHOLE_RANGE as f64;
    assert!((9.797..9.798).contains(&ratio), "{ratio}");
}

#[test]
fn glitches_of_any_size() {
    seeded(14, 6).iter().for_each(holds_of);
}
