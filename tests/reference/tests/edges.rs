//! Edges of every public function, and the order of its refusals (document 01,
//! "Where each refusal is checked", and document 02).

use reference::columns::{column_text, read_column, write_column};
use reference::distortion::distortion;
use reference::groups::{Kind, group_row, group_value};
use reference::listing::{fill_listing, listing_text};
use reference::observation::{Observation, add_row, fresh_record, is_sound, smoothed_value};
use reference::panel::{PANEL_LINES, panel_row};
use reference::random::Random;
use reference::refusals::Refusal;
use reference::rows::{LARGEST_VALUE, Row, SYSTEMS, Setup};
use reference::signals::{halfway_window, noise, plain_windows, pulse, square_wave};
use reference::spectrum::{LARGEST_LINE, LINE_COUNT, WINDOW_LENGTH, lines_of, spectrum};
use reference::table::wave;
use reference::verdict::{Question, Verdict, order_verdict};

#[test]
fn window_may_end_exactly_at_the_end() {
    let window = noise(WINDOW_LENGTH, 131_071, 5).samples;
    let alone = lines_of(&window, 0);
    for (before, after) in [(0, 0), (3, 0), (0, 9), (2_500, 1), (1, 5_000)] {
        let mut recording = vec![i32::MAX; before];
        recording.extend(&window);
        recording.extend(vec![i32::MIN; after]);
        assert_eq!(lines_of(&recording, before), alone);
        let past = recording.len() - WINDOW_LENGTH + 1;
        assert_eq!(lines_of(&recording, past), Err(Refusal::ShortWindow));
    }
}

#[test]
fn start_may_lie_far_past_the_end() {
    let recording = [0; WINDOW_LENGTH];
    for start in [
        1,
        WINDOW_LENGTH,
        WINDOW_LENGTH + 1,
        usize::MAX - WINDOW_LENGTH,
        usize::MAX - 1,
        usize::MAX,
    ] {
        assert_eq!(lines_of(&recording, start), Err(Refusal::ShortWindow));
    }
    assert_eq!(lines_of(&[], 0), Err(Refusal::ShortWindow));
}

#[test]
fn spectrum_refuses_in_order_and_leaves_the_buffer() {
    let mut bad = vec![0; WINDOW_LENGTH];
    bad[2_047] = -131_072;
    for (start, line_count, expected) in [
        (1, LINE_COUNT - 1, Refusal::ShortWindow),
        (0, LINE_COUNT - 1, Refusal::WrongLineCount),
        (0, LINE_COUNT + 1, Refusal::WrongLineCount),
        (0, LINE_COUNT, Refusal::SampleOutOfRange),
    ] {
        let mut lines = vec![7; line_count];
        assert_eq!(spectrum(&bad, start, &mut lines), Err(expected));
        assert_eq!(lines, vec![7; line_count]);
    }
}

#[test]
fn samples_at_both_ends_of_the_range_are_taken() {
    for (sample, taken) in [(131_071, true), (131_072, false), (-131_071, true), (-131_072, false)]
    {
        for place in [0, 1_000, 2_047] {
            let mut window = [0; WINDOW_LENGTH];
            window[place] = sample;
            assert_eq!(lines_of(&window, 0).is_ok(), taken, "{sample} at {place}");
            for setup in Setup::ALL {
                let (_, refusal) = panel_row(&window, 0, setup, &mut [7; PANEL_LINES]);
                let expected = (!taken).then_some(Refusal::SampleOutOfRange);
                assert_eq!(refusal, expected, "{sample} at {place} on the panel");
            }
        }
    }
}

#[test]
fn line_sums_are_rounded_before_they_are_squared() {
    // For 1 at sample 1, A and B are twice the cosine and sine at the line.
    let lines = lines_of(&pulse(WINDOW_LENGTH, 1, 1).samples, 0).unwrap();
    let rounded = |value: f64| (value + 0.5).floor();
    for (k, &line) in lines.iter().enumerate() {
        let angle = std::f64::consts::TAU * k as f64 / WINDOW_LENGTH as f64;
        let expected = rounded(2.0 * angle.cos()).powi(2) + rounded(2.0 * angle.sin()).powi(2);
        assert_eq!(line as f64, expected, "line {k}");
    }
}

/// The sums of line 128 with cosine and with sine.
fn sums_of_line_128(window: &[i32]) -> [i64; 2] {
    let wave = wave();
    [512, 0].map(|shift| {
        let entry = |j: usize| i64::from(wave[(128 * j + shift) % 2_048]);
        window.iter().enumerate().map(|(j, &sample)| i64::from(sample) * entry(j)).sum()
    })
}

#[test]
fn halves_of_a_line_sum_go_up_on_both_sides_of_zero() {
    for of_sine in [false, true] {
        for sign in [1, -1] {
            let window = halfway_window(sign, of_sine).samples;
            let sums = sums_of_line_128(&window);
            let halved = sums[usize::from(of_sine)];
            assert_eq!(halved.rem_euclid(1 << 29), 1 << 28);
            assert_eq!(halved.signum(), i64::from(sign));
            // Adding one half to the quotient makes it whole, and then it stays.
            let up = (halved + (1 << 28)) / (1 << 29);
            let other = (sums[usize::from(!of_sine)] as f64 / f64::from(1 << 29) + 0.5).floor();
            let line = up.pow(2) as u64 + other.powi(2) as u64;
            assert_eq!(lines_of(&window, 0).unwrap()[128], line);
        }
    }
}

#[test]
fn no_line_of_a_window_is_above_the_greatest() {
    for signal in plain_windows() {
        let lines = lines_of(&signal.samples, 0).unwrap();
        assert!(lines.iter().all(|&line| line <= LARGEST_LINE), "{}", signal.name);
    }
    let lines = lines_of(&square_wave(WINDOW_LENGTH, 0.0).samples, 0).unwrap();
    assert_eq!(lines[0], (2 * 2_048 * 131_071_u64).pow(2));
}

#[test]
fn group_value_refuses_in_order() {
    let good = vec![4; LINE_COUNT];
    let mut above = good.clone();
    above[511] = LARGEST_LINE + 1;
    let long = vec![u64::MAX; LINE_COUNT + 1];
    for kind in Kind::ALL {
        for (system, edition, order, lines, expected) in [
            (11, 2, 0, &long, Refusal::UnknownSystem),
            (11, 2, 1, &good, Refusal::UnknownSystem),
            (0, 0, 1, &good, Refusal::UnknownSystem),
            (10, 2, 0, &long, Refusal::UnknownEdition),
            (12, 2, 41, &good, Refusal::UnknownEdition),
            (12, u64::MAX, 1, &good, Refusal::UnknownEdition),
            (10, 0, 0, &long, Refusal::OrderOutOfRange),
            (12, 1, 41, &above, Refusal::OrderOutOfRange),
            (12, 0, u64::MAX, &good, Refusal::OrderOutOfRange),
            (10, 1, 1, &long, Refusal::WrongLineCount),
            (12, 0, 40, &above, Refusal::LineTooLarge),
            (12, 1, 1, &above, Refusal::LineTooLarge),
        ] {
            let setup = Setup { system, edition };
            assert_eq!(group_value(kind, setup, order, lines), Err(expected));
        }
    }
}

#[test]
fn every_line_of_the_buffer_is_checked() {
    for setup in Setup::ALL {
        for place in 0..LINE_COUNT {
            let mut lines = [0; LINE_COUNT];
            lines[place] = LARGEST_LINE;
            assert!(group_value(Kind::HarmonicGroup, setup, 1, &lines).is_ok());
            lines[place] = LARGEST_LINE + 1;
            let result = group_value(Kind::HarmonicGroup, setup, 1, &lines);
            assert_eq!(result, Err(Refusal::LineTooLarge));
        }
    }
}

#[test]
fn greatest_lines_give_values_of_32_bits() {
    let lines = [LARGEST_LINE; LINE_COUNT];
    for setup in Setup::ALL {
        for kind in Kind::ALL {
            let values = group_row(kind, setup, &lines).unwrap().values;
            for order in [1, 40] {
                let wide = group_value(kind, setup, order, &lines).unwrap();
                assert_eq!(u64::from(values[order as usize - 1]), wide);
            }
        }
    }
    // 24 × 2^59 is the greatest sum; its root is 3719550786. The component's is 2^30.
    let group = |setup, order| group_value(Kind::HarmonicGroup, setup, order, &lines);
    assert_eq!(group(Setup::edition_2(12), 1), Ok(3_719_550_786));
    assert_eq!(group(Setup::edition_a1(12), 2), Ok(3_719_550_786));
    assert_eq!(group(Setup::edition_a1(12), 1), Ok(1 << 30));
}

#[test]
fn distortion_is_the_largest_such_number() {
    let mut random = Random::new(11);
    let mut rows = vec![[1; 40], [u32::MAX; 40]];
    for _ in 0..200 {
        let shift = random.below(32);
        rows.push(std::array::from_fn(|_| (random.bits() >> 32 >> shift) as u32 | 1));
    }
    let mut tallest = [u32::MAX; 40];
    tallest[0] = 1;
    rows.push(tallest);
    for row in rows {
        let t = u128::from(distortion(&row).unwrap());
        let square = |value: u32| u128::from(value).pow(2);
        let bound = 1_000_000 * row[1..].iter().map(|&value| square(value)).sum::<u128>();
        // t² × R1² ≤ bound < (t+1)² × R1², told by the whole quotient.
        let quotient = bound / square(row[0]);
        assert!(t * t <= quotient && quotient < (t + 1) * (t + 1));
    }
    let mut no_fundamental = [9; 40];
    no_fundamental[0] = 0;
    assert_eq!(distortion(&no_fundamental), Err(Refusal::NoFundamental));
    let mut alone = [0; 40];
    alone[0] = 9;
    assert_eq!(distortion(&alone), Ok(0));
}

fn row(setup: Setup, value: u32) -> Row {
    Row { setup, values: [value; 40] }
}

/// A sound record of so many windows, all at the greatest value.
fn full_record(windows: u64) -> Observation {
    let (fresh, _) = fresh_record(Setup::edition_2(10));
    let full = [LARGEST_VALUE; 40];
    Observation { windows, smoothed: full, sum: [windows * LARGEST_VALUE; 40], peak: full, ..fresh }
}

#[test]
fn fresh_record_holds_zeros() {
    for setup in Setup::ALL {
        let (record, refusal) = fresh_record(setup);
        assert_eq!((record.setup, record.windows, refusal), (setup, 0, None));
        assert_eq!([record.smoothed, record.sum, record.peak], [[0; 40]; 3]);
        assert_eq!(record.latest, [[0; 40]; 15]);
    }
}

#[test]
fn refused_fresh_record_is_of_system_10_and_edition_2() {
    let refused = |system, edition| fresh_record(Setup { system, edition });
    let fresh = fresh_record(Setup { system: 10, edition: 0 }).0;
    for system in [0, 11, 13, u64::MAX] {
        for edition in [0, 1, 2, u64::MAX] {
            let expected = (fresh.clone(), Some(Refusal::UnknownSystem));
            assert_eq!(refused(system, edition), expected);
        }
    }
    for system in SYSTEMS {
        for edition in [2, 10, u64::from(u32::MAX), 1 << 32, u64::MAX] {
            let expected = (fresh.clone(), Some(Refusal::UnknownEdition));
            assert_eq!(refused(system, edition), expected);
        }
    }
}

#[test]
fn soundness_has_each_of_its_parts() {
    assert!(is_sound(&full_record(1)));
    assert!(is_sound(&full_record(45_000)));
    assert!(!is_sound(&full_record(45_001)));
    for setup in Setup::ALL {
        assert!(is_sound(&Observation { setup, ..full_record(1) }));
        let system = setup.system + 1;
        assert!(!is_sound(&Observation { setup: Setup { system, ..setup }, ..full_record(1) }));
        for edition in [2, u64::from(u32::MAX), 1 << 32, (1 << 32) + 1, u64::MAX] {
            let setup = Setup { edition, ..setup };
            assert!(!is_sound(&Observation { setup, ..full_record(1) }));
            assert!(!is_sound(&Observation { setup, ..fresh_record(Setup::edition_2(10)).0 }));
        }
    }
    // Sound, though no rows give them: nothing but smoothed values, sums or peaks.
    let zeros = [0; 40];
    assert!(is_sound(&Observation { sum: zeros, peak: zeros, ..full_record(1) }));
    assert!(is_sound(&Observation { smoothed: zeros, peak: zeros, ..full_record(1) }));
    assert!(is_sound(&Observation { smoothed: zeros, sum: zeros, ..full_record(1) }));
    let edits: [fn(&mut Observation); 3] = [
        |record| record.sum[7] += 1,
        |record| record.peak[7] += 1,
        |record| record.smoothed[7] += 1,
    ];
    for edit in edits {
        for mut record in [full_record(3), fresh_record(Setup::edition_a1(12)).0] {
            assert!(is_sound(&record));
            edit(&mut record);
            assert!(!is_sound(&record));
        }
    }
}

#[test]
fn add_row_refuses_in_order_and_leaves_the_record() {
    // The edition of the record, and the other; 2 is none.
    for (own, other) in [(0, 1), (1, 0)] {
        let of = |record: Observation| Observation {
            setup: Setup { system: 10, edition: own },
            ..record
        };
        let unsound = of(full_record(45_001));
        let full = of(full_record(45_000));
        for (record, system, edition, expected) in [
            (&unsound, 11, 2, Refusal::UnsoundRecord),
            (&unsound, 11, own, Refusal::UnsoundRecord),
            (&unsound, 10, own, Refusal::UnsoundRecord),
            (&full, 11, 2, Refusal::UnknownSystem),
            (&full, 11, own, Refusal::UnknownSystem),
            (&full, 12, 2, Refusal::UnknownEdition),
            (&full, 10, 2, Refusal::UnknownEdition),
            (&full, 12, own, Refusal::OtherSetup),
            (&full, 10, other, Refusal::OtherSetup),
            (&full, 12, other, Refusal::OtherSetup),
            (&full, 10, own, Refusal::RecordFull),
        ] {
            let (after, refusal) = add_row(record.clone(), &row(Setup { system, edition }, 1));
            assert_eq!((&after, refusal), (record, Some(expected)));
        }
        let last = row(Setup { system: 10, edition: own }, u32::MAX);
        let (after, refusal) = add_row(of(full_record(44_999)), &last);
        let mut latest = full.latest;
        latest[14] = last.values;
        assert_eq!((after, refusal), (Observation { latest, ..full }, None));
    }
}

#[test]
fn row_of_the_other_edition_is_refused_though_its_values_are_alike() {
    // The components of a window do not depend on the edition.
    let lines = lines_of(&pulse(WINDOW_LENGTH, 0, 1_000).samples, 0).unwrap();
    for record_setup in Setup::ALL {
        for row_setup in Setup::ALL {
            let row = group_row(Kind::Component, row_setup, &lines).unwrap();
            let (_, refusal) = add_row(fresh_record(record_setup).0, &row);
            let expected = (record_setup != row_setup).then_some(Refusal::OtherSetup);
            assert_eq!(refusal, expected, "{row_setup:?} into {record_setup:?}");
        }
    }
}

#[test]
fn sums_and_peaks_are_of_smoothed_values() {
    for setup in Setup::ALL {
        let (mut record, _) = fresh_record(setup);
        for value in [8_944, 0, 8_944] {
            record = add_row(record, &row(setup, value)).0;
        }
        let last = smoothed_value(8_944, 7_828);
        assert_eq!((record.setup, record.windows), (setup, 3));
        assert_eq!(record.smoothed, [last; 40]);
        assert_eq!(record.sum, [8_944 + 7_828 + last; 40]);
        assert_eq!(record.peak, [8_944; 40]);
    }
}

#[test]
fn smoothing_rounds_to_the_nearest() {
    // 1000, 7012 and 8012 are multiples of 4 and half of 8012 is not, so that an
    // exact half never comes; 4004 and 4008 are the rests beside it.
    let quotient_and_rest = |new: u64, old: u64| {
        let sum = 1_000 * new + 7_012 * old;
        (sum / 8_012, sum % 8_012)
    };
    let mut rests_beside_the_half = 0;
    for (new, old) in (0..2_003).flat_map(|new| (0..8).map(move |old| (new, old))) {
        let (quotient, rest) = quotient_and_rest(new, old);
        assert_ne!(rest, 4_006);
        assert_eq!(smoothed_value(new, old), quotient + u64::from(rest > 4_006));
        rests_beside_the_half += u32::from(rest == 4_004 || rest == 4_008);
    }
    assert_eq!(rests_beside_the_half, 16);
    assert_eq!(smoothed_value(LARGEST_VALUE, LARGEST_VALUE), LARGEST_VALUE);
}

#[test]
fn verdict_refuses_in_order() {
    let (fresh, _) = fresh_record(Setup::edition_2(10));
    let held = full_record(1);
    let of_no_edition = Observation { setup: Setup { system: 10, edition: 2 }, ..fresh.clone() };
    for (record, order, class_letter, scale, expected) in [
        (&full_record(45_001), 1, b'C', 0, Refusal::UnsoundRecord),
        (&of_no_edition, 1, b'C', 0, Refusal::UnsoundRecord),
        (&of_no_edition, 3, b'A', 1, Refusal::UnsoundRecord),
        (&fresh, 1, b'C', 0, Refusal::NoWindow),
        (&fresh, 3, b'A', 1, Refusal::NoWindow),
        (&fresh, 3, b'C', 1, Refusal::NoWindow),
        (&held, 1, b'C', 0, Refusal::OrderOutOfRange),
        (&held, 0, b'A', 1, Refusal::OrderOutOfRange),
        (&held, 41, b'A', 0, Refusal::OrderOutOfRange),
        (&held, 41, b'C', 1, Refusal::OrderOutOfRange),
        (&held, 2, b'C', 0, Refusal::UnknownClass),
        (&held, 2, b'C', 1, Refusal::UnknownClass),
        (&held, 40, b'@', 268_435_457, Refusal::UnknownClass),
        (&held, 40, b'@', 268_435_456, Refusal::UnknownClass),
        (&held, 2, b'A', 0, Refusal::ScaleOutOfRange),
        (&held, 40, b'B', 268_435_457, Refusal::ScaleOutOfRange),
    ] {
        assert_eq!(order_verdict(record, Question { order, class_letter, scale }), Err(expected));
    }
    for class_letter in [b'A', b'B'] {
        for (order, scale) in [(2, 1), (40, 268_435_456)] {
            let verdict = order_verdict(&held, Question { order, class_letter, scale });
            assert_eq!(verdict, Ok(Verdict::Over(order)));
        }
    }
}

#[test]
fn only_two_letters_are_taken() {
    let held = full_record(1);
    for class_letter in 0..=u8::MAX {
        let taken = class_letter == 65 || class_letter == 66;
        let expected = if taken { Ok(Verdict::Over(3)) } else { Err(Refusal::UnknownClass) };
        let question = Question { order: 3, class_letter, scale: 1_000_000 };
        assert_eq!(order_verdict(&held, question), expected, "{class_letter}");
    }
}

/// The verdict on an order in a class, of a record with a sum and a peak there.
fn verdict_of(question: Question, windows: u64, sum: u64, peak: u64) -> Verdict {
    let (mut record, _) = fresh_record(Setup::edition_2(10));
    record.windows = windows;
    record.sum[question.order as usize - 1] = sum;
    record.peak[question.order as usize - 1] = peak;
    order_verdict(&record, question).unwrap()
}

/// The verdict on order 3 with 2,300,000 units of limit and 3,450,000 of peak.
fn verdict_on_order_3(windows: u64, sum: u64, peak: u64) -> Verdict {
    let question = Question { order: 3, class_letter: b'A', scale: 1_000_000 };
    verdict_of(question, windows, sum, peak)
}

#[test]
fn peak_is_tested_against_half_as_much_again() {
    assert_eq!(verdict_on_order_3(2, 0, 3_449_988), Verdict::Within(3));
    assert_eq!(verdict_on_order_3(2, 0, 3_449_989), Verdict::Close(3));
    assert_eq!(verdict_on_order_3(2, 0, 3_450_012), Verdict::Close(3));
    assert_eq!(verdict_on_order_3(2, 0, 3_450_013), Verdict::Over(3));
}

#[test]
fn average_is_not_divided_before_it_is_compared() {
    assert_eq!(verdict_on_order_3(2, 2 * 2_299_988, 0), Verdict::Within(3));
    assert_eq!(verdict_on_order_3(2, 2 * 2_299_988 + 1, 0), Verdict::Close(3));
    assert_eq!(verdict_on_order_3(2, 2 * 2_300_012, 0), Verdict::Close(3));
    assert_eq!(verdict_on_order_3(2, 2 * 2_300_012 + 1, 0), Verdict::Over(3));
}

#[test]
fn one_test_over_outweighs_the_other() {
    assert_eq!(verdict_on_order_3(1, 2_300_013, 0), Verdict::Over(3));
    assert_eq!(verdict_on_order_3(1, 2_300_000, 3_450_013), Verdict::Over(3));
    assert_eq!(verdict_on_order_3(1, 2_300_000, 0), Verdict::Close(3));
    assert_eq!(verdict_on_order_3(1, 0, 3_450_000), Verdict::Close(3));
}

/// Where a verdict changes: an order, a scale, a count of windows, the last sum
/// within and the last that is not over, of a record with no peak there, and the
/// same of the peak, with no sum.
type Edge = (u64, u64, u64, [u64; 2], [u64; 2]);

const CLASS_B_EDGES: [Edge; 10] = [
    // 3450 mA: 3450000 units, and 5175000 for the peak.
    (3, 1_000_000, 1, [3_449_988, 3_450_012], [5_174_988, 5_175_012]),
    // At the largest scale 926102323 and 1/5, and 1389153484 and 4/5.
    (3, 268_435_456, 1, [926_102_311, 926_102_335], [1_389_153_472, 1_389_153_496]),
    (3, 268_435_456, 5, [4_630_511_556, 4_630_511_676], [1_389_153_472, 1_389_153_496]),
    // 230 mA, where class A's limit is not whole.
    (12, 1_000_000, 1, [229_988, 230_012], [344_988, 345_012]),
    // 345/2 mA, where class A's limit is whole.
    (16, 1_000_000, 1, [172_488, 172_512], [258_738, 258_762]),
    (16, 1_000_000, 45_000, [7_761_960_000, 7_763_040_000], [258_738, 258_762]),
    // 345/4 mA: 86 and 1/4 units, and 129 and 3/8.
    (32, 1_000, 1, [74, 98], [117, 141]),
    // 3375/17 mA: 198529 and 7/17 units, and 297794 and 2/17.
    (17, 1_000_000, 17, [3_374_796, 3_375_204], [297_782, 297_806]),
    // 3375/19 mA: 177631 and 11/19 units, and 266447 and 7/19.
    (19, 1_000_000, 1, [177_619, 177_643], [266_435, 266_459]),
    (19, 1_000_000, 19, [3_374_772, 3_375_228], [266_435, 266_459]),
];

#[test]
fn class_b_has_the_band_and_both_tests() {
    for (order, scale, windows, sums, peaks) in CLASS_B_EDGES {
        let question = Question { order, class_letter: b'B', scale };
        let about = |[within, not_over]: [u64; 2]| [within, within + 1, not_over, not_over + 1];
        let expected = [Verdict::Within, Verdict::Close, Verdict::Close, Verdict::Over];
        let expected = expected.map(|verdict| verdict(order));
        let by_sum = about(sums).map(|sum| verdict_of(question, windows, sum, 0));
        assert_eq!(by_sum, expected, "{question:?}");
        let by_peak = about(peaks).map(|peak| verdict_of(question, windows, 0, peak));
        assert_eq!(by_peak, expected, "{question:?}");
    }
}

#[test]
fn nothing_is_within_where_the_margin_is_above_the_limit() {
    // With one unit in an ampere class B's 3450 mA are 3.45 units, and 5.175 for the peak.
    let question = Question { order: 3, class_letter: b'B', scale: 1 };
    let expected = [Verdict::Close(3), Verdict::Close(3), Verdict::Over(3)];
    assert_eq!([0, 309, 310].map(|sum| verdict_of(question, 20, sum, 0)), expected);
    assert_eq!([0, 17, 18].map(|peak| verdict_of(question, 20, 0, peak)), expected);
}

/// The greatest value of one window that is within, at a million units.
fn last_within(order: u64, class_letter: u8) -> u64 {
    let question = Question { order, class_letter, scale: 1_000_000 };
    let is_within = |value| verdict_of(question, 1, value, 0) == Verdict::Within(order);
    reference::largest::largest(22, is_within)
}

#[test]
fn limits_are_those_of_the_text() {
    let whole =
        [(2, 1080), (3, 2300), (4, 430), (5, 1140), (6, 300), (7, 770), (9, 400), (11, 330)];
    // Class A's limit and 150 % of it, both in units.
    let check = |order, numerator: u64, denominator: u64| {
        assert_eq!(last_within(order, b'A'), numerator / denominator - 12);
        assert_eq!(last_within(order, b'B'), 3 * numerator / (2 * denominator) - 12);
    };
    for (order, milliamperes) in whole.into_iter().chain([(13, 210)]) {
        check(order, 1_000 * milliamperes, 1);
    }
    for order in (15..=39).step_by(2) {
        check(order, 2_250_000, order);
    }
    for order in (8..=40).step_by(2) {
        check(order, 1_840_000, order);
    }
}

#[test]
fn columns_read_back_what_they_wrote() {
    let mut random = Random::new(3);
    for _ in 0..5_000 {
        let number = (random.bits() >> (38 + random.below(26))) as i64 - (1 << 20);
        let mut buffer = [0; 8];
        assert_eq!(write_column(&mut buffer, number), Ok(()));
        assert_eq!(read_column(&buffer), Ok(number));
    }
}

#[test]
fn only_the_written_form_is_read() {
    // Each text over a small alphabet is refused, or is what its number writes.
    let alphabet = b" -019";
    for code in 0..5_usize.pow(8) {
        let text: [u8; 8] =
            std::array::from_fn(|place| alphabet[code / 5_usize.pow(place as u32) % 5]);
        if let Ok(number) = read_column(&text) {
            assert_eq!(column_text(number, 8).as_deref(), Some(&text[..]));
        }
    }
}

#[test]
fn column_edges() {
    assert_eq!(read_column(b"99999999"), Ok(99_999_999));
    assert_eq!(read_column(b"-9999999"), Ok(-9_999_999));
    assert_eq!(read_column(b"       0"), Ok(0));
    let refused: [&[u8]; 12] = [
        b"",
        b"7",
        b"      7",
        b"        7",
        b"        ",
        b"       -",
        b"      +7",
        b"     - 7",
        b"      7 ",
        b"     1 2",
        b"\t      7",
        b"      7\n",
    ];
    for text in refused {
        assert_eq!(read_column(text), Err(Refusal::NotAColumn), "{text:?}");
    }
    for (number, length, expected) in [
        (99_999_999, 8, Ok(())),
        (-9_999_999, 8, Ok(())),
        (100_000_000, 8, Err(Refusal::NotAColumn)),
        (-10_000_000, 8, Err(Refusal::NotAColumn)),
        (i64::MIN, 8, Err(Refusal::NotAColumn)),
        (100_000_000, 9, Err(Refusal::WrongBufferLength)),
        (1, 7, Err(Refusal::WrongBufferLength)),
        (1, 0, Err(Refusal::WrongBufferLength)),
    ] {
        let mut buffer = vec![b'#'; length];
        assert_eq!(write_column(&mut buffer, number), expected);
        assert_eq!(expected.is_err(), buffer == vec![b'#'; length]);
    }
}

#[test]
fn listing_needs_its_whole_buffer() {
    let full = [u32::MAX; 40];
    let mut short = [b'#'; 1_639];
    assert_eq!(fill_listing(&full, &full, &full, &mut short), Err(Refusal::WrongBufferLength));
    assert_eq!(short, [b'#'; 1_639]);
    let mut buffer = [b'#'; 1_700];
    assert_eq!(fill_listing(&full, &full, &full, &mut buffer), Ok(1_640));
    assert_eq!(&buffer[1_600..1_640], b" 40  4294967295  4294967295  4294967295\n");
    assert_eq!(buffer[1_640..], [b'#'; 60]);
}

#[test]
fn orders_with_three_zeros_are_left_out() {
    let zeros = [0; 40];
    let only = |order: usize| std::array::from_fn(|place| u32::from(place + 1 == order));
    let header = "  h       group    subgroup    smoothed\n";
    let first = "  1           0           0           0\n";
    let text = |group, subgroup, smoothed| {
        String::from_utf8(listing_text(&group, &subgroup, &smoothed)).unwrap()
    };
    assert_eq!(text(zeros, zeros, zeros), format!("{header}{first}"));
    let line = " 40           0           1           0\n";
    assert_eq!(text(zeros, only(40), zeros), format!("{header}{first}{line}"));
    let line = "  2           0           0           1\n";
    assert_eq!(text(zeros, zeros, only(2)), format!("{header}{first}{line}"));
    let line = "  1           1           0           0\n";
    assert_eq!(text(only(1), zeros, zeros), format!("{header}{line}"));
}
