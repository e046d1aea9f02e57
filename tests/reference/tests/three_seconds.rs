//! The latest rows of a record, its words, and the three-second value (document 02,
//! card 8): worked values by hand, what leaves as a row arrives, the zeros of a sound
//! record, the order of the refusals, and what the example of a network reader prints.

use reference::groups::Kind;
use reference::observation::{Observation, add_row, fresh_record, is_sound};
use reference::observe::observe;
use reference::random::Random;
use reference::refusals::Refusal;
use reference::rows::{LARGEST_VALUE, Row, Setup};
use reference::spectrum::WINDOW_LENGTH;
use reference::three_seconds::{three_second_of, three_second_value};
use reference::verdict::{Question, order_verdict};
use reference::words::{LATEST_PLACE, RECORD_WORDS, record_of, words_of};

const SETUP: Setup = Setup::edition_2(10);

/// The record after rows, each of one value at all orders.
fn record_after(values: &[u32]) -> Observation {
    values.iter().fold(fresh_record(SETUP).0, |record, &value| {
        let (next, refusal) = add_row(record, &Row { setup: SETUP, values: [value; 40] });
        assert_eq!(refusal, None);
        next
    })
}

/// The three-second value of such a record, which is the same at all orders.
fn value_after(values: &[u32]) -> u64 {
    let record = record_after(values);
    let of_orders: Vec<u64> =
        (1..=40).map(|order| three_second_value(&record, order).unwrap()).collect();
    assert_eq!(of_orders, [of_orders[0]; 40]);
    of_orders[0]
}

/// A record with a count of windows and one kept value, by its number of 0..600.
fn with_kept(windows: u64, number: usize, value: u32) -> Observation {
    let mut words = words_of(&Observation { windows, ..fresh_record(SETUP).0 });
    words[LATEST_PLACE + number / 2] = u64::from(value) << (32 * (number % 2));
    record_of(&words)
}

#[test]
fn equal_values_give_themselves() {
    for value in [0, 1, 2, 8_944, 65_535, 65_536, 1 << 31, u32::MAX - 1, u32::MAX] {
        assert_eq!(value_after(&[value; 15]), u64::from(value));
    }
}

#[test]
fn worked_values() {
    // 1 + 4 + .. + 225 = 1240, and 15 × 9² = 1215, 15 × 10² = 1500.
    let values: [u32; 15] = std::array::from_fn(|place| place as u32 + 1);
    assert_eq!(value_after(&values), 9);
    // 15 and zeros: 15 × 3² = 135, 15 × 4² = 240, the sum is 225, wherever it stands.
    for place in 0..15 {
        let mut values = [0; 15];
        values[place] = 15;
        assert_eq!(value_after(&values), 3);
    }
    // One 3 and six ones: the sum is 15, and one less gives 0.
    assert_eq!(value_after(&[3, 1, 1, 1, 1, 1, 1, 0, 0, 0, 0, 0, 0, 0, 0]), 1);
    assert_eq!(value_after(&[3, 1, 1, 1, 1, 1, 0, 0, 0, 0, 0, 0, 0, 0, 0]), 0);
    // A value alone counts by 1/√15: 4294967295 / 3.8729833 = 1108955787.07.
    let mut alone = [0; 15];
    alone[14] = u32::MAX;
    assert_eq!(value_after(&alone), 1_108_955_787);
    // One unit less in one of the largest values is no longer the largest.
    let mut nearly = [u32::MAX; 15];
    nearly[7] -= 1;
    assert_eq!(value_after(&nearly), LARGEST_VALUE - 1);
}

#[test]
fn value_is_the_largest_such_number() {
    let mut random = Random::new(15);
    for _ in 0..2_000 {
        let shift = random.below(32);
        let values: [u32; 15] = std::array::from_fn(|_| (random.bits() >> 32 >> shift) as u32);
        let t = u128::from(three_second_of(&values));
        // t² ≤ sum / 15 < (t+1)², told by the whole quotient.
        let quotient = values.iter().map(|&value| u128::from(value).pow(2)).sum::<u128>() / 15;
        assert!(t * t <= quotient && quotient < (t + 1) * (t + 1));
        let (least, greatest) = (values.iter().min().unwrap(), values.iter().max().unwrap());
        assert!(u128::from(*least) <= t && t <= u128::from(*greatest));
    }
}

#[test]
fn the_16th_row_pushes_out_the_first() {
    let mut values = vec![0; 16];
    values[0] = 1_000_000;
    assert!(value_after(&values[..15]) > 0);
    assert_eq!(value_after(&values), 0);
    // Each place in turn, and then again.
    for windows in 15..=60_u32 {
        let rows: Vec<u32> = (1..=windows).map(|number| number * number * 1_000).collect();
        let last: Vec<u32> = rows[rows.len() - 15..].to_vec();
        assert_eq!(value_after(&rows), value_after(&last), "{windows}");
    }
}

#[test]
fn a_refused_row_changes_nothing() {
    let before = record_after(&[1, 2, 3, 4, 5, 6, 7, 8, 9, 10, 11, 12, 13, 14, 15]);
    for (system, edition, expected) in [
        (11, 0, Refusal::UnknownSystem),
        (10, 2, Refusal::UnknownEdition),
        (12, 0, Refusal::OtherSetup),
        (10, 1, Refusal::OtherSetup),
    ] {
        let row = Row { setup: Setup { system, edition }, values: [u32::MAX; 40] };
        let (after, refusal) = add_row(before.clone(), &row);
        assert_eq!((&after, refusal), (&before, Some(expected)));
        assert_eq!(three_second_value(&after, 1), Ok(9));
    }
    // Between rows that are taken: 2..15 and 16 have the sum 1495, 15 × 9² = 1215.
    let (after, _) = add_row(before, &Row { setup: SETUP, values: [16; 40] });
    assert_eq!(three_second_value(&after, 40), Ok(9));
    assert_eq!(words_of(&after), words_of(&record_after(&(1..=16).collect::<Vec<u32>>())));
}

#[test]
fn orders_are_apart() {
    let mut record = fresh_record(SETUP).0;
    for window in 0..15 {
        let values = std::array::from_fn(|place| 1_000 * (place as u32 + 1) + window);
        record = add_row(record, &Row { setup: SETUP, values }).0;
    }
    for order in 1..=40 {
        // The mean of the squares of v..v + 14 is (v + 7)² + 56/3.
        assert_eq!(three_second_value(&record, order), Ok(1_000 * order + 7));
    }
}

#[test]
fn fewer_than_15_windows_are_refused() {
    for windows in 0..15 {
        let record = record_after(&vec![7; windows]);
        for order in [1, 2, 40] {
            assert_eq!(three_second_value(&record, order), Err(Refusal::TooFewWindows));
        }
        for order in [0, 41, u64::from(u32::MAX)] {
            assert_eq!(three_second_value(&record, order), Err(Refusal::OrderOutOfRange));
        }
    }
    let record = record_after(&[7; 15]);
    assert_eq!(
        [0, 1, 40, 41].map(|order| three_second_value(&record, order).ok()),
        [None, Some(7), Some(7), None]
    );
}

#[test]
fn unsound_comes_before_the_order_and_the_order_before_the_windows() {
    let unsound = with_kept(14, 560, 1);
    for order in [0, 1, 40, 41] {
        assert_eq!(three_second_value(&unsound, order), Err(Refusal::UnsoundRecord));
    }
    for windows in [0, 14, 15, 45_000] {
        let setup = Setup { system: 11, edition: 0 };
        let record = Observation { windows, ..fresh_record(SETUP).0 };
        let other = Observation { setup, ..record.clone() };
        for order in [0, 1, 41] {
            assert_eq!(three_second_value(&other, order), Err(Refusal::UnsoundRecord));
        }
        assert_eq!(three_second_value(&record, 41), Err(Refusal::OrderOutOfRange));
    }
    let full = Observation { windows: 45_001, ..fresh_record(SETUP).0 };
    assert_eq!(three_second_value(&full, 0), Err(Refusal::UnsoundRecord));
}

#[test]
fn a_sound_record_has_zeros_where_no_row_has_come_yet() {
    assert!(is_sound(&with_kept(3, 119, 1)));
    assert!(!is_sound(&with_kept(3, 120, 1)));
    for windows in 0..=16 {
        for number in 0..600 {
            for value in [1, u32::MAX] {
                let record = with_kept(windows, number, value);
                let sound = (number as u64) < 40 * windows;
                assert_eq!(is_sound(&record), sound, "{windows} {number}");
            }
        }
    }
    for windows in [15, 16, 29, 30, 44_999, 45_000] {
        let mut words = words_of(&Observation { windows, ..fresh_record(SETUP).0 });
        words[LATEST_PLACE..].fill(u64::MAX);
        assert!(is_sound(&record_of(&words)));
        assert_eq!(three_second_value(&record_of(&words), 40), Ok(LARGEST_VALUE));
        words[2] = 45_001;
        assert!(!is_sound(&record_of(&words)));
    }
}

#[test]
fn kept_values_before_their_row_refuse_every_call() {
    for (windows, number) in [(0, 0), (0, 599), (1, 40), (3, 120), (13, 520), (14, 560), (14, 599)]
    {
        let record = with_kept(windows, number, 1);
        let row = Row { setup: SETUP, values: [1; 40] };
        let expected = (record.clone(), Some(Refusal::UnsoundRecord));
        assert_eq!(add_row(record.clone(), &row), expected);
        let question = Question { order: 3, class_letter: b'A', scale: 1 };
        assert_eq!(order_verdict(&record, question), Err(Refusal::UnsoundRecord));
        assert_eq!(three_second_value(&record, 1), Err(Refusal::UnsoundRecord));
    }
}

#[test]
fn words_are_those_of_the_interface() {
    assert_eq!((LATEST_PLACE, RECORD_WORDS), (123, 423));
    assert_eq!(words_of(&fresh_record(Setup::edition_a1(12)).0), {
        let mut words = vec![0; 423];
        words[..2].copy_from_slice(&[12, 1]);
        words
    });
    // Windows 0..16 with the values 100 × window + order: those of window n stand from
    // number 40 × (n mod 15) on, so that windows 15 and 16 stand where 0 and 1 stood.
    let mut record = fresh_record(SETUP).0;
    for window in 0..17 {
        let values = std::array::from_fn(|place| 100 * window + place as u32 + 1);
        record = add_row(record, &Row { setup: SETUP, values }).0;
    }
    let words = words_of(&record);
    let value = |window: usize, order: usize| {
        let number = 40 * (window % 15) + order - 1;
        words[123 + number / 2] >> (32 * (number % 2)) & LARGEST_VALUE
    };
    for window in 2..17 {
        for order in 1..=40 {
            assert_eq!(value(window, order), (100 * window + order) as u64);
        }
    }
    // Word 123 has the orders 1 and 2 of window 15, the last one 39 and 40 of window 14.
    assert_eq!(words[123], 1_501 + (1_502 << 32));
    assert_eq!(words[422], 1_439 + (1_440 << 32));
    assert_eq!((words[0], words[1], words[2], words.len()), (10, 0, 17, 423));
    let first = (record.smoothed[0], record.sum[0], record.peak[0]);
    assert_eq!((words[3], words[43], words[83]), first);
}

#[test]
fn any_words_are_a_record_and_back() {
    let mut random = Random::new(8);
    for _ in 0..200 {
        let mut words: Vec<u64> = (0..423).map(|_| random.bits()).collect();
        words[2] >>= random.below(64);
        assert_eq!(words_of(&record_of(&words)), words);
    }
}

/// The current of `examples/c/three_seconds.c`: 20 windows of each of three loads, in
/// each cycle forward for two sixths, not at all for one, and backward likewise.
fn drive_current() -> Vec<i32> {
    let window = |amperes: i32| {
        (0..WINDOW_LENGTH).map(move |place| {
            let sixth = 60 * place / WINDOW_LENGTH % 6;
            1_600 * amperes * [1, 1, 0, -1, -1, 0][sixth]
        })
    };
    [2, 11, 5].into_iter().flat_map(|amperes| (0..20).flat_map(move |_| window(amperes))).collect()
}

#[test]
fn the_network_reader_prints_these_values() {
    let repository = std::path::Path::new(env!("CARGO_MANIFEST_DIR")).join("../..");
    let printed = std::fs::read_to_string(repository.join("examples/c/three_seconds.txt")).unwrap();
    let mut expected = String::from(
        "time, s  order  three-second value, units  amperes\n    \
         0.2      -                 refused 20        -\n",
    );
    let current = drive_current();
    for windows in [15, 30, 45, 60] {
        let record = observe(&current, 0, windows, SETUP, Kind::HarmonicSubgroup).unwrap();
        expected.push('\n');
        for order in (1..=13).step_by(2) {
            let value = three_second_value(&record, order).unwrap();
            let (time, amperes) = (windows as f64 / 5.0, value as f64 / (1_600.0 * 4_096.0));
            expected.push_str(&format!("{time:7.1}  {order:5}  {value:25}  {amperes:7.4}\n"));
        }
    }
    assert_eq!(printed, expected);
}
