//! The two classes beside each other (document 02, card 1): class B is 150 % of
//! class A at every order, and all else of a verdict is alike.

use reference::limits::order_limit;
use reference::observation::{Observation, fresh_record};
use reference::random::Random;
use reference::rows::Setup;
use reference::verdict::{LARGEST_SCALE, Question, Verdict, order_verdict};

#[test]
fn class_b_limit_is_150_per_cent_of_class_a() {
    for order in 2..=40 {
        let [a, b] = [b'A', b'B'].map(|letter| order_limit(order, letter).unwrap());
        let sides = [100 * b.numerator * a.denominator, 150 * a.numerator * b.denominator];
        assert_eq!(sides[0], sides[1], "order {order}");
    }
}

/// Records with the average and the peak of an order within some tens of units of
/// their limits in one of the classes, each with the order and an even scale.
fn records_about_limits() -> Vec<(Observation, u64, u64)> {
    let mut random = Random::new(0xC1A55);
    let mut near = |value: u64| (value + random.below(60)).saturating_sub(30);
    let mut records = Vec::new();
    for order in 2..=40 {
        for scale in [2, 1_000, 987_654, 1_000_000, LARGEST_SCALE / 3 * 2] {
            for (windows, class_letter) in [(1, b'A'), (7, b'A'), (1, b'B'), (45_000, b'B')] {
                let limit = order_limit(order, class_letter).unwrap();
                let units = limit.numerator * scale / (1_000 * limit.denominator);
                let (mut record, _) = fresh_record(Setup::edition_2(12));
                record.windows = windows;
                record.sum[order as usize - 1] = windows * near(units);
                record.peak[order as usize - 1] = near(units * 3 / 2);
                records.push((record, order, scale));
            }
        }
    }
    records
}

fn verdict(record: &Observation, order: u64, class_letter: u8, scale: u64) -> Verdict {
    order_verdict(record, Question { order, class_letter, scale }).unwrap()
}

#[test]
fn records_about_limits_have_every_verdict() {
    let records = records_about_limits();
    for class_letter in [b'A', b'B'] {
        for expected in [Verdict::Within, Verdict::Close, Verdict::Over] {
            let is_expected = |(record, order, scale): &&(Observation, u64, u64)| {
                verdict(record, *order, class_letter, *scale) == expected(*order)
            };
            let count = records.iter().filter(is_expected).count();
            assert!(count > 20, "{count} of {:?} in {class_letter}", expected(0));
        }
    }
}

#[test]
fn class_b_is_class_a_at_150_per_cent_of_the_scale() {
    for (record, order, scale) in records_about_limits() {
        let in_class_a = verdict(&record, order, b'A', scale / 2 * 3);
        assert_eq!(verdict(&record, order, b'B', scale), in_class_a, "{order} {scale}");
    }
}

#[test]
fn class_b_is_never_stricter() {
    for (record, order, scale) in records_about_limits() {
        let [a, b] = [b'A', b'B'].map(|letter| verdict(&record, order, letter, scale));
        assert!(a != Verdict::Within(order) || b == Verdict::Within(order), "{order} {scale}");
        assert!(b != Verdict::Over(order) || a == Verdict::Over(order), "{order} {scale}");
    }
}
