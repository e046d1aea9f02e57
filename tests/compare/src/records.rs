//! Observation records, their verdicts and three-second values, sound and not.

use crate::{numbers, setup, system_and_edition, Tally, EDITIONS};
use kifsang::{CLASS_A, CLASS_B, EDITION_2, ORDER_COUNT, RECORD_WORDS};
use reference::limits::order_limit;
use reference::observation::{add_row, fresh_record, Observation};
use reference::random::Random;
use reference::rows::{Row, Setup};
use reference::three_seconds::three_second_value;
use reference::verdict::{order_verdict, Question, Verdict};
use reference::words::words_of;

/// Both classes, and letters of none.
const CLASS_LETTERS: [u8; 5] = [CLASS_A, CLASS_B, 0, b'C', b'b'];

pub fn compare_add_row(tally: &mut Tally, record: &Observation, row: &Row) -> Observation {
    let mut core = words_of(record);
    let (system, edition) = system_and_edition(row.setup);
    let answer = kifsang::add_row(&mut core, system, edition, &row.values);
    let (next, refusal) = add_row(record.clone(), row);
    let expected = refusal.map_or(0, |refusal| u32::from(refusal.number()));
    tally.same(
        "add row",
        answer.err().map_or(0, |refusal| refusal.0),
        expected,
    );
    tally.same("the record after add row", core, words_of(&next));
    next
}

fn compare_verdict(
    tally: &mut Tally,
    record: &Observation,
    order: u32,
    class_letter: u8,
    scale: u32,
) {
    let core = kifsang::verdict(&words_of(record), order, class_letter, scale);
    let question = Question {
        order: order.into(),
        class_letter,
        scale: scale.into(),
    };
    let expected = order_verdict(record, question);
    let (number, refusal) = numbers(&core, &expected);
    let what = format!("verdict to {question:?}");
    tally.same(&what, number, refusal);
    let expected = expected.ok().map(|verdict| match verdict {
        Verdict::Within(_) => kifsang::Verdict::Within,
        Verdict::Close(_) => kifsang::Verdict::Close,
        Verdict::Over(_) => kifsang::Verdict::Over,
    });
    tally.same(&what, core.ok(), expected);
}

fn compare_verdicts(tally: &mut Tally, record: &Observation, scales: &[u32]) {
    for order in (0..=42).chain([u32::MAX]) {
        for class_letter in CLASS_LETTERS {
            for &scale in scales {
                compare_verdict(tally, record, order, class_letter, scale);
            }
        }
    }
}

/// Every order, and those beside them.
pub fn compare_three_second_values(tally: &mut Tally, record: &Observation) {
    let words = words_of(record);
    for order in (0..=42).chain([u32::MAX]) {
        let core = kifsang::three_second_value(&words, order);
        let expected = three_second_value(record, order.into());
        let (number, refusal) = numbers(&core, &expected);
        let what = format!("three-second value of order {order}");
        tally.same(&what, number, refusal);
        tally.same(&what, core.ok(), expected.ok());
    }
}

/// Every byte as the class letter, where the order, the scale or both are refused too.
fn compare_letters(tally: &mut Tally, record: &Observation) {
    for class_letter in 0..=u8::MAX {
        for (order, scale) in [(3, 1_000_000), (1, 1_000_000), (40, 0), (41, 0)] {
            compare_verdict(tally, record, order, class_letter, scale);
        }
    }
}

/// Verdicts on records with a peak some units from a value, and that or a part of it as the average.
fn compare_near(
    tally: &mut Tally,
    random: &mut Random,
    order: u32,
    scale: u32,
    value: u64,
    part: u64,
) {
    for _ in 0..20 {
        let peak = (value + random.below(40)).saturating_sub(20);
        let (mut record, _) = fresh_record(random_setup(random));
        record.windows = 1 + random.below(45_000);
        let place = order as usize - 1;
        record.sum[place] = record.windows * (peak / part) + random.below(record.windows);
        record.peak[place] = peak;
        compare_verdict(tally, &record, order, CLASS_A, scale);
        compare_verdict(tally, &record, order, CLASS_B, scale);
    }
}

/// About the limit of each order in both classes, where the average decides, and about 150 % of it with half
/// of that as the average, where the peak does.
fn compare_about_limits(tally: &mut Tally, random: &mut Random) {
    for class_letter in [CLASS_A, CLASS_B] {
        for order in 2..=ORDER_COUNT as u32 {
            let limit = order_limit(order.into(), class_letter).expect("an order with a limit");
            for scale in [1, 1000, 999_983, 1_000_000, 268_435_456] {
                let units = limit.numerator * u64::from(scale) / (limit.denominator * 1000);
                compare_near(tally, random, order, scale, units, 1);
                compare_near(tally, random, order, scale, units * 3 / 2, 2);
            }
        }
    }
}

fn random_setup(random: &mut Random) -> Setup {
    Setup::ALL[random.below(4) as usize]
}

/// The setup of a row: mostly the record's, else with another system, another edition or both, which may
/// be none.
pub fn row_setup(random: &mut Random, own: Setup) -> Setup {
    let mut setup = own;
    if random.below(8) == 0 {
        setup.system = random.below(14);
    }
    if random.below(8) == 0 {
        setup.edition = random.below(3);
    }
    setup
}

pub fn random_row(random: &mut Random, setup: Setup) -> Row {
    let bits = 1 + random.below(32);
    let mut values = [0; ORDER_COUNT];
    for value in &mut values {
        *value = random.below(1 << bits) as u32;
    }
    Row { setup, values }
}

/// A record with a random fault or none, to try soundness on; also a sound one that no rows give.
fn damaged(random: &mut Random, record: &Observation) -> Observation {
    let mut record = record.clone();
    let place = random.below(ORDER_COUNT as u64) as usize;
    match random.below(17) {
        0 => record.setup.system = random.below(14),
        1 => record.windows = 45_000,
        2 => record.windows = 45_001,
        3 => record.windows = 0,
        4 => record.smoothed[place] = 1 << 32,
        5 => record.sum[place] = record.windows * u64::from(u32::MAX) + 1,
        6 => record.peak[place] = (1 << 32) + random.below(5),
        7 => record.windows = 1 << 40,
        8 => record.setup.system = (1 << 32) + 10,
        9 => record.setup.edition = random.below(4),
        10 => record.setup.edition = u64::from(u32::MAX),
        11 => record.windows = random.below(16),
        12 => record.latest[random.below(15) as usize][place] = 1 + random.below(5) as u32,
        13 => record.setup.edition = (1 << 32) + random.below(2),
        14 => record.smoothed[place] = random.below(1 << 32),
        15 => record.sum[place] = random.below(record.windows * u64::from(u32::MAX) + 1),
        _ => record.peak[place] = random.below(1 << 32),
    }
    record
}

fn compare_fresh_record(tally: &mut Tally, setup: Setup) {
    let mut core = vec![7; RECORD_WORDS];
    let (system, edition) = system_and_edition(setup);
    let answer = kifsang::fresh_record(system, edition, &mut core);
    let (fresh, refusal) = fresh_record(setup);
    let expected = refusal.map_or(0, |refusal| u32::from(refusal.number()));
    let what = format!("fresh record of {setup:?}");
    tally.same(&what, answer.err().map_or(0, |refusal| refusal.0), expected);
    let after = if expected == 0 {
        words_of(&fresh)
    } else {
        vec![7; RECORD_WORDS]
    };
    tally.same(&what, core, after);
}

pub fn compare(tally: &mut Tally, seed: u64) {
    let mut random = Random::new(seed ^ 0x5EED);
    let scales = [0, 1, 2, 1000, 1_000_000, 268_435_456, 268_435_457, u32::MAX];
    for system in [0, 9, 10, 11, 12, 13, 100] {
        for edition in EDITIONS {
            compare_fresh_record(tally, setup(system, edition));
        }
    }
    for setup in Setup::ALL {
        for _ in 0..10 {
            let (mut record, _) = fresh_record(setup);
            compare_verdicts(tally, &record, &scales);
            for _ in 0..40 {
                let of = row_setup(&mut random, setup);
                let row = random_row(&mut random, of);
                record = compare_add_row(tally, &record, &row);
                compare_three_second_values(tally, &record);
                let wrong = damaged(&mut random, &record);
                compare_add_row(tally, &wrong, &row);
                compare_verdicts(tally, &wrong, &[1_000_000]);
                compare_three_second_values(tally, &wrong);
            }
            compare_verdicts(tally, &record, &scales);
            compare_letters(tally, &record);
        }
    }
    compare_letters(tally, &fresh_record(Setup::edition_2(10)).0);
    compare_about_limits(tally, &mut random);

    // The worked verdicts, and every order with values about its own limits.
    let setup = Setup::edition_2(10);
    let (fresh, _) = fresh_record(setup);
    for order in 2..=ORDER_COUNT {
        for scale in [1000, 999_983, 1_000_000, 268_435_456] {
            let limit = (2_300_000 / order as u64).max(200) * scale / 1_000_000;
            for _ in 0..10 {
                let mut row = Row {
                    setup,
                    values: [0; ORDER_COUNT],
                };
                let near = limit + random.below(2 * limit + 40);
                row.values[order - 1] = near.min(u64::from(u32::MAX)) as u32;
                let (record, _) = add_row(fresh.clone(), &row);
                compare_verdicts(tally, &record, &[scale as u32]);
            }
        }
    }
    for value in [
        2_299_988, 2_299_989, 2_300_012, 2_300_013, 3_449_988, 3_449_989, 3_450_012, 3_450_013,
    ] {
        let mut row = Row {
            setup,
            values: [0; ORDER_COUNT],
        };
        row.values[2] = value;
        let (record, _) = add_row(fresh.clone(), &row);
        compare_verdicts(tally, &record, &[1_000_000]);
    }

    // Rows at the edge of 45,000 windows.
    for setup in Setup::ALL {
        let (mut full, _) = fresh_record(setup);
        for windows in [44_999, 45_000] {
            full.windows = windows;
            for row in &mut full.latest {
                *row = random_row(&mut random, setup).values;
            }
            compare_three_second_values(tally, &full);
            for row_setup in Setup::ALL {
                let row = random_row(&mut random, row_setup);
                let next = compare_add_row(tally, &full, &row);
                compare_three_second_values(tally, &next);
            }
        }
    }

    // Slices that are no record and no row.
    let mut short = vec![0; RECORD_WORDS - 1];
    tally.same(
        "a short record",
        kifsang::fresh_record(10, EDITION_2, &mut short),
        Err(kifsang::Refusal(102)),
    );
    let mut whole = words_of(&fresh);
    let wrong = [0; ORDER_COUNT + 1];
    tally.same(
        "a long row",
        kifsang::add_row(&mut whole, 10, EDITION_2, &wrong),
        Err(kifsang::Refusal(102)),
    );
    tally.same(
        "a short record",
        kifsang::verdict(&short, 3, CLASS_A, 1),
        Err(kifsang::Refusal(102)),
    );
    for count in [0, 123, RECORD_WORDS - 1, RECORD_WORDS + 1] {
        for order in [0, 3] {
            tally.same(
                "a three-second value without a record",
                kifsang::three_second_value(&vec![7; count], order),
                Err(kifsang::Refusal(102)),
            );
        }
    }
    tally.same(
        "a long row",
        kifsang::distortion(&wrong),
        Err(kifsang::Refusal(102)),
    );
}
