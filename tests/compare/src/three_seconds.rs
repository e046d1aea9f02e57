//! Three-second values after long lists of add row calls, refused ones among them. What they must be is worked
//! afresh from the last 15 accepted rows, which are kept here as a plain list, and not from a record.

use crate::panel;
use crate::records::{compare_add_row, compare_three_second_values, random_row, row_setup};
use crate::{system_and_edition, Tally};
use kifsang::{Refusal, LATEST_PLACE, ORDER_COUNT, RECORD_WORDS, THREE_SECOND_WINDOWS};
use reference::groups::{group_row, Kind};
use reference::random::Random;
use reference::rows::{Row, Setup};
use reference::signals::appliances;
use reference::spectrum::{lines_of, WINDOW_LENGTH};
use reference::three_seconds::three_second_of;
use reference::words::record_of;

/// The three-second value of an order, or its refusal, from accepted rows alone.
fn worked_afresh(accepted: &[[u32; ORDER_COUNT]], order: u32) -> Result<u64, Refusal> {
    let Some(first) = accepted.len().checked_sub(THREE_SECOND_WINDOWS) else {
        return Err(Refusal::TOO_FEW_WINDOWS);
    };
    let place = order as usize - 1;
    Ok(three_second_of(&std::array::from_fn(|row| {
        accepted[first + row][place]
    })))
}

/// The words of the latest rows, from accepted rows alone: those of window n at place n mod 15 of the rows.
fn latest_words(accepted: &[[u32; ORDER_COUNT]]) -> Vec<u64> {
    let mut values = [0; THREE_SECOND_WINDOWS * ORDER_COUNT];
    for (window, row) in accepted.iter().enumerate() {
        let place = window % THREE_SECOND_WINDOWS * ORDER_COUNT;
        values[place..place + ORDER_COUNT].copy_from_slice(row);
    }
    let word = |pair: &[u32]| u64::from(pair[0]) + (u64::from(pair[1]) << 32);
    values.chunks(2).map(word).collect()
}

/// A list of calls on one record of the core, and the rows that were accepted.
struct List {
    setup: Setup,
    record: Vec<u64>,
    accepted: Vec<[u32; ORDER_COUNT]>,
}

impl List {
    fn begin(tally: &mut Tally, setup: Setup) -> List {
        let mut record = vec![7; RECORD_WORDS];
        let (system, edition) = system_and_edition(setup);
        let answer = kifsang::fresh_record(system, edition, &mut record);
        tally.same("fresh record", answer, Ok(()));
        let list = List {
            setup,
            record,
            accepted: Vec::new(),
        };
        list.compare(tally);
        list
    }

    /// Adds a row, which is accepted just if its setup is the record's, and compares all that follows from the
    /// accepted rows.
    fn add(&mut self, tally: &mut Tally, row: &Row) {
        let before = self.record.clone();
        let (system, edition) = system_and_edition(row.setup);
        let answer = kifsang::add_row(&mut self.record, system, edition, &row.values);
        tally.same("a row is accepted", answer.is_ok(), row.setup == self.setup);
        if answer.is_ok() {
            self.accepted.push(row.values);
        } else {
            tally.same("the record after a refused row", &self.record, &before);
        }
        self.compare(tally);
    }

    fn compare(&self, tally: &mut Tally) {
        let windows = self.accepted.len();
        for order in 1..=ORDER_COUNT as u32 {
            let what = format!("three-second value of order {order} after {windows} windows");
            let core = kifsang::three_second_value(&self.record, order);
            tally.same(&what, core, worked_afresh(&self.accepted, order));
        }
        for order in [0, ORDER_COUNT as u32 + 1] {
            let core = kifsang::three_second_value(&self.record, order);
            tally.same("an order of none", core, Err(Refusal::ORDER_OUT_OF_RANGE));
        }
        let latest = &self.record[LATEST_PLACE..];
        tally.same("the latest rows", latest, &latest_words(&self.accepted)[..]);
    }
}

/// Rows at random, a fifth or so of them of another setup.
fn compare_random_lists(tally: &mut Tally, random: &mut Random) {
    for setup in Setup::ALL {
        for _ in 0..3 {
            let mut list = List::begin(tally, setup);
            for _ in 0..160 {
                let of = row_setup(random, setup);
                list.add(tally, &random_row(random, of));
            }
            tally.same("rows were accepted", list.accepted.len() > 100, true);
            tally.same("rows were refused", list.accepted.len() < 160, true);
        }
    }
}

/// Rows that grow, fall, and are all at their largest, with a refused row of other values before each.
fn compare_plain_lists(tally: &mut Tally) {
    let setup = Setup::edition_a1(12);
    let plain: [fn(u32) -> u32; 4] = [
        |window| 1_000_000 * window,
        |window| u32::MAX - 20_000_000 * window,
        |window| if window < 40 { u32::MAX } else { 0 },
        |window| if window % 15 == 0 { 15 } else { 0 },
    ];
    for value in plain {
        let mut list = List::begin(tally, setup);
        for window in 0..100 {
            let refused = Row {
                setup: Setup::edition_2(12),
                values: [!value(window); ORDER_COUNT],
            };
            list.add(tally, &refused);
            list.add(
                tally,
                &Row {
                    setup,
                    values: [value(window); ORDER_COUNT],
                },
            );
        }
    }
}

/// Rows from samples, an appliance in each window; the panel's rows of these windows.
fn compare_sampled_list(tally: &mut Tally, random: &mut Random) {
    let setup = Setup::edition_2(10);
    let mut list = List::begin(tally, setup);
    let sources = appliances(WINDOW_LENGTH, setup.system, random.bits());
    for signal in &sources {
        panel::compare_window(tally, &signal.name, &signal.samples, 0);
    }
    for signal in sources.iter().cycle().take(40) {
        let lines = lines_of(&signal.samples, 0).expect("samples in range");
        let row = group_row(Kind::HarmonicGroup, setup, &lines).expect("lines in range");
        list.add(tally, &row);
    }
}

/// Records with one kept value, by its number, at each count of windows about the turns: sound where its row has
/// come, and else refused by every call.
fn compare_kept_values(tally: &mut Tally, random: &mut Random) {
    for windows in (0..=16).chain([29, 30, 31, 44_999, 45_000]) {
        let row = windows as usize % THREE_SECOND_WINDOWS * ORDER_COUNT;
        let last = THREE_SECOND_WINDOWS * ORDER_COUNT - 1;
        for number in [
            0,
            row.saturating_sub(1),
            row,
            row + 1,
            row + ORDER_COUNT - 1,
            last,
        ] {
            let setup = Setup::ALL[random.below(4) as usize];
            let mut words = vec![0; RECORD_WORDS];
            (words[0], words[1], words[2]) = (setup.system, setup.edition, windows);
            words[LATEST_PLACE + number / 2] = (1 + random.below(9)) << (32 * (number % 2));
            let record = record_of(&words);
            compare_three_second_values(tally, &record);
            compare_add_row(tally, &record, &random_row(random, setup));
            let verdict = kifsang::verdict(&words, 3, kifsang::CLASS_A, 1_000_000);
            let sound = (number as u64) < windows * ORDER_COUNT as u64;
            let refusal = verdict.err();
            tally.same(
                "a verdict",
                refusal == Some(Refusal::UNSOUND_RECORD),
                !sound,
            );
        }
    }
}

pub fn compare(tally: &mut Tally, seed: u64) {
    let mut random = Random::new(seed ^ 0x3EC0);
    compare_random_lists(tally, &mut random);
    compare_plain_lists(tally);
    compare_sampled_list(tally, &mut random);
    compare_kept_values(tally, &mut random);
}
