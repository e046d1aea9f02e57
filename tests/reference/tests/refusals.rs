//! docs/REFUSALS.md against this program: the row of each call names the faults
//! for which it is refused, all of them, in the order in which they decide. What a
//! check says and what a refused call answers stands here too, beside the faults.

use reference::columns::{read_column, write_column};
use reference::distortion::distortion;
use reference::groups::{Kind, group_row, group_value};
use reference::harmlist::harmlist;
use reference::inputs::input_bytes;
use reference::limits::order_limit;
use reference::listing::fill_listing;
use reference::observation::{MOST_WINDOWS, Observation, add_row, fresh_record};
use reference::observe::observe;
use reference::panel::{PANEL_LINES, panel_row};
use reference::refusals::{Refusal, number_or_zero};
use reference::rows::{Row, Setup};
use reference::spectrum::{LARGEST_LINE, WINDOW_LENGTH, lines_from, spectrum};
use reference::three_seconds::three_second_value;
use reference::verdict::{LARGEST_SCALE, Question, order_verdict};
use std::collections::BTreeSet;
use std::path::Path;

const DOCUMENT: &str = "docs/REFUSALS.md";

/// What a row has and is not tried here: the 9 of `harmlist` needs 800 MB of
/// input, and stands in tests/harmlist.rs and tests/run. Its 10 and 2 cannot come
/// together. So its order stands in figures.
const HARMLIST_LAST: (u8, &str) = (9, "last line of window 45,001");
const HARMLIST_ORDER: [u8; 6] = [13, 1, 3, 9, 10, 2];

const MOST: usize = MOST_WINDOWS as usize;
/// The bytes of a line of `harmlist`'s input.
const LINE: usize = 9;

/// A row of the document: a call, what it answers where it is refused, and its
/// checks in order, each a number and words.
struct Listed {
    call: String,
    refused: String,
    checks: Vec<(u8, String)>,
}

impl Listed {
    /// The place of a number in the row.
    fn place(&self, number: u8) -> usize {
        let place = self.checks.iter().position(|check| check.0 == number);
        place.unwrap_or_else(|| panic!("{DOCUMENT}, {}: {number} is missing", self.call))
    }
}

/// The rows of the document's table of calls.
fn document() -> Vec<Listed> {
    let repository = Path::new(env!("CARGO_MANIFEST_DIR")).join("../..");
    let text = std::fs::read_to_string(repository.join(DOCUMENT)).expect(DOCUMENT);
    let from_head = text.lines().skip_while(|line| !line.starts_with("| Call |"));
    let rows = from_head.skip(2).take_while(|line| line.starts_with('|'));
    let parted = |check: &str| {
        let (number, words) = check.split_once(' ').expect(check);
        (number.parse().expect(check), words.to_string())
    };
    rows.map(|row| {
        let cells: Vec<&str> = row.trim_matches('|').split('|').map(str::trim).collect();
        Listed {
            call: cells[0].to_string(),
            refused: cells[2].to_string(),
            checks: cells[5].split("; ").map(parted).collect(),
        }
    })
    .collect()
}

/// All that any call is lent.
struct Arguments {
    setup: Setup,
    order: u64,
    class_letter: u8,
    scale: u64,
    recording: Vec<i32>,
    start: usize,
    windows: usize,
    first: usize,
    lines: Vec<u64>,
    panel: Vec<u64>,
    values: [u32; 40],
    record: Observation,
    text: Vec<u8>,
    number: i64,
    column: Vec<u8>,
    listing: Vec<u8>,
    input: Vec<u8>,
}

/// Arguments that no call refuses.
fn good() -> Arguments {
    Arguments {
        setup: Setup::edition_2(10),
        order: 3,
        class_letter: b'B',
        scale: 1,
        recording: vec![0; 2 * WINDOW_LENGTH],
        start: 0,
        windows: 2,
        first: 512,
        lines: vec![LARGEST_LINE; 512],
        panel: vec![u64::MAX; PANEL_LINES],
        values: [1; 40],
        record: Observation { windows: MOST_WINDOWS - 1, ..fresh_record(Setup::edition_2(10)).0 },
        text: b"      -7".to_vec(),
        number: -9_999_999,
        column: vec![0; 8],
        listing: vec![0; 1_640],
        input: input_bytes(10, &[500; WINDOW_LENGTH]),
    }
}

/// The same with as many windows as a record takes, and room for one more.
fn longest() -> Arguments {
    Arguments { recording: vec![0; (MOST + 1) * WINDOW_LENGTH], windows: MOST, ..good() }
}

/// A fault: the number and the words of its check, and what puts it into good
/// arguments.
type Fault = (u8, &'static str, fn(&mut Arguments));

/// A call, what it answers where it is refused beside the number, and faults of which none takes the place of another, so that any two
/// can come together. A call has several where the place of a fault counts too, or
/// two of its faults cannot come together.
struct Trial {
    call: &'static str,
    refused: &'static str,
    run: fn(&mut Arguments) -> u8,
    good: fn() -> Arguments,
    faults: Vec<Fault>,
}

impl Trial {
    /// The number that the call answers where some faults are put in, in turn.
    fn answer(&self, faults: &[&Fault]) -> u8 {
        let mut arguments = (self.good)();
        faults.iter().for_each(|fault| fault.2(&mut arguments));
        (self.run)(&mut arguments)
    }
}

fn refusal_number(refusal: Option<Refusal>) -> u8 {
    refusal.map_or(0, Refusal::number)
}

fn run_add_row(a: &mut Arguments) -> u8 {
    let row = Row { setup: a.setup, values: a.values };
    refusal_number(add_row(a.record.clone(), &row).1)
}

fn run_observe(a: &mut Arguments) -> u8 {
    let kind = Kind::HarmonicGroup;
    number_or_zero(&observe(&a.recording, a.start, a.windows, a.setup, kind))
}

/// The number of the line that is written in place of a listing.
fn run_harmlist(a: &mut Arguments) -> u8 {
    let output = String::from_utf8(harmlist(a.input.iter().copied())).expect("text");
    output.strip_prefix("refused").map_or(0, |number| number.trim().parse().expect("a number"))
}

fn trials() -> Vec<Trial> {
    let system = "system not 10 or 12";
    let edition = "edition not 0 or 1";
    let setups: [Fault; 4] = [
        (1, system, |a| a.setup.system = 0),
        (1, system, |a| a.setup.system = 11),
        (19, edition, |a| a.setup.edition = 2),
        (19, edition, |a| a.setup.edition = u64::from(u32::MAX)),
    ];
    let short = "fewer than 2,048 samples from start";
    let short_windows: [Fault; 2] =
        [(2, short, |a| a.start = WINDOW_LENGTH + 1), (2, short, |a| a.start = usize::MAX)];
    let sample = "a sample out of range";
    let samples: [Fault; 2] = [
        (3, sample, |a| a.recording[0] = 131_072),
        (3, sample, |a| a.recording[WINDOW_LENGTH - 2] = -131_072),
    ];
    let buffer = "buffer not 512 lines";
    let buffers: [Fault; 2] =
        [(4, buffer, |a| a.lines.truncate(511)), (4, buffer, |a| a.lines.resize(513, 0))];
    let past = "buffer reaches past line 1,023";
    let panel = "buffer not 13 lines";
    let panels: [Fault; 4] = [
        (4, panel, |a| a.panel.clear()),
        (4, panel, |a| a.panel.truncate(12)),
        (4, panel, |a| a.panel.resize(14, 0)),
        (4, panel, |a| a.panel.resize(512, 0)),
    ];
    let count = "not 512 lines";
    let large = "any of the 512 above 2^59";
    let lines: [Fault; 4] = [
        (4, count, |a| a.lines.truncate(511)),
        (4, count, |a| a.lines.resize(513, 0)),
        (5, large, |a| a.lines[0] = LARGEST_LINE + 1),
        (5, large, |a| a.lines[510] = u64::MAX),
    ];
    let order = "order outside 1..40";
    let orders: [Fault; 3] = [
        (6, order, |a| a.order = 0),
        (6, order, |a| a.order = 41),
        (6, order, |a| a.order = u64::from(u32::MAX)),
    ];
    let limited = "order outside 2..40";
    let limited_orders: [Fault; 4] = [
        (6, limited, |a| a.order = 0),
        (6, limited, |a| a.order = 1),
        (6, limited, |a| a.order = 41),
        (6, limited, |a| a.order = u64::from(u32::MAX)),
    ];
    let letter = "class letter not A or B";
    let letters: [Fault; 5] = [
        (15, letter, |a| a.class_letter = 0),
        (15, letter, |a| a.class_letter = b'@'),
        (15, letter, |a| a.class_letter = b'C'),
        (15, letter, |a| a.class_letter = b'a'),
        (15, letter, |a| a.class_letter = u8::MAX),
    ];
    let unsound = "record not sound";
    let held_edition: [Fault; 1] = [(7, unsound, |a| a.record.setup.edition = 2)];
    let records: [Fault; 3] = [
        (7, unsound, |a| a.record.smoothed[0] = 1 << 32),
        (7, unsound, |a| a.record.sum[20] = u64::MAX),
        (7, unsound, |a| a.record.peak[39] = 1 << 32),
    ];
    // A value in the row of window 15, with 14 windows.
    let kept: [Fault; 1] = [(7, unsound, |a| (a.record.windows, a.record.latest[0][39]) = (14, 1))];
    let other = "system or edition differs from the record's";
    let other_system: [Fault; 1] = [(8, other, |a| a.record.setup.system = 12)];
    let other_edition: [Fault; 1] = [(8, other, |a| a.record.setup.edition = 1)];
    let full: [Fault; 1] = [(9, "45,000 windows held", |a| a.record.windows = MOST_WINDOWS)];
    let scale = "K outside 1..2^28";
    let few = "fewer than 15 windows";
    let form = "text not 8 bytes of the form";
    let (column, wide) = ("buffer not 8 bytes", "number wider than 8");
    let short_observed = "fewer than 2,048 samples from a window's start";
    let sample_observed = "a sample of it out of range";
    let full_observed = "45,000 windows before it";
    let line = "a line not a column and a newline, or no system line";
    let (none, last_short) = ("no sample at all", "last window short");
    let trial = |call, refused, run, faults: &[&[Fault]]| Trial {
        call,
        refused,
        run,
        good,
        faults: faults.concat(),
    };
    let added = |faults: &[&[Fault]]| trial("add row", "the record unchanged", run_add_row, faults);
    let row_of_zeros = "a row of zeros, system 10, edition 0";
    let zeros = "a record of zeros, system 10, edition 0";
    let observed = |faults: &[&[Fault]]| trial("observe", zeros, run_observe, faults);
    let listed = |faults: &[Fault]| {
        trial("harmlist", "only the line `refused` with the number", run_harmlist, &[faults])
    };
    vec![
        trial(
            "spectrum",
            "nothing",
            |a| number_or_zero(&spectrum(&a.recording, a.start, &mut a.lines)),
            &[&short_windows, &buffers, &samples],
        ),
        trial(
            "lines from",
            "nothing",
            |a| number_or_zero(&lines_from(&a.recording, a.start, a.first, &mut a.lines)),
            &[
                &short_windows,
                &[(4, past, |a| a.first = 513), (4, past, |a| a.lines.resize(513, 0))],
                &samples,
            ],
        ),
        trial(
            "group value",
            "value 0",
            |a| number_or_zero(&group_value(Kind::HarmonicGroup, a.setup, a.order, &a.lines)),
            &[&setups, &orders, &lines],
        ),
        trial(
            "row",
            row_of_zeros,
            |a| number_or_zero(&group_row(Kind::HarmonicGroup, a.setup, &a.lines)),
            &[&setups, &lines],
        ),
        trial(
            "panel row",
            row_of_zeros,
            |a| refusal_number(panel_row(&a.recording, a.start, a.setup, &mut a.panel).1),
            &[&setups, &short_windows, &panels, &samples],
        ),
        trial(
            "distortion",
            "value 0",
            |a| number_or_zero(&distortion(&a.values)),
            &[&[(12, "group 1 is 0", |a| a.values[0] = 0)]],
        ),
        trial("fresh record", zeros, |a| refusal_number(fresh_record(a.setup).1), &[&setups]),
        added(&[&records, &setups, &other_system, &other_edition, &full]),
        added(&[&held_edition, &setups, &other_system, &full]),
        added(&[&kept, &setups, &other_system, &other_edition]),
        observed(&[
            &setups,
            &[
                (2, short_observed, |a| a.recording.truncate(WINDOW_LENGTH - 1)),
                (3, sample_observed, |a| a.recording[0] = 131_072),
                (3, sample_observed, |a| a.recording[WINDOW_LENGTH - 2] = -131_072),
            ],
        ]),
        observed(&[
            &setups,
            &[
                (2, short_observed, |a| a.recording.truncate(2 * WINDOW_LENGTH - 1)),
                (3, sample_observed, |a| a.recording[WINDOW_LENGTH] = i32::MIN),
            ],
        ]),
        // Window 45,001. The others are alike, so that they take little time.
        Trial {
            good: longest,
            ..observed(&[&[
                (2, short_observed, |a| (a.windows, a.start) = (MOST + 1, 1)),
                (3, sample_observed, |a| {
                    a.windows = MOST + 1;
                    a.recording[MOST * WINDOW_LENGTH + 1] = 131_072;
                }),
                (9, full_observed, |a| a.windows = MOST + 1),
            ]])
        },
        trial(
            "limit",
            "the limit 0/1",
            |a| number_or_zero(&order_limit(a.order, a.class_letter)),
            &[&limited_orders, &letters],
        ),
        trial(
            "verdict",
            "nothing",
            |a| {
                let (order, class_letter, scale) = (a.order, a.class_letter, a.scale);
                let question = Question { order, class_letter, scale };
                number_or_zero(&order_verdict(&a.record, question))
            },
            &[
                &records,
                &held_edition,
                &kept,
                &[(10, "no window yet", |a| a.record.windows = 0)],
                &limited_orders,
                &letters,
                &[(11, scale, |a| a.scale = 0), (11, scale, |a| a.scale = LARGEST_SCALE + 1)],
            ],
        ),
        trial(
            "three-second value",
            "value 0",
            |a| number_or_zero(&three_second_value(&a.record, a.order)),
            &[
                &records,
                &held_edition,
                &kept,
                &orders,
                &[(20, few, |a| a.record.windows = 14), (20, few, |a| a.record.windows = 0)],
            ],
        ),
        trial(
            "column read",
            "value 0",
            |a| number_or_zero(&read_column(&a.text)),
            &[&[(13, form, |a| a.text.truncate(7)), (13, form, |a| a.text[7] = b'0')]],
        ),
        trial(
            "column write",
            "nothing",
            |a| number_or_zero(&write_column(&mut a.column, a.number)),
            &[&[
                (14, column, |a| a.column.truncate(7)),
                (14, column, |a| a.column.resize(9, 0)),
                (13, wide, |a| a.number = 100_000_000),
                (13, wide, |a| a.number = -10_000_000),
            ]],
        ),
        trial(
            "listing",
            "value 0",
            |a| number_or_zero(&fill_listing(&a.values, &a.values, &a.values, &mut a.listing)),
            &[&[(14, "buffer shorter than 1,640 bytes", |a| a.listing.truncate(1_639))]],
        ),
        listed(&[(13, line, |a| a.input.clear())]),
        // 13 in the line of the system, with samples after it and with none.
        listed(&[
            (13, line, |a| a.input[LINE - 1] = b' '),
            (1, system, |a| a.input[LINE - 2] = b'1'),
            (3, sample, |a| a.input[LINE..2 * LINE - 1].copy_from_slice(b"  131072")),
            (2, last_short, |a| a.input.truncate(WINDOW_LENGTH * LINE)),
        ]),
        listed(&[
            (13, line, |a| a.input[LINE - 1] = b' '),
            (1, system, |a| a.input[LINE - 2] = b'1'),
            (10, none, |a| a.input.truncate(LINE)),
        ]),
        // 13 in the line of a sample.
        listed(&[
            (13, line, |a| a.input[2 * LINE - 1] = b' '),
            (3, sample, |a| a.input[LINE..2 * LINE - 1].copy_from_slice(b" -131072")),
            (2, last_short, |a| a.input.truncate(WINDOW_LENGTH * LINE)),
        ]),
    ]
}

#[test]
fn rows_are_the_calls() {
    let listed: Vec<String> = document().into_iter().map(|row| row.call).collect();
    let mut calls: Vec<&str> = trials().iter().map(|trial| trial.call).collect();
    calls.dedup();
    assert_eq!(listed, calls, "{DOCUMENT}: the calls of its rows, and those there are");
}

#[test]
fn checks_are_those_of_the_faults() {
    for Listed { call, refused, checks } in document() {
        let mut faults = BTreeSet::new();
        for trial in trials().into_iter().filter(|trial| trial.call == call) {
            assert_eq!(refused, trial.refused, "{DOCUMENT}, {call}: answered beside the number");
            faults.extend(trial.faults.iter().map(|fault| (fault.0, fault.1.to_string())));
        }
        if call == "harmlist" {
            faults.insert((HARMLIST_LAST.0, HARMLIST_LAST.1.to_string()));
            let numbers: Vec<u8> = checks.iter().map(|check| check.0).collect();
            assert_eq!(numbers, HARMLIST_ORDER, "{DOCUMENT}, harmlist: the order");
        }
        assert_eq!(checks.len(), faults.len(), "{DOCUMENT}, {call}: {checks:?}, but {faults:?}");
        for check in checks {
            assert!(faults.contains(&check), "{DOCUMENT}, {call}: {check:?} is none of {faults:?}");
        }
    }
}

#[test]
fn each_fault_alone_has_its_number() {
    for trial in trials() {
        assert_eq!(trial.answer(&[]), 0, "{} without a fault", trial.call);
        for fault in &trial.faults {
            assert_eq!(trial.answer(&[fault]), fault.0, "{} with one fault", trial.call);
        }
    }
}

#[test]
fn of_two_faults_the_first_of_the_row_decides() {
    let document = document();
    for trial in trials() {
        let Some(row) = document.iter().find(|row| row.call == trial.call) else {
            continue; // rows_are_the_calls tells of it
        };
        let pairs = trial.faults.iter().flat_map(|first| {
            let is_later = |later: &&Fault| row.place(first.0) < row.place(later.0);
            trial.faults.iter().filter(is_later).map(move |later| (first, later))
        });
        for (first, later) in pairs {
            let answer = trial.answer(&[first, later]);
            let text = format!("{DOCUMENT}, {}: {} before {}", trial.call, first.0, later.0);
            assert!(answer == first.0, "{text}, but with both the answer is {answer}");
        }
    }
}
