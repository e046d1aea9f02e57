//! Test cases with their results, as text that a test program in any language
//! can read. Each line is a word, a count, and that many whole numbers, parted
//! by single blanks; a line that begins with `#` is for human readers. The
//! README gives the numbers that stand after each word.

use crate::columns::{read_column, write_column};
use crate::distortion::distortion;
use crate::groups::{Kind, group_row, group_value};
use crate::largest::largest;
use crate::limits::order_limit;
use crate::listing::{LISTING_ROOM, fill_listing};
use crate::observation::{MOST_WINDOWS, Observation, THREE_SECOND_WINDOWS};
use crate::observation::{add_row, fresh_record};
use crate::observe::observe;
use crate::panel::{PANEL_LINES, Panel};
use crate::random::Random;
use crate::refusals::{Refusal, number_or_zero};
use crate::rows::{EDITION_2, EDITION_A1, LARGEST_VALUE, ORDER_COUNT, Row, SYSTEMS, Setup};
use crate::signals::{Signal, appliances, halfway_window, noise, noise_of_ends};
use crate::signals::{plain_windows, seeded_windows, square_wave, tone};
use crate::spectrum::{LARGEST_LINE, LARGEST_SAMPLE, LINE_COUNT, LINE_LIMIT, WINDOW_LENGTH};
use crate::spectrum::{lines_from, spectrum};
use crate::three_seconds::three_second_value;
use crate::verdict::{LARGEST_SCALE, Question, Verdict, order_verdict};
use crate::words::{LATEST_PLACE, record_of, words_of};
use std::fmt::Display;
use std::io::{Result, Write};

/// Both editions, and numbers of none.
const EDITIONS: [u64; 4] = [EDITION_2, EDITION_A1, 2, u32::MAX as u64];
/// The scales at both edges, and those beside them.
const EDGE_SCALES: [u64; 4] = [0, 1, LARGEST_SCALE, LARGEST_SCALE + 1];
/// The orders that have a limit at both edges, those beside them, and 0.
const EDGE_ORDERS: [u64; 5] = [0, 1, 2, 40, 41];
/// What a buffer holds before a call, so that bytes that stay can be seen.
const UNTOUCHED: u8 = b'#';

/// The kinds with their numbers.
fn kinds() -> impl Iterator<Item = (Kind, usize)> {
    Kind::ALL.into_iter().zip(0..)
}

/// Each system under each edition.
fn setups(systems: &[u64], editions: &[u64]) -> Vec<Setup> {
    let with = |&edition| systems.iter().map(move |&system| Setup { system, edition });
    editions.iter().flat_map(with).collect()
}

/// The printer of the lines.
struct Printer<W: Write> {
    output: W,
    panel: Panel,
}

impl<W: Write> Printer<W> {
    fn comment(&mut self, text: &str) -> Result<()> {
        writeln!(self.output, "# {text}")
    }

    /// One line: the word, the count and the numbers, `first` before `rest`.
    fn line<A: Display, B: Display>(&mut self, word: &str, first: &[A], rest: &[B]) -> Result<()> {
        write!(self.output, "{word} {}", first.len() + rest.len())?;
        for number in first {
            write!(self.output, " {number}")?;
        }
        for number in rest {
            write!(self.output, " {number}")?;
        }
        writeln!(self.output)
    }

    fn numbers<A: Display>(&mut self, word: &str, numbers: &[A]) -> Result<()> {
        self.line::<A, A>(word, numbers, &[])
    }

    /// The spectrum of the window at `start`, the five kinds at both systems under
    /// both editions, and the panel's rows.
    fn spectrum_case(&mut self, signal: &Signal, start: usize, line_count: usize) -> Result<()> {
        let mut lines = vec![0; line_count];
        let refusal = number_or_zero(&spectrum(&signal.samples, start, &mut lines));
        self.comment(&signal.name)?;
        self.numbers("recording", &signal.samples)?;
        self.line("spectrum", &[start, line_count], &[refusal])?;
        if refusal == 0 {
            self.numbers("lines", &lines)?;
            for setup in Setup::ALL {
                for (kind, number) in kinds() {
                    let row = group_row(kind, setup, &lines).expect("lines in range");
                    self.line("row", &[number as u64, setup.system, setup.edition], &row.values)?;
                    self.distortion_case(&row.values)?;
                }
            }
        }
        for setup in Setup::ALL {
            self.panel_case(&signal.samples, start, setup, PANEL_LINES)?;
        }
        Ok(())
    }

    /// The panel's row of a window of the last recording, with what its buffer of lines
    /// holds after the call.
    fn panel_case(
        &mut self,
        recording: &[i32],
        start: usize,
        setup: Setup,
        line_count: usize,
    ) -> Result<()> {
        let mut lines = vec![UNTOUCHED.into(); line_count];
        let (row, refusal) = self.panel.row(recording, start, setup, &mut lines);
        let answer = match refusal {
            None => [&row.values.map(u64::from)[..], &lines].concat(),
            Some(_) => Vec::new(),
        };
        let refusal = refusal.map_or(0, Refusal::number).into();
        let Setup { system, edition } = setup;
        let asked = [start as u64, system, edition, line_count as u64, refusal];
        self.line("panel_row", &asked, &answer)
    }

    /// Lines of the last recording, the buffer's first line being `first`.
    fn lines_from_case(
        &mut self,
        recording: &[i32],
        start: usize,
        first: usize,
        line_count: usize,
    ) -> Result<()> {
        let mut lines = vec![0; line_count];
        let result = lines_from(recording, start, first, &mut lines);
        if result.is_err() {
            lines.clear();
        }
        let refusal = number_or_zero(&result).into();
        let numbers = [start, first, line_count, refusal];
        self.line("lines_from", &numbers, &lines)
    }

    /// The record after windows of the last recording, if there is one.
    fn observe_case(
        &mut self,
        recording: &[i32],
        (start, windows): (usize, usize),
        setup: Setup,
        (kind, number): (Kind, usize),
    ) -> Result<Option<Observation>> {
        let result = observe(recording, start, windows, setup, kind);
        let refusal = number_or_zero(&result).into();
        let Setup { system, edition } = setup;
        let numbers = [start, windows, system as usize, edition as usize, number, refusal];
        self.numbers("observe", &numbers)?;
        if let Ok(observation) = &result {
            self.record(observation)?;
        }
        Ok(result.ok())
    }

    fn distortion_case(&mut self, values: &[u32; ORDER_COUNT]) -> Result<()> {
        let result = distortion(values);
        let answer = [number_or_zero(&result).into(), result.unwrap_or(0)];
        self.line("distortion", &answer, values)
    }

    /// Group values for lines that need not come from a window.
    fn group_cases(&mut self, lines: &[u64], setups: &[Setup], orders: &[u64]) -> Result<()> {
        self.numbers("lines", lines)?;
        for (kind, number) in kinds() {
            for &setup in setups {
                for &order in orders {
                    let result = group_value(kind, setup, order, lines);
                    let asked = [number as u64, setup.system, setup.edition, order];
                    let answer = [number_or_zero(&result).into(), result.unwrap_or(0)];
                    self.line("group_value", &asked, &answer)?;
                }
            }
        }
        Ok(())
    }

    fn record(&mut self, record: &Observation) -> Result<()> {
        self.numbers("record", &words_of(record))
    }

    fn fresh_case(&mut self, setup: Setup) -> Result<Observation> {
        let (record, refusal) = fresh_record(setup);
        let refusal = refusal.map_or(0, Refusal::number).into();
        self.numbers("fresh_record", &[setup.system, setup.edition, refusal])?;
        self.record(&record)?;
        Ok(record)
    }

    /// Adds a row and prints the record before, the row and the record after.
    fn row_case(&mut self, record: Observation, row: &Row) -> Result<Observation> {
        let (next, refusal) = add_row(record, row);
        let refusal = refusal.map_or(0, Refusal::number);
        let Setup { system, edition } = row.setup;
        self.line("add_row", &[refusal.into(), system, edition], &row.values)?;
        self.record(&next)?;
        Ok(next)
    }

    fn limit_case(&mut self, order: u64, class_letter: u8) -> Result<()> {
        let result = order_limit(order, class_letter);
        let (numerator, denominator) =
            result.map_or((0, 0), |limit| (limit.numerator, limit.denominator));
        let refusal = number_or_zero(&result).into();
        self.numbers("limit", &[order, class_letter.into(), refusal, numerator, denominator])
    }

    /// The verdict on the last record.
    fn verdict_case(&mut self, record: &Observation, question: Question) -> Result<()> {
        let Question { order, class_letter, scale } = question;
        let result = order_verdict(record, question);
        let (outcome, carried) = match result {
            Err(_) => (0, 0),
            Ok(Verdict::Within(carried)) => (1, carried),
            Ok(Verdict::Close(carried)) => (2, carried),
            Ok(Verdict::Over(carried)) => (3, carried),
        };
        let refusal = number_or_zero(&result).into();
        let numbers = [order, class_letter.into(), scale, refusal, outcome, carried];
        self.numbers("verdict", &numbers)
    }

    /// The three-second value of an order of the last record.
    fn three_second_case(&mut self, record: &Observation, order: u64) -> Result<()> {
        let result = three_second_value(record, order);
        let refusal = number_or_zero(&result).into();
        self.numbers("three_second_value", &[order, refusal, result.unwrap_or(0)])
    }

    fn read_column_case(&mut self, text: &[u8]) -> Result<()> {
        let result = read_column(text);
        let answer = [number_or_zero(&result).into(), result.unwrap_or(0)];
        self.line("read_column", &answer, text)
    }

    fn write_column_case(&mut self, number: i64, length: usize) -> Result<()> {
        let mut buffer = vec![UNTOUCHED; length];
        let refusal = number_or_zero(&write_column(&mut buffer, number));
        self.line("write_column", &[number, refusal.into()], &buffer)
    }

    fn listing_case(&mut self, values: &[[u32; ORDER_COUNT]; 3], length: usize) -> Result<()> {
        let mut buffer = vec![UNTOUCHED; length];
        let result = fill_listing(&values[0], &values[1], &values[2], &mut buffer);
        self.numbers("listing_values", &values.concat())?;
        let refusal = number_or_zero(&result).into();
        self.line("fill_listing", &[refusal, result.unwrap_or(0)], &buffer)
    }
}

/// Windows at the start, the middle and the end of longer recordings. What lies
/// outside the window is out of range, as it is not to be looked at.
fn print_windows_in_recordings<W: Write>(printer: &mut Printer<W>, seed: u64) -> Result<()> {
    for (before, after) in [(1, 0), (1_000, 77), (5, 4_096), (2_048, 2_048)] {
        let mut signal = noise(WINDOW_LENGTH, LARGEST_SAMPLE, seed);
        let mut samples = vec![i32::MIN; before];
        samples.append(&mut signal.samples);
        samples.extend(vec![i32::MAX; after]);
        signal.samples = samples;
        printer.spectrum_case(&signal, before, LINE_COUNT)?;
        printer.spectrum_case(&signal, before + 1, LINE_COUNT)?;
    }
    Ok(())
}

/// Refusals of the spectrum and their order.
fn print_spectrum_refusals<W: Write>(printer: &mut Printer<W>) -> Result<()> {
    let with_sample = |length: usize, sample: i32| Signal {
        name: format!("zeros with {sample} in the middle"),
        samples: (0..length).map(|j| if j == length / 2 { sample } else { 0 }).collect(),
    };
    for sample in [131_071, 131_072, -131_071, -131_072, i32::MIN, i32::MAX] {
        printer.spectrum_case(&with_sample(WINDOW_LENGTH, sample), 0, LINE_COUNT)?;
    }
    for (start, line_count) in [
        (0, LINE_COUNT - 1),
        (0, LINE_COUNT + 1),
        (0, 0),
        (1, LINE_COUNT - 1),
        (1, LINE_COUNT),
        (WINDOW_LENGTH, LINE_COUNT),
        (WINDOW_LENGTH + 1, LINE_COUNT),
        (usize::MAX, LINE_COUNT),
        (usize::MAX - WINDOW_LENGTH + 1, LINE_COUNT),
    ] {
        printer.spectrum_case(&with_sample(WINDOW_LENGTH, 131_072), start, line_count)?;
    }
    printer.spectrum_case(&with_sample(0, 0), 0, LINE_COUNT)?;
    printer.spectrum_case(&with_sample(WINDOW_LENGTH - 1, 0), 0, LINE_COUNT)
}

/// Parts of the lines of a window: at every edge, refused ones and their order.
/// The sample before the window is out of range.
fn print_line_parts<W: Write>(printer: &mut Printer<W>, seed: u64) -> Result<()> {
    let signals = [
        noise(WINDOW_LENGTH, LARGEST_SAMPLE, seed),
        noise_of_ends(WINDOW_LENGTH, seed),
        square_wave(WINDOW_LENGTH, 800.0),
        tone(WINDOW_LENGTH, 1_023.0, 131_071.0, 0.1),
        halfway_window(-1, true),
    ];
    for signal in signals {
        let recording = [&[i32::MIN], &signal.samples[..]].concat();
        printer.comment(&signal.name)?;
        printer.numbers("recording", &recording)?;
        for start in [1, 0, 2, usize::MAX] {
            for (first, line_count) in [
                (0, LINE_LIMIT),
                (0, 0),
                (0, 1),
                (7, 1),
                (45, 11),
                (LINE_COUNT - 1, 2),
                (LINE_COUNT, LINE_COUNT),
                (LINE_LIMIT - 13, 13),
                (LINE_LIMIT - 1, 1),
                (LINE_LIMIT, 0),
                (0, LINE_LIMIT + 1),
                (1, LINE_LIMIT),
                (LINE_COUNT + 1, LINE_COUNT),
                (LINE_LIMIT, 1),
                (LINE_LIMIT + 1, 0),
                (usize::MAX, 0),
                (usize::MAX, 1),
                (usize::MAX - LINE_COUNT + 1, LINE_COUNT),
            ] {
                printer.lines_from_case(&recording, start, first, line_count)?;
            }
        }
    }
    Ok(())
}

/// Windows back to back: all kinds, both systems and editions, a bad sample in each
/// window, recordings that are short, other systems and editions, and the order of
/// these.
fn print_observations<W: Write>(printer: &mut Printer<W>, seed: u64) -> Result<()> {
    let (before, windows) = (5, 10);
    for system in SYSTEMS {
        let mut recording = vec![i32::MIN; before];
        for signal in appliances(WINDOW_LENGTH, system, seed).into_iter().take(windows) {
            recording.extend(signal.samples);
        }
        recording.push(i32::MAX);
        printer.comment("an appliance in each window")?;
        printer.numbers("recording", &recording)?;
        for setup in [Setup::edition_2(system), Setup::edition_a1(system)] {
            for kind in kinds() {
                for count in 0..=3 {
                    printer.observe_case(&recording, (before, count), setup, kind)?;
                }
            }
            let group = (Kind::HarmonicGroup, 1);
            for count in [windows, windows + 1, usize::MAX] {
                printer.observe_case(&recording, (before, count), setup, group)?;
            }
        }
    }
    let windows = 3;
    let good = noise(windows * WINDOW_LENGTH, 40_000, seed).samples;
    let last = |window: usize| (window + 1) * WINDOW_LENGTH - 1;
    let mut recordings = vec![good.clone(), Vec::new()];
    for window in 0..windows {
        for (place, sample) in [(window * WINDOW_LENGTH, 131_072), (last(window), -131_072)] {
            let mut bad = good.clone();
            bad[place] = sample;
            recordings.push(bad);
        }
        recordings.push(good[..last(window)].to_vec());
    }
    for recording in recordings {
        printer.comment("three windows, a bad sample in one or one short")?;
        printer.numbers("recording", &recording)?;
        let component = (Kind::Component, 0);
        for count in 0..=windows + 1 {
            for start in [0, 1, usize::MAX] {
                let setup = Setup::edition_2(10);
                printer.observe_case(&recording, (start, count), setup, component)?;
            }
            printer.observe_case(&recording, (0, count), Setup::edition_2(11), component)?;
            for setup in setups(&[10, 11], &EDITIONS[1..]) {
                printer.observe_case(&recording, (0, count), setup, component)?;
            }
        }
    }
    Ok(())
}

fn print_groups<W: Write>(printer: &mut Printer<W>, random: &mut Random) -> Result<()> {
    let all_orders: Vec<u64> = (1..=ORDER_COUNT as u64).collect();
    printer.comment("lines at their greatest, and at random")?;
    printer.group_cases(&[LARGEST_LINE; LINE_COUNT], &Setup::ALL, &all_orders)?;
    for shift in [5, 30, 58] {
        let lines: Vec<u64> = (0..LINE_COUNT).map(|_| random.bits() >> shift).collect();
        printer.group_cases(&lines, &Setup::ALL, &all_orders)?;
    }
    printer.comment("refusals of the group value and their order")?;
    let setups = setups(&[0, 9, 10, 11, 12, 13], &EDITIONS);
    let orders = [0, 1, 40, 41, u64::from(u32::MAX)];
    for line_count in [0, LINE_COUNT - 1, LINE_COUNT, LINE_COUNT + 1] {
        let mut lines = vec![4; line_count];
        printer.group_cases(&lines, &setups, &orders)?;
        if let Some(last) = lines.last_mut() {
            *last = LARGEST_LINE + 1;
            printer.group_cases(&lines, &setups, &orders)?;
        }
    }
    Ok(())
}

/// A value of 32 bits with a random count of digits.
fn random_value(random: &mut Random) -> u32 {
    let shift = random.below(33);
    (random.bits() >> 32 >> shift) as u32
}

fn random_values(random: &mut Random) -> [u32; ORDER_COUNT] {
    std::array::from_fn(|_| random_value(random))
}

fn print_distortions<W: Write>(printer: &mut Printer<W>, random: &mut Random) -> Result<()> {
    let mut values = [0; ORDER_COUNT];
    printer.distortion_case(&values)?;
    values[0] = 1;
    printer.distortion_case(&values)?;
    values[1..].fill(u32::MAX);
    printer.distortion_case(&values)?;
    values[0] = u32::MAX;
    printer.distortion_case(&values)?;
    for _ in 0..30 {
        printer.distortion_case(&random_values(random))?;
    }
    Ok(())
}

/// Runs of rows into one record of an edition, with verdicts in a class on the way.
fn print_records<W: Write>(
    printer: &mut Printer<W>,
    random: &mut Random,
    edition: u64,
    class_letter: u8,
) -> Result<()> {
    for system in [0, 11, 13, 10, 12] {
        let mut record = printer.fresh_case(Setup { system, edition })?;
        printer.verdict_case(&record, Question { order: 3, class_letter, scale: 1_000_000 })?;
        for _ in 0..12 {
            let own = record.setup.system;
            let system = [own, own, 10, 12, 11][random.below(5) as usize];
            let setup = Setup { system, ..record.setup };
            let values = random_values(random);
            record = printer.row_case(record, &Row { setup, values })?;
            for _ in 0..4 {
                let scale = 1 + (random.bits() >> (36 + random.below(28)));
                let order = random.below(43);
                printer.verdict_case(&record, Question { order, class_letter, scale })?;
            }
        }
    }
    Ok(())
}

/// Records of an edition at the edges of soundness and of the count of windows.
fn edge_records(edition: u64) -> Vec<Observation> {
    let (fresh, _) = fresh_record(Setup { system: 10, edition });
    let held = |windows: u64| {
        let full = [LARGEST_VALUE; ORDER_COUNT];
        let sum = [windows * LARGEST_VALUE; ORDER_COUNT];
        Observation { windows, smoothed: full, sum, peak: full, ..fresh.clone() }
    };
    let mut records = vec![fresh.clone()];
    for windows in [0, 1, 2, MOST_WINDOWS - 1, MOST_WINDOWS, MOST_WINDOWS + 1] {
        records.push(held(windows));
    }
    for system in [0, 11, 12, 13] {
        records.push(Observation { setup: Setup { system, edition }, ..held(7) });
    }
    let edits: [fn(&mut Observation); 3] = [
        |record| record.sum[39] += 1,
        |record| record.peak[39] += 1,
        |record| record.smoothed[0] += 1,
    ];
    for edit in edits {
        for mut record in [fresh.clone(), held(7)] {
            edit(&mut record);
            records.push(record);
        }
    }
    records
}

/// The verdicts on the last record, in a class or with a letter that is refused,
/// at the edges of order and scale.
fn print_edge_verdicts<W: Write>(
    printer: &mut Printer<W>,
    record: &Observation,
    class_letter: u8,
) -> Result<()> {
    for order in EDGE_ORDERS {
        for scale in EDGE_SCALES {
            printer.verdict_case(record, Question { order, class_letter, scale })?;
        }
    }
    Ok(())
}

fn print_record_edges<W: Write>(printer: &mut Printer<W>, edition: u64) -> Result<()> {
    for record in edge_records(edition) {
        for setup in setups(&[10, 11, 12], &[edition]) {
            printer.record(&record)?;
            printer.row_case(record.clone(), &Row { setup, values: [u32::MAX; ORDER_COUNT] })?;
        }
        printer.record(&record)?;
        print_edge_verdicts(printer, &record, b'A')?;
    }
    Ok(())
}

/// The last number of so many bits that has a property and the one after it; none
/// where 0 has it not.
fn last_and_next(bits: u32, holds: impl Fn(u64) -> bool) -> Vec<u64> {
    if !holds(0) {
        return Vec::new();
    }
    let last = largest(bits, holds);
    vec![last, last + 1]
}

/// Sums and peaks about the places where the verdict on an order changes, in records
/// of a setup; they are found from the verdict itself, by halving.
fn print_verdicts_about<W: Write>(
    printer: &mut Printer<W>,
    setup: Setup,
    question: Question,
    windows: u64,
) -> Result<()> {
    let order = question.order;
    let place = order as usize - 1;
    let with = |sum: u64, peak: u64| {
        let (mut record, _) = fresh_record(setup);
        record.windows = windows;
        record.sum[place] = sum;
        record.peak[place] = peak;
        record
    };
    let verdict_on = |record: &Observation| order_verdict(record, question);
    let is_within = |record: &Observation| verdict_on(record) == Ok(Verdict::Within(order));
    let is_not_over = |record: &Observation| verdict_on(record) != Ok(Verdict::Over(order));
    // A record of such values is sound, and the greatest of them pass every limit.
    let peak_bits = 31;
    let sum_bits = peak_bits + windows.ilog2();
    let sums = [
        last_and_next(sum_bits, |sum| is_within(&with(sum, 0))),
        last_and_next(sum_bits, |sum| is_not_over(&with(sum, 0))),
    ];
    let peaks = [
        last_and_next(peak_bits, |peak| is_within(&with(0, peak))),
        last_and_next(peak_bits, |peak| is_not_over(&with(0, peak))),
    ];
    let sums = sums.concat().into_iter().map(|sum| with(sum, 0));
    let peaks = peaks.concat().into_iter().map(|peak| with(0, peak));
    for record in sums.chain(peaks) {
        printer.record(&record)?;
        printer.verdict_case(&record, question)?;
    }
    Ok(())
}

fn print_limits<W: Write>(printer: &mut Printer<W>, class_letter: u8) -> Result<()> {
    for order in (0..=42).chain([u64::from(u32::MAX)]) {
        printer.limit_case(order, class_letter)?;
    }
    Ok(())
}

fn print_verdicts<W: Write>(printer: &mut Printer<W>, class_letter: u8) -> Result<()> {
    for order in 2..=40 {
        for (scale, windows) in [(1_000_000, 1), (987_654, 7), (LARGEST_SCALE, 3)] {
            let question = Question { order, class_letter, scale };
            print_verdicts_about(printer, Setup::edition_2(10), question, windows)?;
        }
    }
    Ok(())
}

/// Class B: limits and verdicts as of class A; verdicts where both limits of an
/// order are whole numbers of units, so that a value more or less the margin can
/// be equal to its limit, and where scale and windows are the least and the most.
/// At a scale of 1 the margin is above every limit, and nothing is within.
fn print_class_b<W: Write>(printer: &mut Printer<W>, random: &mut Random) -> Result<()> {
    let class_letter = b'B';
    printer.comment("class B")?;
    print_limits(printer, class_letter)?;
    print_records(printer, random, EDITION_2, class_letter)?;
    print_verdicts(printer, class_letter)?;
    for order in 2..=40 {
        for (scale, windows) in [
            (2_000 * order, 1),
            (1, 1),
            (1, MOST_WINDOWS),
            (LARGEST_SCALE, 1),
            (LARGEST_SCALE, MOST_WINDOWS),
        ] {
            let question = Question { order, class_letter, scale };
            print_verdicts_about(printer, Setup::edition_2(10), question, windows)?;
        }
    }
    Ok(())
}

/// Letters of no class, and which of several faults decides.
fn print_other_letters<W: Write>(printer: &mut Printer<W>) -> Result<()> {
    printer.comment("letters of no class")?;
    let (mut record, _) = fresh_record(Setup::edition_2(10));
    record.windows = 1;
    printer.record(&record)?;
    for class_letter in (0..=u8::MAX).filter(|letter| !b"AB".contains(letter)) {
        for order in EDGE_ORDERS {
            printer.limit_case(order, class_letter)?;
        }
        printer.verdict_case(&record, Question { order: 3, class_letter, scale: 1_000_000 })?;
    }
    printer.comment("class B and letters of no class at each edge of a verdict")?;
    for record in edge_records(EDITION_2) {
        printer.record(&record)?;
        for class_letter in [b'B', 0, b'@', b'C', b'D', b'a', b'b', b'd', u8::MAX] {
            print_edge_verdicts(printer, &record, class_letter)?;
        }
    }
    Ok(())
}

/// Fresh records, rows and verdicts with every setup: into a record of no window, one,
/// the most or one more come rows of each. The last two editions of a record are none,
/// though their low 32 bits are one.
fn print_setups<W: Write>(printer: &mut Printer<W>) -> Result<()> {
    printer.comment("each system and edition, of a record beside those of a row")?;
    for setup in setups(&[0, 10, 11, 12], &EDITIONS) {
        printer.fresh_case(setup)?;
    }
    let (fresh, _) = fresh_record(Setup::edition_2(10));
    let held_editions = [&EDITIONS[..], &[1 << 32, (1 << 32) + 1]].concat();
    for record_setup in setups(&SYSTEMS, &held_editions) {
        for windows in [0, 1, MOST_WINDOWS, MOST_WINDOWS + 1] {
            let record = Observation { setup: record_setup, windows, ..fresh.clone() };
            printer.record(&record)?;
            for setup in setups(&[10, 11, 12], &EDITIONS) {
                let row = Row { setup, values: [7; ORDER_COUNT] };
                if printer.row_case(record.clone(), &row)? != record {
                    printer.record(&record)?;
                }
            }
            let question = Question { order: 3, class_letter: b'A', scale: 1_000_000 };
            printer.verdict_case(&record, question)?;
        }
    }
    Ok(())
}

/// Edition 2.0 A1 (document 02, card 7): runs of rows, verdicts about limits in both
/// classes, and the edges of a record.
fn print_edition_a1<W: Write>(printer: &mut Printer<W>, random: &mut Random) -> Result<()> {
    printer.comment("edition 2.0 A1")?;
    for class_letter in *b"AB" {
        print_records(printer, random, EDITION_A1, class_letter)?;
        for order in [2, 3, 20, 39, 40] {
            let question = Question { order, class_letter, scale: 1_000_000 };
            for system in SYSTEMS {
                print_verdicts_about(printer, Setup::edition_a1(system), question, 7)?;
            }
        }
    }
    print_record_edges(printer, EDITION_A1)
}

/// The three-second values of every order of the last record, and of the orders beside
/// them.
fn print_three_second_values<W: Write>(
    printer: &mut Printer<W>,
    record: &Observation,
) -> Result<()> {
    for order in (0..=ORDER_COUNT as u64 + 1).chain([u64::from(u32::MAX)]) {
        printer.three_second_case(record, order)?;
    }
    Ok(())
}

/// A record, and what all calls that take one answer for it: three-second values, a
/// verdict, and a row of the record's setup.
fn print_calls_on<W: Write>(printer: &mut Printer<W>, record: &Observation) -> Result<()> {
    printer.record(record)?;
    print_three_second_values(printer, record)?;
    let question = Question { order: 3, class_letter: b'A', scale: 1_000_000 };
    printer.verdict_case(record, question)?;
    let row = Row { setup: record.setup, values: [u32::MAX; ORDER_COUNT] };
    printer.row_case(record.clone(), &row).map(|_| ())
}

/// Runs of 47 windows, refused rows among their calls, and the three-second values after
/// each call: of every order about the multiples of 15, where a record begins to have them
/// and a new row has the first place again, and else of one order.
fn print_three_second_runs<W: Write>(printer: &mut Printer<W>, random: &mut Random) -> Result<()> {
    for setup in Setup::ALL {
        printer.comment("a run of rows with three-second values")?;
        let mut record = printer.fresh_case(setup)?;
        print_three_second_values(printer, &record)?;
        while record.windows < 47 {
            let other = setups(&[10, 11, 12], &EDITIONS)[random.below(12) as usize];
            let setup = if random.below(3) == 0 { other } else { setup };
            let values = random_values(random);
            record = printer.row_case(record, &Row { setup, values })?;
            if [0, 1, 13, 14].contains(&(record.windows % THREE_SECOND_WINDOWS as u64)) {
                print_three_second_values(printer, &record)?;
            } else {
                let order = random.below(ORDER_COUNT as u64 + 2);
                printer.three_second_case(&record, order)?;
            }
        }
    }
    Ok(())
}

/// Three-second values from samples: windows back to back, an appliance in each two.
fn print_three_seconds_observed<W: Write>(printer: &mut Printer<W>, seed: u64) -> Result<()> {
    let setup = Setup::edition_a1(12);
    let sources = appliances(2 * WINDOW_LENGTH, setup.system, seed);
    let windows = sources.iter().cycle().flat_map(|signal| signal.samples.chunks(WINDOW_LENGTH));
    let recording: Vec<i32> = windows.take(31).flatten().copied().collect();
    printer.comment("an appliance in each two windows, with three-second values")?;
    printer.numbers("recording", &recording)?;
    for kind in kinds() {
        for count in [14, 15, 16, 31] {
            let record = printer.observe_case(&recording, (0, count), setup, kind)?;
            print_three_second_values(printer, &record.expect("samples in range"))?;
        }
    }
    Ok(())
}

/// Values whose squares have this sum, found by taking the largest again and again, if
/// there are any such.
fn values_of_sum(sum: u128) -> Option<[u32; THREE_SECOND_WINDOWS]> {
    let mut rest = sum;
    let values = std::array::from_fn(|_| {
        let value = largest(32, |value| u128::from(value).pow(2) <= rest);
        rest -= u128::from(value).pow(2);
        value as u32
    });
    (rest == 0).then_some(values)
}

/// Sums about which a three-second value changes, or a computation of 64 bits would.
fn edge_sums(random: &mut Random) -> Vec<u128> {
    let windows = THREE_SECOND_WINDOWS as u128;
    let mut values: Vec<u64> = (0..32).map(|bits| 1 << bits).collect();
    for whole in 1..THREE_SECOND_WINDOWS as u128 {
        // The last t with 15 × t² at most so many times 2^64.
        values.push(largest(32, |t| windows * u128::from(t).pow(2) <= whole << 64));
    }
    values.extend((0..40).map(|_| u64::from(random_value(random))));
    let squares = values.iter().map(|&t| [t.saturating_sub(1), t, t + 1]);
    let turns = squares.flatten().map(|t| windows * u128::from(t).pow(2));
    turns.chain((0..THREE_SECOND_WINDOWS as u128).map(|whole| whole << 64)).collect()
}

/// Records of 15 windows and more whose sums of squares lie at the edges of a
/// three-second value, an order for each sum.
fn print_three_second_edges<W: Write>(printer: &mut Printer<W>, random: &mut Random) -> Result<()> {
    printer.comment("sums of squares at the edges of a three-second value")?;
    let (fresh, _) = fresh_record(Setup::edition_2(10));
    let sums = edge_sums(random).into_iter();
    let about = sums.flat_map(|sum| [sum.saturating_sub(1), sum, sum + 1]);
    let columns: Vec<_> = about.filter_map(values_of_sum).collect();
    for part in columns.chunks(ORDER_COUNT) {
        let windows = THREE_SECOND_WINDOWS as u64 + random.below(40);
        let mut record = Observation { windows, ..fresh.clone() };
        for (place, column) in part.iter().enumerate() {
            for (row, &value) in record.latest.iter_mut().zip(column) {
                row[place] = value;
            }
        }
        printer.record(&record)?;
        print_three_second_values(printer, &record)?;
    }
    printer.comment("rows of one value, and one row that differs")?;
    let of_rows = |value: u32, last: u32| {
        let windows = THREE_SECOND_WINDOWS as u64;
        let mut record = Observation { windows, ..fresh.clone() };
        record.latest.fill([value; ORDER_COUNT]);
        record.latest[THREE_SECOND_WINDOWS - 1].fill(last);
        record
    };
    for value in [0, 1, 2, 15, 65_535, 65_536, 1 << 31, u32::MAX] {
        for last in [value, value.saturating_sub(1), value.saturating_add(1), 0, u32::MAX] {
            let record = of_rows(value, last);
            printer.record(&record)?;
            printer.three_second_case(&record, 1)?;
            printer.three_second_case(&record, ORDER_COUNT as u64)?;
        }
    }
    Ok(())
}

/// Records with kept values before their row has come, which are not sound, and beside
/// them those that are: a word of the latest rows is not 0, the last that may be, the
/// first that may not, the last of all, or any.
fn print_kept_values<W: Write>(printer: &mut Printer<W>, random: &mut Random) -> Result<()> {
    printer.comment("kept values where no row has come yet, and where one has")?;
    let all = THREE_SECOND_WINDOWS * ORDER_COUNT;
    for windows in [0, 1, 2, 3, 7, 13, 14, 15, 16, 30, 31] {
        let (mut record, _) = fresh_record(Setup::ALL[windows % 4]);
        record.windows = windows as u64;
        let words = words_of(&record);
        let first_to_come = windows * ORDER_COUNT;
        let any = random.below(all as u64) as usize;
        for number in [0, first_to_come.wrapping_sub(1), first_to_come, all - 1, any] {
            if number < all {
                let mut words = words.clone();
                words[LATEST_PLACE + number / 2] = 1 << (32 * (number % 2));
                print_calls_on(printer, &record_of(&words))?;
            }
        }
    }
    Ok(())
}

/// Records with any kept values at the edges of the count of windows and of soundness.
fn print_kept_words<W: Write>(printer: &mut Printer<W>, random: &mut Random) -> Result<()> {
    printer.comment("any kept values")?;
    let most = MOST_WINDOWS as usize;
    for windows in [14, 15, 16, 29, 30, most - 16, most - 1, most, most + 1, 1 << 40] {
        for setup in Setup::ALL {
            let (fresh, _) = fresh_record(setup);
            let mut words = words_of(&Observation { windows: windows as u64, ..fresh });
            for word in &mut words[LATEST_PLACE..] {
                *word = random.bits();
            }
            print_calls_on(printer, &record_of(&words))?;
        }
    }
    let (fresh, _) = fresh_record(Setup::edition_2(10));
    let mut sound = words_of(&Observation { windows: 15, ..fresh });
    sound[LATEST_PLACE..].fill(u64::MAX);
    print_calls_on(printer, &record_of(&sound))?;
    for (place, word) in
        [(0, 11), (1, 2), (3, 1 << 32), (43, 15 * LARGEST_VALUE + 1), (122, 1 << 32)]
    {
        let mut words = sound.clone();
        words[place] = word;
        print_calls_on(printer, &record_of(&words))?;
    }
    Ok(())
}

/// Three-second values (document 02, card 8).
fn print_three_seconds<W: Write>(
    printer: &mut Printer<W>,
    random: &mut Random,
    seed: u64,
) -> Result<()> {
    print_three_second_runs(printer, random)?;
    print_three_seconds_observed(printer, seed)?;
    print_three_second_edges(printer, random)?;
    print_kept_values(printer, random)?;
    print_kept_words(printer, random)
}

/// The panel's row (document 02, card 6) of tones on and beside the edges of the first
/// two groups and of the last, and its refusals: each fault alone and each two or more of
/// them. The sample before the window is out of range.
fn print_panel_rows<W: Write>(printer: &mut Printer<W>) -> Result<()> {
    for system in SYSTEMS {
        for order in [1, 2, ORDER_COUNT as u64] {
            let (first, last) = (system * order - system / 2, system * order + system / 2);
            for line in [first - 1, first, last, last + 1] {
                let signal = tone(WINDOW_LENGTH, line as f64, 131_071.0, 0.1);
                printer.comment(&signal.name)?;
                printer.numbers("recording", &signal.samples)?;
                for setup in setups(&[system], &[EDITION_2, EDITION_A1]) {
                    printer.panel_case(&signal.samples, 0, setup, PANEL_LINES)?;
                }
            }
        }
    }
    for sample in [LARGEST_SAMPLE, LARGEST_SAMPLE + 1] {
        let mut recording = square_wave(WINDOW_LENGTH + 1, 50.0).samples;
        recording[0] = i32::MIN;
        recording[WINDOW_LENGTH] = sample;
        printer.comment("refusals of the panel's row and their order")?;
        printer.numbers("recording", &recording)?;
        for setup in setups(&[10, 12, 0, 11], &EDITIONS) {
            for start in [1, 0, 2, usize::MAX] {
                for line_count in [PANEL_LINES, 0, 11, 12, 14, LINE_COUNT] {
                    printer.panel_case(&recording, start, setup, line_count)?;
                }
            }
        }
    }
    Ok(())
}

/// Windows that begin later, behind samples that are out of range: all that a call for
/// windows gives.
fn print_later_windows<W: Write>(printer: &mut Printer<W>, seed: u64) -> Result<()> {
    for before in [1_025, 2_048, 4_173] {
        let Signal { name, samples } = noise_of_ends(WINDOW_LENGTH, seed);
        let recording = [&vec![i32::MIN; before][..], &samples, &[i32::MAX]].concat();
        let signal = Signal { name, samples: recording.clone() };
        printer.spectrum_case(&signal, before, LINE_COUNT)?;
        for start in [before, before - 1, before + 1] {
            for (first, line_count) in [(0, LINE_LIMIT), (45, 11), (LINE_LIMIT - 1, 1)] {
                printer.lines_from_case(&recording, start, first, line_count)?;
            }
            for setup in Setup::ALL {
                for kind in kinds() {
                    printer.observe_case(&recording, (start, 1), setup, kind)?;
                }
            }
        }
    }
    Ok(())
}

/// Records that are sound though no rows give them: nothing but smoothed values, sums or
/// peaks.
fn print_unreached_records<W: Write>(printer: &mut Printer<W>) -> Result<()> {
    let (zeros, full) = ([0; ORDER_COUNT], [LARGEST_VALUE; ORDER_COUNT]);
    for setup in Setup::ALL {
        let held = Observation { windows: 15, ..fresh_record(setup).0 };
        for [smoothed, sum, peak] in
            [[full, zeros, zeros], [zeros, full, zeros], [zeros, zeros, full]]
        {
            let record = Observation { smoothed, sum, peak, ..held.clone() };
            printer.record(&record)?;
            print_edge_verdicts(printer, &record, b'A')?;
            print_calls_on(printer, &record)?;
        }
    }
    Ok(())
}

/// Texts that are a column or nearly one.
fn print_columns<W: Write>(printer: &mut Printer<W>, random: &mut Random) -> Result<()> {
    let texts: [&[u8]; 24] = [
        b"       0",
        b"      -7",
        b"      07",
        b"      -0",
        b"        ",
        b"       -",
        b"12345678",
        b"-1234567",
        b"99999999",
        b"-9999999",
        b"00000000",
        b"00000001",
        b"7       ",
        b"      7 ",
        b"     - 7",
        b"     --7",
        b"      +7",
        b"     7-1",
        b"     1 2",
        b"",
        b"7",
        b"       77",
        b"      7\n",
        b"\t      7",
    ];
    for text in texts {
        printer.read_column_case(text)?;
    }
    let alphabet = b"    -0012359+a\n\x00\xff";
    for _ in 0..300 {
        let mut text: Vec<u8> = format!("{:>8}", random.bits() >> (38 + random.below(26))).into();
        for _ in 0..random.below(3) {
            let place = random.below(text.len() as u64) as usize;
            text[place] = alphabet[random.below(alphabet.len() as u64) as usize];
        }
        printer.read_column_case(&text)?;
    }
    for number in [0, 7, -7, 99_999_999, 100_000_000, -9_999_999, -10_000_000] {
        for length in [0, 7, 8, 9] {
            printer.write_column_case(number, length)?;
        }
    }
    for number in [i64::from(i32::MIN), i64::from(i32::MAX)] {
        printer.write_column_case(number, 8)?;
    }
    for _ in 0..100 {
        let size = (random.bits() >> (36 + random.below(28))) as i64;
        printer.write_column_case(if random.below(2) == 0 { size } else { -size }, 8)?;
    }
    Ok(())
}

fn print_listings<W: Write>(printer: &mut Printer<W>, random: &mut Random) -> Result<()> {
    let zeros = [[0; ORDER_COUNT]; 3];
    for length in [0, LISTING_ROOM - 1, LISTING_ROOM, LISTING_ROOM + 100] {
        printer.listing_case(&zeros, length)?;
        printer.listing_case(&[[u32::MAX; ORDER_COUNT]; 3], length)?;
    }
    for array in 0..3 {
        for place in [0, 1, 39] {
            let mut values = zeros;
            values[array][place] = 1;
            printer.listing_case(&values, LISTING_ROOM)?;
        }
    }
    for _ in 0..10 {
        let mut values = [random_values(random), random_values(random), random_values(random)];
        for place in 0..ORDER_COUNT {
            if random.below(3) == 0 {
                values.iter_mut().for_each(|array| array[place] = 0);
            }
        }
        printer.listing_case(&values, LISTING_ROOM + 3)?;
    }
    Ok(())
}

/// Prints all cases; those that are made at random follow the seed.
pub fn print_vectors(seed: u64, output: impl Write) -> Result<()> {
    let printer = &mut Printer { output, panel: Panel::begin() };
    let random = &mut Random::new(seed);
    for signal in plain_windows().into_iter().chain(seeded_windows(seed)) {
        printer.spectrum_case(&signal, 0, LINE_COUNT)?;
    }
    for system in SYSTEMS {
        for signal in appliances(2 * WINDOW_LENGTH, system, seed) {
            printer.spectrum_case(
                &signal,
                random.below(WINDOW_LENGTH as u64) as usize,
                LINE_COUNT,
            )?;
        }
    }
    print_windows_in_recordings(printer, seed)?;
    print_spectrum_refusals(printer)?;
    print_line_parts(printer, seed)?;
    print_groups(printer, random)?;
    print_distortions(printer, random)?;
    print_records(printer, random, EDITION_2, b'A')?;
    print_record_edges(printer, EDITION_2)?;
    print_observations(printer, seed)?;
    printer.comment("the limit of each order")?;
    print_limits(printer, b'A')?;
    print_verdicts(printer, b'A')?;
    print_columns(printer, random)?;
    print_listings(printer, random)?;
    print_class_b(printer, random)?;
    print_other_letters(printer)?;
    print_edition_a1(printer, random)?;
    print_setups(printer)?;
    print_three_seconds(printer, random, seed)?;
    print_panel_rows(printer)?;
    print_later_windows(printer, seed)?;
    print_unreached_records(printer)
}
