//! Every name of the wrappers that stands for a number, with its figure. The names are those of
//! `include/kifsang.h`, and so are the words of the refusals.

use kifsang::{Kind, Refusal, Verdict};
use std::collections::BTreeSet;

/// Rows of a name, the number that it stands for, and its figure.
macro_rules! rows {
    ($($name:ident $number:expr, $figure:literal;)*) => {
        [$((stringify!($name), $number as u64, $figure)),*]
    };
}

macro_rules! constants {
    ($($name:ident $figure:literal)*) => { rows! { $($name kifsang::$name, $figure;)* } };
}

macro_rules! refusals {
    ($($name:ident $figure:literal)*) => { rows! { $($name Refusal::$name.0, $figure;)* } };
}

fn fail(what: &str) -> ! {
    eprintln!("{what}");
    std::process::exit(1);
}

/// The line of the header that gives a refusal its name, its number and its words.
fn words_of<'a>(header: &'a str, name: &str, number: u64) -> Option<&'a str> {
    let start = format!("KIFSANG_{name} = {number}");
    let line = header.lines().map(str::trim).find_map(|line| {
        let rest = line.strip_prefix(&start)?;
        rest.trim_start_matches([',', ' ']).strip_prefix("/* ")
    })?;
    line.strip_suffix(" */")
}

pub fn compare() {
    let constants = constants! {
        WINDOW_LENGTH 2048
        LINE_COUNT 512
        LINE_LIMIT 1024
        PANEL_LINES 13
        ORDER_COUNT 40
        UNITS_PER_COUNT 4096
        LARGEST_SAMPLE 131071
        LARGEST_SCALE 268435456
        MOST_WINDOWS 45000
        THREE_SECOND_WINDOWS 15
        COLUMN_WIDTH 8
        LISTING_ROOM 1640
        SMOOTHED_MARGIN 12
        PEAK_PERCENT 150
        CLASS_A 65
        CLASS_B 66
        EDITION_2 0
        EDITION_A1 1
        SYSTEM_PLACE 0
        EDITION_PLACE 1
        WINDOWS_PLACE 2
        SMOOTHED_PLACE 3
        SUM_PLACE 43
        PEAK_PLACE 83
        LATEST_PLACE 123
        RECORD_WORDS 423
    };
    let refusals = refusals! {
        UNKNOWN_SYSTEM 1
        SHORT_WINDOW 2
        SAMPLE_OUT_OF_RANGE 3
        WRONG_LINE_COUNT 4
        LINE_TOO_LARGE 5
        ORDER_OUT_OF_RANGE 6
        UNSOUND_RECORD 7
        OTHER_SETUP 8
        RECORD_FULL 9
        NO_WINDOW 10
        SCALE_OUT_OF_RANGE 11
        NO_FUNDAMENTAL 12
        NOT_A_COLUMN 13
        WRONG_BUFFER_LENGTH 14
        UNKNOWN_CLASS 15
        UNKNOWN_EDITION 19
        TOO_FEW_WINDOWS 20
        UNKNOWN_KIND 101
        WRONG_WORD_COUNT 102
    };
    let cases = rows! {
        COMPONENT Kind::Component, 0;
        HARMONIC_GROUP Kind::HarmonicGroup, 1;
        HARMONIC_SUBGROUP Kind::HarmonicSubgroup, 2;
        INTERHARMONIC_GROUP Kind::InterharmonicGroup, 3;
        INTERHARMONIC_CENTRED_SUBGROUP Kind::InterharmonicCentredSubgroup, 4;
        WITHIN Verdict::Within, 1;
        CLOSE Verdict::Close, 2;
        OVER Verdict::Over, 3;
    };
    let names = || constants.iter().chain(&refusals).chain(&cases);
    for (name, number, figure) in names() {
        if number != figure {
            fail(&format!("{name} is {number} and must be {figure}"));
        }
    }

    let header = std::fs::read_to_string("include/kifsang.h").expect("the header");
    let not_in_a_name = |letter: char| !(letter.is_ascii_alphanumeric() || letter == '_');
    let of_header: BTreeSet<&str> = header
        .split(not_in_a_name)
        .filter_map(|word| word.strip_prefix("KIFSANG_"))
        .filter(|&name| name != "H" && name != "NO_REFUSAL")
        .collect();
    let of_wrappers = names().map(|&(name, ..)| name).collect();
    if let Some(name) = of_header.symmetric_difference(&of_wrappers).next() {
        fail(&format!(
            "{name} has a figure here or stands in the header, not both"
        ));
    }
    for (name, number, _) in refusals {
        let words = Refusal(number as u32).words();
        if words_of(&header, name, number) != Some(words) {
            fail(&format!("{name}: the header does not say {words:?}"));
        }
    }
    println!(
        "{} names of the wrappers, all with their figures",
        names().count()
    );
}
