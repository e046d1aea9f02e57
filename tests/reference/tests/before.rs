//! Nothing of before changes. All that stood among the test cases when seven cards had
//! landed stands there still, in the same order, byte for byte as it was; and of it all
//! that stood there before there was a panel's row (document 02, card 6). Of these lines, all that stood there before a record kept its latest rows
//! (card 8) come first; without the words of these rows it is what it was. Of these, all
//! that stood there before there was an edition is under edition 2 (card 7: the others,
//! and all under edition 2, "as now"); without the edition it is what it was. "A class A
//! user sees the verdicts of before" (card 1): of those, the limits and verdicts that
//! stood there before there was a class letter are the first, with the letter A; without
//! it they are what they were.

use reference::vectors::print_vectors;
use reference::words::{LATEST_PLACE, RECORD_WORDS};
use std::sync::LazyLock;

/// How many lines, and the 64-bit FNV-1a digest of their bytes, each line with its
/// newline.
#[derive(Debug, PartialEq)]
struct Digest {
    lines: usize,
    digest: u64,
}

/// Of all lines but comments that `reference vectors 1` printed when cards 1, 2, 6, 7, 8,
/// 13 and 14 had landed.
const SEVEN_CARDS: Digest = Digest { lines: 39_693, digest: 0x3c59_cf65_7a02_bf4c };
/// Of those that it printed before card 6.
const WITHOUT_PANEL: Digest = Digest { lines: 38_411, digest: 0x6009_1828_6e26_340e };
/// Of those that it printed before card 8.
const WITHOUT_LATEST: Digest = Digest { lines: 28_145, digest: 0xf5ce_c8ae_1b50_87d6 };
/// Of those that it printed before card 7.
const WITHOUT_EDITION: Digest = Digest { lines: 18_266, digest: 0x2c7e_1dad_195f_01c2 };
/// Of the lines `limit` and `verdict`, in their order, that `reference vectors 1`
/// printed before card 1: 44 and 1,521.
const JUDGED: Digest = Digest { lines: 1_565, digest: 0x4f3d_3538_fa3b_b2a6 };
/// Of the lines `record` with the record that each of those verdicts is on.
const RECORDS: Digest = Digest { lines: 1_521, digest: 0xcb16_ff36_cab4_54da };

fn fnv_1a(bytes: impl Iterator<Item = u8>) -> u64 {
    bytes.fold(0xcbf2_9ce4_8422_2325, |digest, byte| {
        (digest ^ u64::from(byte)).wrapping_mul(0x100_0000_01b3)
    })
}

fn digest_of(lines: &[String]) -> Digest {
    let bytes = lines.iter().flat_map(|line| line.bytes().chain([b'\n']));
    Digest { lines: lines.len(), digest: fnv_1a(bytes) }
}

fn word_of(line: &str) -> &str {
    line.split(' ').next().expect("a line has a word")
}

/// The number at a place of a line, and the line without it.
fn without(line: &str, place: usize) -> (&str, String) {
    let mut numbers: Vec<&str> = line.split(' ').skip(2).collect();
    let number = numbers.remove(place);
    let rest = format!("{} {} {}", word_of(line), numbers.len(), numbers.join(" "));
    (number, rest)
}

/// The place of the edition among the numbers after a word.
fn edition_place(word: &str) -> Option<usize> {
    match word {
        "fresh_record" | "record" => Some(1),
        "row" | "group_value" | "add_row" => Some(2),
        "observe" => Some(3),
        _ => None,
    }
}

/// A line without the words of the latest rows, which are the last of a record.
fn without_latest(line: &str) -> String {
    if word_of(line) != "record" {
        return line.to_string();
    }
    let numbers: Vec<&str> = line.split(' ').skip(2).collect();
    assert_eq!(numbers.len(), RECORD_WORDS);
    format!("record {LATEST_PLACE} {}", numbers[..LATEST_PLACE].join(" "))
}

/// The lines of when seven cards had landed.
static LINES: LazyLock<Vec<String>> = LazyLock::new(|| {
    let mut output = Vec::new();
    print_vectors(1, &mut output).unwrap();
    let text = String::from_utf8(output).unwrap();
    let is_case = |line: &&str| !line.starts_with('#');
    text.lines().filter(is_case).take(SEVEN_CARDS.lines).map(str::to_string).collect()
});

/// Of these the lines of before card 6, which are those of other calls than the panel's row.
fn lines_without_panel() -> Vec<String> {
    let is_before = |line: &&String| word_of(line) != "panel_row";
    LINES.iter().filter(is_before).take(WITHOUT_PANEL.lines).cloned().collect()
}

/// Of these the lines of before card 8, without the latest rows.
fn lines_without_latest() -> Vec<String> {
    lines_without_panel()
        .iter()
        .take(WITHOUT_LATEST.lines)
        .map(|line| without_latest(line))
        .collect()
}

/// Of these the lines of before card 7, without their edition. A line with another
/// edition than 0 is left out, and so is the distortion directly after a row that is.
fn lines_without_edition() -> Vec<String> {
    let (mut lines, mut after_other_row) = (Vec::new(), false);
    for line in &lines_without_latest() {
        let word = word_of(line);
        let (edition, line) = match edition_place(word) {
            Some(place) => without(line, place),
            None => ("0", line.to_string()),
        };
        if edition == "0" && !(after_other_row && word == "distortion") {
            lines.push(line);
        }
        after_other_row = edition != "0" && word == "row";
    }
    lines.truncate(WITHOUT_EDITION.lines);
    lines
}

#[test]
fn with_seven_cards_all_is_as_before() {
    assert_eq!(digest_of(&LINES), SEVEN_CARDS);
}

#[test]
fn but_for_the_panel_all_is_as_before() {
    assert_eq!(digest_of(&lines_without_panel()), WITHOUT_PANEL);
}

#[test]
fn but_for_the_latest_rows_all_is_as_before() {
    assert_eq!(digest_of(&lines_without_latest()), WITHOUT_LATEST);
}

#[test]
fn under_edition_2_all_is_as_before() {
    assert_eq!(digest_of(&lines_without_edition()), WITHOUT_EDITION);
}

#[test]
fn limits_and_verdicts_of_class_a_are_those_of_before() {
    let (mut judged, mut records, mut record) = (Vec::new(), Vec::new(), String::new());
    for line in lines_without_edition() {
        match word_of(&line) {
            "record" => record = line,
            "limit" | "verdict" if judged.len() < JUDGED.lines => {
                let (class_letter, without_letter) = without(&line, 1);
                assert_eq!(class_letter, "65", "{line}");
                judged.push(without_letter);
                if line.starts_with("verdict") {
                    records.push(record.clone());
                }
            }
            _ => {}
        }
    }
    assert_eq!(digest_of(&judged), JUDGED);
    assert_eq!(digest_of(&records), RECORDS);
}

#[test]
fn digest_is_the_published_one() {
    assert_eq!(fnv_1a("".bytes()), 0xcbf2_9ce4_8422_2325);
    assert_eq!(fnv_1a("a".bytes()), 0xaf63_dc4c_8601_ec8c);
    assert_eq!(fnv_1a("foobar".bytes()), 0x8594_4171_f739_67e8);
}
