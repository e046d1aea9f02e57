//! The program `harmlist`: its listing over several windows, each fault, and
//! that the first fault in input order decides.

use reference::groups::{Kind, group_row};
use reference::harmlist::harmlist;
use reference::inputs::{all_inputs, input_bytes};
use reference::listing::listing_text;
use reference::observation::{add_row, fresh_record};
use reference::rows::Setup;
use reference::signals::{constant, microwave_oven};
use reference::spectrum::{WINDOW_LENGTH, lines_of};

fn output(input: Vec<u8>) -> String {
    String::from_utf8(harmlist(input.into_iter())).unwrap()
}

/// A good input of one window with some bytes after it.
fn one_window_and(rest: &[u8]) -> Vec<u8> {
    [&input_bytes(10, &[500; WINDOW_LENGTH]), rest].concat()
}

#[test]
fn groups_are_the_last_windows_and_smoothed_that_of_all() {
    let samples = microwave_oven(5 * WINDOW_LENGTH, 12, 100_000.0, 17, 9).samples;
    let setup = Setup::edition_2(12);
    let (mut record, _) = fresh_record(setup);
    let mut last = ([0; 40], [0; 40]);
    for window in samples.chunks(WINDOW_LENGTH) {
        let lines = lines_of(window, 0).unwrap();
        let group = group_row(Kind::HarmonicGroup, setup, &lines).unwrap();
        last = (group.values, group_row(Kind::HarmonicSubgroup, setup, &lines).unwrap().values);
        record = add_row(record, &group).0;
    }
    let smoothed = record.smoothed.map(|value| value as u32);
    let expected = listing_text(&last.0, &last.1, &smoothed);
    assert_eq!(harmlist(input_bytes(12, &samples).into_iter()), expected);
}

#[test]
fn each_fault_has_its_number() {
    let short = [0; WINDOW_LENGTH - 1];
    let above = [131_072; 1];
    for (input, expected) in [
        (Vec::new(), "refused 13\n"),
        (b"\n".to_vec(), "refused 13\n"),
        (b"      10".to_vec(), "refused 13\n"),
        (b"10\n".to_vec(), "refused 13\n"),
        (b"      10\r\n".to_vec(), "refused 13\n"),
        (input_bytes(11, &[]), "refused  1\n"),
        (input_bytes(-10, &[]), "refused  1\n"),
        (input_bytes(99_999_999, &[]), "refused  1\n"),
        (input_bytes(12, &[]), "refused 10\n"),
        (input_bytes(12, &[0]), "refused  2\n"),
        (input_bytes(12, &short), "refused  2\n"),
        (input_bytes(12, &above), "refused  3\n"),
        (one_window_and(b"      -1\n"), "refused  2\n"),
        (one_window_and(b"      -1"), "refused 13\n"),
        (one_window_and(b"\n"), "refused 13\n"),
        (one_window_and(b" -131072\n"), "refused  3\n"),
    ] {
        assert_eq!(output(input.clone()), expected, "{:?}", String::from_utf8_lossy(&input));
    }
}

#[test]
fn first_fault_in_input_order_decides() {
    for (input, expected) in [
        // Two on one line: 13 before 1, and 13 before 3.
        (b"      11".to_vec(), "refused 13\n"),
        (one_window_and(b"  131072"), "refused 13\n"),
        // An earlier line before a later one, and before the end.
        (b"      11\nx\n".to_vec(), "refused  1\n"),
        (b"      11\n  131072\n".to_vec(), "refused  1\n"),
        (one_window_and(b"  131072\nx\n"), "refused  3\n"),
        (one_window_and(b"x\n  131072\n"), "refused 13\n"),
        (one_window_and(b"  131072\n       1"), "refused  3\n"),
        (input_bytes(11, &[1]), "refused  1\n"),
    ] {
        assert_eq!(output(input.clone()), expected, "{:?}", String::from_utf8_lossy(&input));
    }
}

/// An input of the system line and so many lines of 0, and some bytes after.
fn zero_lines(count: usize, rest: &'static [u8]) -> impl Iterator<Item = u8> {
    let zeros = b"       0\n".iter().copied().cycle().take(9 * count);
    b"      10\n".iter().copied().chain(zeros).chain(rest.iter().copied())
}

#[test]
fn window_45001_is_refused_at_its_last_line() {
    let all_but_last = 45_001 * WINDOW_LENGTH - 1;
    assert_eq!(harmlist(zero_lines(all_but_last, b"       0\nx")), b"refused  9\n");
}

#[test]
#[ignore = "reads 800 megabytes"]
fn last_line_of_window_45001_may_have_an_earlier_fault() {
    let all_but_last = 45_001 * WINDOW_LENGTH - 1;
    assert_eq!(harmlist(zero_lines(all_but_last, b"  131072\n")), b"refused  3\n");
}

#[test]
#[ignore = "reads 800 megabytes"]
fn window_45000_is_taken() {
    let expected = output(input_bytes(10, &constant(WINDOW_LENGTH, 0).samples));
    assert_eq!(harmlist(zero_lines(45_000 * WINDOW_LENGTH, b"")), expected.into_bytes());
}

#[test]
fn every_named_input_has_an_output_of_one_of_the_two_forms() {
    let mut names = std::collections::BTreeSet::new();
    for input in all_inputs(1) {
        let text = output(input.bytes);
        let is_listing = text.starts_with("  h       group    subgroup    smoothed\n  1 ");
        let is_refusal = text.starts_with("refused ") && text.len() == 11;
        assert!(is_listing != is_refusal, "{}", input.name);
        assert!(names.insert(input.name), "a name stands twice");
    }
}
