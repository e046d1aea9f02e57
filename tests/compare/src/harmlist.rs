//! The built program `harmlist` against the second program, byte for byte. tests/edges has the inputs
//! and outputs that are no plain files.

use crate::Tally;
use reference::harmlist::harmlist;
use reference::inputs::{all_inputs, input_bytes};
use reference::random::Random;
use reference::signals;
use std::io::Write;
use std::process::{Command, Stdio};

/// What the built program writes for an input.
fn written(program: &str, input: &[u8]) -> Vec<u8> {
    let mut child = Command::new(program)
        .stdin(Stdio::piped())
        .stdout(Stdio::piped())
        .spawn()
        .expect("harmlist starts");
    let mut stdin = child.stdin.take().expect("its standard input");
    let bytes = input.to_vec();
    // The program stops reading at a refusal, so that a write may find the pipe closed.
    let writer = std::thread::spawn(move || stdin.write_all(&bytes).is_ok());
    let output = child.wait_with_output().expect("harmlist ends");
    writer.join().expect("the writer ends");
    assert!(output.status.success(), "harmlist ends in order");
    output.stdout
}

fn compare_input(tally: &mut Tally, program: &str, name: &str, input: &[u8]) {
    let expected = harmlist(input.iter().copied());
    let core = written(program, input);
    let text = |bytes: &[u8]| String::from_utf8_lossy(bytes).into_owned();
    tally.same(name, text(&core), text(&expected));
}

/// Lines that are right, out of range, or no column and a newline.
const LINES: [&[u8]; 19] = [
    b"     500\n",
    b"      10\n",
    b"      11\n",
    b"  131071\n",
    b" -131071\n",
    b"  131072\n",
    b" -131072\n",
    b"99999999\n",
    b"-9999999\n",
    b"      +7\n",
    b"      7\n",
    b"        7\n",
    b"      07\n",
    b"      -0\n",
    b"     \t7\n",
    b"       7\r\n",
    b"     \xc3\xa97\n",
    b"      \x007\n",
    b"       7",
];

/// Each pair of lines on neighbouring lines: the system's and the first sample's, two of one window,
/// the last of a window and the first of the next.
fn compare_pairs(tally: &mut Tally, program: &str) {
    let samples = |count| b"     500\n".repeat(count);
    for first in LINES {
        for second in LINES {
            for before in [0, 1, 2048] {
                let mut input = Vec::new();
                if before > 0 {
                    input.extend_from_slice(b"      12\n");
                    input.extend(samples(before - 1));
                }
                input.extend_from_slice(first);
                input.extend_from_slice(second);
                let name = format!("a pair of lines after {before}");
                compare_input(tally, program, &name, &input);
                input.extend(samples(2048));
                compare_input(tally, program, &name, &input);
            }
        }
    }
}

/// A valid input of one window with some of its bytes changed.
fn edited(random: &mut Random, valid: &[u8]) -> Vec<u8> {
    let mut bytes = valid.to_vec();
    for _ in 0..1 + random.below(3) {
        let place = random.below(bytes.len() as u64) as usize;
        match random.below(5) {
            0 => drop(bytes.remove(place)),
            1 => bytes.insert(place, random.bits() as u8),
            2 => bytes.truncate(place.max(1)),
            3 => bytes[place] = random.bits() as u8,
            _ => bytes[place] = b" -0123456789\n"[random.below(13) as usize],
        }
    }
    bytes
}

pub fn compare(tally: &mut Tally, program: &str, seed: u64) {
    for input in all_inputs(seed) {
        compare_input(tally, program, &input.name, &input.bytes);
    }
    for name in ["heater_passes", "supply_fails", "dimmer"] {
        let recording = std::fs::read(format!("examples/recordings/{name}.txt"));
        compare_input(tally, program, name, &recording.expect("the recording"));
    }
    let mut random = Random::new(seed ^ 0x4A12);

    compare_pairs(tally, program);

    // A small recording: cut at every place, edited at random.
    let valid = input_bytes(12, &signals::noise(2048, 131_071, seed).samples);
    for length in 0..=valid.len() {
        compare_input(
            tally,
            program,
            &format!("the first {length} bytes"),
            &valid[..length],
        );
    }
    for number in 0..3000 {
        let input = edited(&mut random, &valid);
        compare_input(tally, program, &format!("edit {number}"), &input);
    }

    // A long recording: appliances one after the other, so that smoothing matters.
    let mut samples = Vec::new();
    while samples.len() < 2000 * 2048 {
        for signal in signals::appliances(37 * 2048, 10, random.bits()) {
            samples.extend(signal.samples);
        }
    }
    samples.truncate(2000 * 2048);
    compare_input(tally, program, "2,000 windows", &input_bytes(10, &samples));
}
