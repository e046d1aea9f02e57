//! Inputs of `harmlist` by name: recordings of the signals, and inputs with one
//! fault or more. Another program's output for each can then be compared with
//! that of [`crate::harmlist::harmlist`].

use crate::random::Random;
use crate::signals::{Signal, appliances, constant, plain_windows, seeded_windows};
use crate::spectrum::WINDOW_LENGTH;

/// A named input.
pub struct Input {
    /// A name that serves as a file's.
    pub name: String,
    /// The bytes.
    pub bytes: Vec<u8>,
}

/// The lines of samples.
pub fn sample_bytes(samples: &[i32]) -> Vec<u8> {
    samples.iter().flat_map(|sample| format!("{sample:8}\n").into_bytes()).collect()
}

/// The bytes of an input with the system and samples.
pub fn input_bytes(system: i64, samples: &[i32]) -> Vec<u8> {
    let mut bytes = format!("{system:8}\n").into_bytes();
    bytes.extend(sample_bytes(samples));
    bytes
}

fn input(name: &str, bytes: Vec<u8>) -> Input {
    Input { name: name.to_string(), bytes }
}

/// A file's name for a signal: its own with `_` for blanks.
fn file_name(system: u64, signal: &Signal) -> String {
    format!("{system}_{}", signal.name.replace(' ', "_"))
}

/// Whole recordings of both systems.
fn recordings(seed: u64) -> Vec<Input> {
    let mut inputs = Vec::new();
    for system in [10, 12] {
        let long = appliances(6 * WINDOW_LENGTH, system, seed);
        let short = plain_windows().into_iter().chain(seeded_windows(seed));
        for signal in short.chain(long) {
            let bytes = input_bytes(system as i64, &signal.samples);
            inputs.push(Input { name: file_name(system, &signal), bytes });
        }
    }
    inputs
}

/// Inputs whose lines are right but whose numbers or count of lines are not.
fn refused_numbers() -> Vec<Input> {
    let zeros = |length| constant(length, 0).samples;
    let with = |place: usize, sample: i32| {
        let mut samples = zeros(2 * WINDOW_LENGTH);
        samples[place] = sample;
        input_bytes(10, &samples)
    };
    let mut inputs = vec![
        input("no_sample", input_bytes(10, &[])),
        input("one_sample", input_bytes(12, &[1])),
        input("one_sample_short", input_bytes(10, &zeros(WINDOW_LENGTH - 1))),
        input("second_window_short", input_bytes(10, &zeros(WINDOW_LENGTH + 1))),
        input("sample_above_range_first", with(0, 131_072)),
        input("sample_above_range_last", with(2 * WINDOW_LENGTH - 1, 131_072)),
        input("sample_below_range", with(WINDOW_LENGTH, -131_072)),
        input("samples_at_range_ends", with(WINDOW_LENGTH, -131_071)),
    ];
    for system in [0, 1, 9, 11, 13, -10, 99_999_999] {
        let name = format!("system_{system}");
        inputs.push(input(&name, input_bytes(system, &zeros(WINDOW_LENGTH))));
    }
    inputs
}

/// Inputs with a line that is not a column and a newline.
fn refused_lines() -> Vec<Input> {
    let good = input_bytes(10, &constant(WINDOW_LENGTH, 500).samples);
    let joined = |parts: &[&[u8]]| parts.concat();
    vec![
        input("empty", Vec::new()),
        input("only_newline", b"\n".to_vec()),
        input("system_without_newline", b"      10".to_vec()),
        input("system_short_column", joined(&[b"10\n", &good[9..]])),
        input("return_before_each_newline", with_returns(&good)),
        input("system_and_return", joined(&[b"      10\r\n", &good[9..]])),
        input("wrong_system_without_newline", b"      11".to_vec()),
        input("wrong_system_then_wrong_line", b"      11\nx\n".to_vec()),
        input("last_newline_missing", good[..good.len() - 1].to_vec()),
        input("empty_line_at_end", joined(&[&good, b"\n"])),
        input("bytes_after_last_line", joined(&[&good, b"     "])),
        input("leading_zero", joined(&[&good, b"      07\n"])),
        input("minus_zero", joined(&[&good, b"      -0\n"])),
        input("two_newlines_in_nine_bytes", joined(&[&good, b"      7\n\n"])),
        input("wide_line", joined(&[&good, b"        7\n"])),
        input("out_of_range_without_newline", joined(&[&good, b"  131072"])),
        input("out_of_range_then_wrong_line", joined(&[&good, b"  131072\nx\n"])),
        input("wrong_line_then_out_of_range", joined(&[&good, b"x\n  131072\n"])),
        input("bytes_that_are_not_text", vec![0xff; 90]),
    ]
}

/// The same with a carriage return before each newline.
fn with_returns(bytes: &[u8]) -> Vec<u8> {
    let ends = |byte: &u8| if *byte == b'\n' { b"\r\n".to_vec() } else { vec![*byte] };
    bytes.iter().flat_map(ends).collect()
}

/// A good input with a few bytes changed, dropped or doubled.
fn damaged(random: &mut Random) -> Vec<u8> {
    let mut bytes = input_bytes(12, &constant(WINDOW_LENGTH, -7).samples);
    for _ in 0..1 + random.below(3) {
        let place = random.below(bytes.len() as u64) as usize;
        match random.below(4) {
            0 => drop(bytes.remove(place)),
            1 => bytes.insert(place, bytes[place]),
            2 => bytes.truncate(place),
            _ => bytes[place] = b" -0123456789\n\r"[random.below(14) as usize],
        }
        if bytes.is_empty() {
            break;
        }
    }
    bytes
}

/// All inputs; those made at random follow the seed.
pub fn all_inputs(seed: u64) -> Vec<Input> {
    let mut random = Random::new(seed);
    let mut inputs = recordings(seed);
    inputs.extend(refused_numbers());
    inputs.extend(refused_lines());
    for number in 0..60 {
        inputs.push(input(&format!("damaged_{number}"), damaged(&mut random)));
    }
    inputs
}
