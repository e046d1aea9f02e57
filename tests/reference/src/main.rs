//! The command-line program; see the README.

use reference::annex_c::print_comparison;
use reference::exact_group::{GROUP_MARGIN, exact_lines};
use reference::glitch::{
    Moved, WHOLE_RANGE, group_shift, moved, seeded, smoothed_shift, whole_range,
};
use reference::groups::{Kind, group_value};
use reference::harmlist::harmlist;
use reference::inputs::{all_inputs, input_bytes, sample_bytes};
use reference::observation::{Observation, add_row, fresh_record};
use reference::rows::{ORDER_COUNT, Row, Setup};
use reference::signals::{appliances, plain_windows, seeded_windows};
use reference::spectrum::{WINDOW_LENGTH, lines_of};
use reference::table::quarter_wave;
use reference::vectors::print_vectors;
use std::error::Error;
use std::fs;
use std::io::{self, BufReader, BufWriter, Read, Write};
use std::path::Path;

const USAGE: &str = "usage:
  reference harmlist                         listing of the input, as harmlist writes it
  reference tables                           the 513 entries of the sine table
  reference vectors SEED                     test cases with their results
  reference inputs SEED DIRECTORY            inputs of harmlist, each with its output
  reference recording SYSTEM WINDOWS SEED    one long input of harmlist
  reference distances SEED                   greatest distance from the exact groups
  reference glitches SEED                    how far one bad sample moves a value
  reference annex-c                          the examples of IEC 61000-4-7, annex C";

type Outcome = Result<(), Box<dyn Error>>;

/// The listing of standard input.
fn run_harmlist(mut output: impl Write) -> Outcome {
    let mut bytes = BufReader::new(io::stdin().lock()).bytes();
    let mut failure = None;
    // A read that fails ends the input, and is then reported in place of a listing.
    let input = std::iter::from_fn(|| match bytes.next()? {
        Ok(byte) => Some(byte),
        Err(error) => {
            failure = Some(error);
            None
        }
    });
    let listing = harmlist(input);
    match failure {
        Some(error) => Err(error.into()),
        None => Ok(output.write_all(&listing)?),
    }
}

fn print_tables(mut output: impl Write) -> Outcome {
    for (index, entry) in quarter_wave().iter().enumerate() {
        writeln!(output, "{index} {entry}")?;
    }
    Ok(())
}

/// Writes NAME.input and NAME.output for each input.
fn write_inputs(seed: u64, directory: &Path) -> Outcome {
    fs::create_dir_all(directory)?;
    for input in all_inputs(seed) {
        let output = harmlist(input.bytes.iter().copied());
        fs::write(directory.join(format!("{}.input", input.name)), &input.bytes)?;
        fs::write(directory.join(format!("{}.output", input.name)), output)?;
    }
    Ok(())
}

/// An input of so many windows: each appliance for eight windows, in turn.
fn print_recording(system: u64, windows: usize, seed: u64, mut output: impl Write) -> Outcome {
    let stay = 8;
    let sources = appliances(stay * WINDOW_LENGTH, system, seed);
    output.write_all(&input_bytes(system as i64, &[]))?;
    for window in 0..windows {
        let source = &sources[window / stay % sources.len()].samples;
        let samples = &source[window % stay * WINDOW_LENGTH..][..WINDOW_LENGTH];
        output.write_all(&sample_bytes(samples))?;
    }
    Ok(())
}

/// The greatest distance between group value and root of the exact group, in
/// thousandths of a unit, over all kinds, systems, editions and orders of a window.
fn greatest_distance(window: &[i32]) -> u64 {
    let lines = lines_of(window, 0).expect("signals are in range");
    let exact = exact_lines(window);
    let mut greatest = 0;
    for kind in Kind::ALL {
        for setup in Setup::ALL {
            for order in 1..=ORDER_COUNT as u64 {
                let value = group_value(kind, setup, order, &lines).expect("lines are in range");
                let exact_root = exact.group(kind, setup, order).root_in_thousandths();
                greatest = greatest.max(exact_root.abs_diff(1_000 * value));
            }
        }
    }
    greatest
}

fn print_distances(seed: u64, mut output: impl Write) -> Outcome {
    writeln!(output, "units of at most {GROUP_MARGIN}, and the signal")?;
    for signal in plain_windows().into_iter().chain(seeded_windows(seed)) {
        let distance = greatest_distance(&signal.samples) as f64 / 1_000.0;
        writeln!(output, "{distance:.3}  {}", signal.name)?;
    }
    Ok(())
}

/// A record of the setup that holds one window of silence.
fn silent_record(setup: Setup) -> Observation {
    add_row(fresh_record(setup).0, &Row { setup, values: [0; ORDER_COUNT] }).0
}

/// How far each glitch moves a group and a smoothed value, and last the greatest
/// ratio of a group's move to a glitch of the whole range.
fn print_glitches(seed: u64, mut output: impl Write) -> Outcome {
    writeln!(output, "d: units of at most 10×d + 14 that a group moves, units of at most")?;
    writeln!(output, "(10×d + 14)/8.012 that a smoothed value moves, and the glitch")?;
    let mut greatest = 0.0_f64;
    for glitch in whole_range(1..=ORDER_COUNT as u64).iter().chain(&seeded(seed, 5)) {
        let Moved { group, smoothed } = moved(glitch, silent_record);
        let size = glitch.size;
        let allowed = (group_shift(size), smoothed_shift(size));
        let name = &glitch.other.name;
        writeln!(output, "{size}: {group} of {}, {smoothed} of {}, {name}", allowed.0, allowed.1)?;
        if size == WHOLE_RANGE {
            greatest = greatest.max(group as f64 / size as f64);
        }
    }
    writeln!(output, "d = {WHOLE_RANGE}: a group moves by up to {greatest:.6} times d")?;
    Ok(())
}

fn run(arguments: &[&str], output: impl Write) -> Outcome {
    match *arguments {
        ["harmlist"] => run_harmlist(output),
        ["tables"] => print_tables(output),
        ["vectors", seed] => Ok(print_vectors(seed.parse()?, output)?),
        ["inputs", seed, directory] => write_inputs(seed.parse()?, Path::new(directory)),
        ["recording", system, windows, seed] => {
            print_recording(system.parse()?, windows.parse()?, seed.parse()?, output)
        }
        ["distances", seed] => print_distances(seed.parse()?, output),
        ["glitches", seed] => print_glitches(seed.parse()?, output),
        ["annex-c"] => Ok(print_comparison(output)?),
        _ => Err(USAGE.into()),
    }
}

fn main() -> std::process::ExitCode {
    let arguments: Vec<String> = std::env::args().skip(1).collect();
    let words: Vec<&str> = arguments.iter().map(String::as_str).collect();
    let mut output = BufWriter::new(io::stdout().lock());
    let outcome = run(&words, &mut output).and_then(|()| Ok(output.flush()?));
    match outcome {
        Ok(()) => std::process::ExitCode::SUCCESS,
        Err(error) => {
            eprintln!("{error}");
            std::process::ExitCode::FAILURE
        }
    }
}
