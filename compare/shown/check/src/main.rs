//! Compares etherparse's shown files with the oracle: bench frames, known rows, many frames.
//!
//! `shown_check [FRAMES [SEED]]`: 200,000 frames and option slices of seed 1 where nothing is said.
//! The status is 0 exactly when each row came out as listed and no other difference was met.
#![forbid(unsafe_code)]

mod bench;
mod checksums;
mod counts;
mod differences;
mod options;
mod parts;
mod rows;
mod same;

use std::process::ExitCode;

fn main() -> ExitCode {
    let mut words = std::env::args().skip(1);
    let mut number = |default: u64| match words.next() {
        Some(word) => word
            .parse()
            .unwrap_or_else(|_| panic!("{word} is no number")),
        None => default,
    };
    let (frames, seed) = (number(200_000) as usize, number(1));

    let mut faults = rows::show("Document 01's frames", &bench::rows());
    faults += bench::program();
    faults += rows::show("The same, as far as shown", &same::rows());
    faults += rows::show("Differences on the frames' path", &differences::rows());
    faults += differences::raw_only();
    faults += options::show();
    faults += checksums::show();
    faults += counts::show(frames, seed);
    faults += options::count(frames, seed);
    faults += checksums::count(frames, seed);
    println!("\n{faults} not as listed");
    match faults {
        0 => ExitCode::SUCCESS,
        _ => ExitCode::FAILURE,
    }
}
