//! Compares the proved slicer with the oracle and with the crate's shown files, over many frames, and counts.
//!
//!     compare [--seed N] [--frames N] [--drawn] [CAPTURE ..]
//!
//! With --drawn only the drawn frames, options and sums are compared. A capture is a classic pcap file of Ethernet frames. The status is 0 where nothing differs, 1 where something does, 2 for
//! trouble with the words or a file.
#![deny(unsafe_code)]

// the library's functions themselves: what they leave in lent numbers doesn't show through the crate
#[allow(dead_code, unsafe_code)]
#[path = "../../../lib/rust/src/boundary.rs"]
mod boundary;
mod check;
mod handed;
mod ours;
mod pcap;
#[cfg(shown)]
mod shown;
mod sums;
mod tally;

use check::Checker;
use std::time::Instant;
use std::{env, process};

struct Wants {
    seed: u64,
    frames: usize,
    drawn_only: bool,
    captures: Vec<String>,
}

fn main() {
    let wants = wants().unwrap_or_else(|trouble| {
        eprintln!("compare: {trouble}");
        process::exit(2);
    });
    let mut checker = Checker::default();
    let began = Instant::now();
    run(&wants, &mut checker).unwrap_or_else(|trouble| {
        eprintln!("compare: {trouble}");
        process::exit(2);
    });
    println!("{} s", began.elapsed().as_secs());
    process::exit(i32::from(!checker.report(wants.seed)));
}

fn run(wants: &Wants, checker: &mut Checker) -> Result<(), String> {
    if !wants.drawn_only {
        structured(checker);
    }
    checker.begin("drawn frames, valid and damaged");
    let drawn = frames::Frames::new(wants.seed).take(wants.frames);
    drawn.for_each(|(entry, frame)| checker.frame(entry, &frame));
    checker.begin("drawn options slices");
    let slices = frames::OptionSlices::new(wants.seed).take(wants.frames / 5);
    slices.for_each(|bytes| checker.options(&bytes));
    checker.begin("checksums, in one slice and in pieces");
    sums::sums(wants.seed, wants.frames / 20).for_each(|pieces| checker.sum(&pieces));
    for path in &wants.captures {
        checker.begin(path);
        for frame in pcap::frames(path)? {
            checker.frame(frames::Entry::Ethernet, &frame);
        }
    }
    Ok(())
}

/// What can be counted through: short frames and options slices, and those around each test.
fn structured(checker: &mut Checker) {
    checker.begin("every frame of up to 3 bytes, by each entry");
    for (entry, frame) in frames::every_short_frame() {
        checker.frame(entry, &frame);
    }
    checker.begin("structured frames: around every length test, every number");
    frames::edges().for_each(|(entry, frame)| checker.frame(entry, &frame));
    checker.begin("structured frames: every byte of a sample at every value, every cut");
    frames::sweeps().for_each(|(entry, frame)| checker.frame(entry, &frame));
    checker.begin("every options slice of up to 3 bytes");
    frames::every_short().for_each(|bytes| checker.options(&bytes));
    checker.begin("structured options slices");
    frames::option_edges().for_each(|bytes| checker.options(&bytes));
}

fn wants() -> Result<Wants, String> {
    let mut wants = Wants {
        seed: 1,
        frames: 10_000_000,
        drawn_only: false,
        captures: Vec::new(),
    };
    let mut words = env::args().skip(1);
    while let Some(word) = words.next() {
        match word.as_str() {
            "--seed" => wants.seed = number(words.next())?,
            "--drawn" => wants.drawn_only = true,
            "--frames" => wants.frames = number(words.next())?,
            _ if word.starts_with('-') => return Err(format!("{word} isn't a word of mine")),
            _ => wants.captures.push(word),
        }
    }
    Ok(wants)
}

fn number<N: std::str::FromStr>(word: Option<String>) -> Result<N, String> {
    let word = word.ok_or("a number is missing")?;
    word.parse().map_err(|_| format!("{word} is no number"))
}
