//! Writes the replay list: frames with the oracle's answers, for a program that has no Rust at hand.
//!
//!     replay FILE
//!
//! A case is the entry (1 Ethernet, 2 IPv4, 3 IPv6), the frame's length (two bytes, high byte first), the frame, the answer's length
//! (two bytes) and the answer as document 01's program prints it. The list is the same at each run: it takes the frames of a fixed
//! seed, keeps short ones, and of each class of answer (entry, stop or refusal with layer and source) a fixed number at most.

use std::collections::{HashMap, HashSet};
use std::{env, fs, process};

/// Frames drawn and structured cases looked at.
const SEED: u64 = 20;
const DRAWN: usize = 400_000;
const EVERY: usize = 997;

/// Longer frames are left to the comparison itself.
const LONGEST: usize = 100;

/// Of each class of answer.
const MOST: usize = 24;

fn main() {
    let Some(path) = env::args().nth(1) else {
        eprintln!("replay: name the file to write");
        process::exit(2);
    };
    let mut list = List::default();
    frames::edges()
        .step_by(EVERY)
        .for_each(|(entry, frame)| list.take(entry, frame));
    frames::sweeps()
        .step_by(EVERY)
        .for_each(|(entry, frame)| list.take(entry, frame));
    frames::Frames::new(SEED)
        .take(DRAWN)
        .for_each(|(entry, frame)| list.take(entry, frame));
    if let Err(trouble) = fs::write(&path, &list.bytes) {
        eprintln!("replay: {path}: {trouble}");
        process::exit(2);
    }
    println!(
        "{} cases of {} classes, {} bytes",
        list.cases,
        list.classes.len(),
        list.bytes.len()
    );
}

#[derive(Default)]
struct List {
    bytes: Vec<u8>,
    cases: usize,
    classes: HashMap<String, usize>,
    seen: HashSet<(u8, Vec<u8>)>,
}

impl List {
    fn take(&mut self, entry: frames::Entry, frame: Vec<u8>) {
        let (number, entry) = match entry {
            frames::Entry::Ethernet => (1, oracle::Entry::Ethernet),
            frames::Entry::Ipv4 => (2, oracle::Entry::Ipv4),
            frames::Entry::Ipv6 => (3, oracle::Entry::Ipv6),
        };
        if frame.len() > LONGEST || self.seen.contains(&(number, frame.clone())) {
            return;
        }
        let count = self
            .classes
            .entry(class(number, entry, &frame))
            .or_default();
        if *count == MOST {
            return;
        }
        *count += 1;
        self.cases += 1;
        self.bytes.push(number);
        put(&mut self.bytes, &frame);
        put(&mut self.bytes, oracle::print(entry, &frame).as_bytes());
        self.seen.insert((number, frame));
    }
}

/// What tells answers of one kind from another, without their numbers.
fn class(number: u8, entry: oracle::Entry, frame: &[u8]) -> String {
    match oracle::slice(entry, frame) {
        Ok(sliced) => format!(
            "{number} stop {} {}",
            sliced.stop.number(),
            sliced.tags.len()
        ),
        Err(refusal) => {
            let source = match refusal.reason {
                oracle::Reason::TooShort { source, .. } => source.name(),
                _ => "",
            };
            format!(
                "{number} refused {} {} {source}",
                refusal.number(),
                refusal.layer.name()
            )
        }
    }
}

/// A length in two bytes, then the bytes.
fn put(out: &mut Vec<u8>, bytes: &[u8]) {
    let length = u16::try_from(bytes.len()).expect("short frames have short answers");
    out.extend(length.to_be_bytes());
    out.extend(bytes);
}
