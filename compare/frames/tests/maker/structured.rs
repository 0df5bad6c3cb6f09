//! The structured cases: how many there are, and that they meet every answer.

use crate::ask;
use crate::histogram::{assert_complete, show, tally};
use frames::{edges, every_short, every_short_frame, samples, sweeps, Entry, Short};
use oracle::{slice, Reason};
use std::collections::BTreeSet;

#[test]
fn every_short_slice_once() {
    // the row is ordered by length, then by bytes, so nothing comes twice
    let row: Vec<_> = every_short().take(70_000).collect();
    for two in row.windows(2) {
        let place = |short: &Short| (short.len(), short.to_vec());
        assert!(place(&two[0]) < place(&two[1]));
    }
    assert_eq!(every_short().count(), 1 + 256 + 65_536 + 16_777_216);
    assert_eq!(every_short().last().as_deref(), Some(&[255; 3][..]));
}

#[test]
#[cfg_attr(debug_assertions, ignore = "50 million frames: run it with --release")]
fn every_short_frame_is_refused_at_its_first_header() {
    let mut count = 0_usize;
    for (entry, short) in every_short_frame() {
        let least = match entry {
            Entry::Ethernet => 14,
            Entry::Ipv4 => 20,
            Entry::Ipv6 => 40,
        };
        let refusal = slice(ask(entry), &short).unwrap_err();
        let Reason::TooShort { required, have, .. } = refusal.reason else {
            panic!("{refusal:?}");
        };
        assert_eq!((refusal.offset, required, have), (0, least, short.len()));
        count += 1;
    }
    assert_eq!(count, 3 * 16_843_009);
}

#[test]
fn samples_are_accepted() {
    let stops: BTreeSet<u8> = samples()
        .iter()
        .map(|(entry, bytes)| slice(ask(*entry), bytes).unwrap().stop.number())
        .collect();
    assert_eq!(stops, BTreeSet::from([1, 2, 3, 4, 5]));
}

#[test]
#[cfg_attr(debug_assertions, ignore = "millions of frames: run it with --release")]
fn edges_meet_every_answer() {
    let tally = tally(edges());
    show("edges", &tally);
    assert_complete(&tally);
}

#[test]
#[cfg_attr(debug_assertions, ignore = "a million frames: run it with --release")]
fn sweeps_meet_every_stop() {
    let tally = tally(sweeps());
    show("sweeps", &tally);
    for number in 1..=5 {
        let name = format!("stop {number}");
        assert!(tally.keys().any(|(_, words)| *words == name));
    }
}
