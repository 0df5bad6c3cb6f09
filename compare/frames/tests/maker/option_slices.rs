//! The option slices: reproducible, and every listed kind, every refusal and every end occurs.

use frames::{option_edges, OptionSlices};
use oracle::{option, OptionAnswer};
use std::collections::BTreeMap;

/// Counts the oracle's answers to each slice, up to its end or refusal.
fn tally(slices: impl Iterator<Item = Vec<u8>>) -> BTreeMap<String, usize> {
    let mut tally = BTreeMap::new();
    for slice in slices {
        for k in 0.. {
            let answer = option(&slice, k);
            let words = match answer {
                OptionAnswer::Is { kind, size, .. } => match kind {
                    1..=5 | 8 => format!("kind {kind} size {size}"),
                    _ => "unknown".to_string(),
                },
                OptionAnswer::NoMore => "no more".to_string(),
                OptionAnswer::Refused { number, .. } => format!("refused {number}"),
            };
            *tally.entry(words).or_default() += 1;
            if !matches!(answer, OptionAnswer::Is { .. }) {
                break;
            }
        }
    }
    tally
}

fn assert_complete(tally: &BTreeMap<String, usize>) {
    let seen: Vec<&str> = tally.keys().map(String::as_str).collect();
    let want = [
        "kind 1 size 1",
        "kind 2 size 4",
        "kind 3 size 3",
        "kind 4 size 2",
        "kind 5 size 10",
        "kind 5 size 18",
        "kind 5 size 26",
        "kind 5 size 34",
        "kind 8 size 10",
        "no more",
        "refused 10",
        "refused 8",
        "refused 9",
        "unknown",
    ];
    assert_eq!(seen, want);
}

#[test]
fn same_seed_same_slices() {
    let first: Vec<_> = OptionSlices::new(9).take(3_000).collect();
    let again: Vec<_> = OptionSlices::new(9).take(3_000).collect();
    assert_eq!(first, again);
    let other: Vec<_> = OptionSlices::new(10).take(3_000).collect();
    assert_ne!(first, other);
}

#[test]
fn drawn_slices_meet_every_answer() {
    let tally = tally(OptionSlices::new(1).take(30_000));
    println!("30000 option slices, seed 1: {tally:#?}");
    assert_complete(&tally);
}

#[test]
#[cfg_attr(debug_assertions, ignore = "a million slices: run it with --release")]
fn edges_meet_every_answer() {
    let tally = tally(option_edges());
    println!("option edges: {tally:#?}");
    assert_complete(&tally);
}
