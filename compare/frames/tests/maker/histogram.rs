//! What the oracle says to 100,000 drawn frames: every stop and refusal occurs, at every entry.

use crate::ask;
use frames::{Case, Entry, Frames};
use oracle::{slice, Reason, Refusal, Sliced};
use std::collections::{BTreeMap, BTreeSet};

/// How often each answer came, by entry.
pub type Tally = BTreeMap<(Entry, String), usize>;

/// The answers of the link layer.
const LINK: [&str; 4] = [
    "stop 1",
    "stop 2",
    "refusal 1 ethernet2 slice",
    "refusal 1 vlan slice",
];

/// The answers of an IPv4 packet.
const IPV4: [&str; 15] = [
    "stop 3",
    "stop 4",
    "stop 5",
    "refusal 1 ipv4 slice",
    "refusal 1 ipv4-packet ipv4",
    "refusal 1 ipv4-packet slice",
    "refusal 1 auth ipv4",
    "refusal 1 udp ipv4",
    "refusal 1 udp udp",
    "refusal 1 udp-payload ipv4",
    "refusal 1 tcp ipv4",
    "refusal 2 ipv4",
    "refusal 3 ipv4",
    "refusal 6 auth",
    "refusal 7 tcp",
];

/// The answers of an IPv6 packet.
const IPV6: [&str; 26] = [
    "stop 3",
    "stop 4",
    "stop 5",
    "refusal 1 ipv6 slice",
    "refusal 1 ipv6-packet slice",
    "refusal 1 hop-by-hop ipv6",
    "refusal 1 hop-by-hop slice",
    "refusal 1 routing ipv6",
    "refusal 1 routing slice",
    "refusal 1 destination ipv6",
    "refusal 1 destination slice",
    "refusal 1 fragment ipv6",
    "refusal 1 fragment slice",
    "refusal 1 auth ipv6",
    "refusal 1 auth slice",
    "refusal 1 udp ipv6",
    "refusal 1 udp slice",
    "refusal 1 udp udp",
    "refusal 1 udp-payload ipv6",
    "refusal 1 udp-payload slice",
    "refusal 1 tcp ipv6",
    "refusal 1 tcp slice",
    "refusal 4 ipv6",
    "refusal 5 hop-by-hop",
    "refusal 6 auth",
    "refusal 7 tcp",
];

/// Every answer that document 01 lets an entry give, and no other.
pub fn possible() -> BTreeSet<(Entry, String)> {
    [
        (Entry::Ethernet, &LINK[..]),
        (Entry::Ethernet, &IPV4),
        (Entry::Ethernet, &IPV6),
        (Entry::Ipv4, &IPV4),
        (Entry::Ipv6, &IPV6),
    ]
    .into_iter()
    .flat_map(|(entry, names)| names.iter().map(move |name| (entry, name.to_string())))
    .collect()
}

/// An answer in a few words: its number and, for a refusal, layer and source.
fn words(answer: &Result<Sliced, Refusal>) -> String {
    match answer {
        Ok(sliced) => format!("stop {}", sliced.stop.number()),
        Err(refusal) => {
            let words = format!("refusal {} {}", refusal.number(), refusal.layer.name());
            match refusal.reason {
                Reason::TooShort { source, .. } => format!("{words} {}", source.name()),
                _ => words,
            }
        }
    }
}

/// Counts the oracle's answers.
pub fn tally(cases: impl Iterator<Item = Case>) -> Tally {
    let mut tally = Tally::new();
    for (entry, bytes) in cases {
        let words = words(&slice(ask(entry), &bytes));
        *tally.entry((entry, words)).or_default() += 1;
    }
    tally
}

/// Prints a tally: an answer to a line, a column for each entry.
pub fn show(title: &str, tally: &Tally) {
    let rows: BTreeSet<&String> = tally.keys().map(|(_, words)| words).collect();
    let total: usize = tally.values().sum();
    println!("{title}: {total} frames\n{:32}ethernet    ipv4    ipv6", "");
    for words in rows {
        let of = |entry| tally.get(&(entry, words.clone())).copied().unwrap_or(0);
        let [link, ipv4, ipv6] = Entry::ALL.map(of);
        println!("{words:32}{link:8}{ipv4:8}{ipv6:8}");
    }
}

/// Asserts that a tally holds exactly the possible answers.
pub fn assert_complete(tally: &Tally) {
    let seen: BTreeSet<_> = tally.keys().cloned().collect();
    let possible = possible();
    let missing: Vec<_> = possible.difference(&seen).collect();
    let strange: Vec<_> = seen.difference(&possible).collect();
    assert!(missing.is_empty(), "never seen: {missing:?}");
    assert!(strange.is_empty(), "not possible: {strange:?}");
}

#[test]
fn every_answer_in_100_000_frames() {
    let tally = tally(Frames::new(1).take(100_000));
    show("drawn, seed 1", &tally);
    assert_complete(&tally);
}

#[test]
fn every_answer_from_other_seeds() {
    for seed in [2, 3, 0xFFFF_FFFF_FFFF_FFFF] {
        assert_complete(&tally(Frames::new(seed).take(100_000)));
    }
}
