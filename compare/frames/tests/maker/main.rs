//! The tests of the frame maker, with the oracle as judge of what it made.

mod chains;
mod histogram;
mod option_slices;
mod rules;
mod shapes;
mod structured;

use frames::Frames;

/// The oracle's name for an entry.
pub fn ask(entry: frames::Entry) -> oracle::Entry {
    match entry {
        frames::Entry::Ethernet => oracle::Entry::Ethernet,
        frames::Entry::Ipv4 => oracle::Entry::Ipv4,
        frames::Entry::Ipv6 => oracle::Entry::Ipv6,
    }
}

#[test]
fn same_seed_same_frames() {
    let first: Vec<_> = Frames::new(14).take(5_000).collect();
    let again: Vec<_> = Frames::new(14).take(5_000).collect();
    assert_eq!(first, again);
    let other: Vec<_> = Frames::new(15).take(5_000).collect();
    assert_ne!(first, other);
}
