//! Demand 3 of the mission, held against the oracle over the made frames.

use crate::ask;
use crate::rules::assert_chain;
use frames::{sweeps, Case, Entry, Frames};
use oracle::{count, header, headers, slice, HeaderAnswer, Kind, Reason};

/// Every answer to one frame hangs together.
fn check(entry: Entry, bytes: &[u8]) {
    let first = match entry {
        Entry::Ethernet => Kind::Ethernet2,
        Entry::Ipv4 => Kind::Ipv4,
        Entry::Ipv6 => Kind::Ipv6,
    };
    let entry = ask(entry);
    match slice(entry, bytes) {
        Ok(sliced) => {
            let list = headers(entry, bytes).unwrap();
            assert_chain(first, bytes, &list, &sliced);
            assert_eq!(count(entry, bytes), Ok(list.len()));
            for k in [0, list.len() / 2, list.len() - 1] {
                assert_eq!(header(entry, bytes, k), HeaderAnswer::Is(list[k]));
            }
            assert_eq!(header(entry, bytes, list.len()), HeaderAnswer::NoMore);
        }
        Err(refusal) => {
            if let Reason::TooShort { required, have, .. } = refusal.reason {
                assert!(required > have);
            }
            assert!(refusal.offset <= bytes.len());
            assert_eq!(count(entry, bytes), Err(refusal));
            for k in [0, 1, usize::MAX] {
                assert_eq!(header(entry, bytes, k), HeaderAnswer::Refused(refusal));
            }
        }
    }
}

/// Where the IP packet's declared length ends, once its header is one that the rules accept and
/// that length is "nonzero, covers that header and fits the frame".
fn declared_end(entry: Entry, bytes: &[u8]) -> Option<usize> {
    let mut at = 0;
    let mut version = if entry == Entry::Ipv4 { 4 } else { 6 };
    if entry == Entry::Ethernet {
        at = 14;
        let name = |at: usize| {
            Some(u16::from_be_bytes([
                *bytes.get(at - 2)?,
                *bytes.get(at - 1)?,
            ]))
        };
        while at < 26 && matches!(name(at)?, 0x8100 | 0x88A8 | 0x9100) {
            at += 4;
        }
        version = match name(at)? {
            0x0800 => 4,
            0x86DD => 6,
            _ => return None,
        };
    }
    let packet = bytes.get(at..)?;
    let field = |at: usize| usize::from(packet[at]) << 8 | usize::from(packet[at + 1]);
    let (least, declared) = match version {
        4 if packet.len() >= 20 => (usize::from(packet[0] & 15) * 4, field(2)),
        6 if packet.len() >= 40 && field(4) != 0 => (40, 40 + field(4)),
        _ => return None,
    };
    let sound = packet[0] >> 4 == version && least >= 20;
    let fits = least <= declared && declared <= packet.len();
    (sound && fits).then_some(at + declared)
}

/// "Bytes past that length, changed, added or taken away, alter no answer and no refusal".
fn check_padding(entry: Entry, bytes: &[u8]) -> bool {
    let Some(end) = declared_end(entry, bytes) else {
        return false;
    };
    let ask = ask(entry);
    let answer = (slice(ask, bytes), headers(ask, bytes));
    let mut other = bytes[..end].to_vec();
    assert_eq!((slice(ask, &other), headers(ask, &other)), answer);
    for padding in [0x00, 0x11, 0xFF] {
        other.truncate(end);
        other.resize(end + 70, padding);
        assert_eq!((slice(ask, &other), headers(ask, &other)), answer);
    }
    true
}

fn check_all(cases: impl Iterator<Item = Case>) {
    let mut padded = 0;
    for (entry, bytes) in cases {
        check(entry, &bytes);
        padded += usize::from(check_padding(entry, &bytes));
    }
    assert!(padded > 1_000);
}

#[test]
fn drawn_frames() {
    check_all(Frames::new(5).take(20_000));
}

#[test]
#[cfg_attr(debug_assertions, ignore = "a million frames: run it with --release")]
fn many_drawn_frames() {
    check_all(Frames::new(6).take(1_000_000));
}

#[test]
#[cfg_attr(debug_assertions, ignore = "millions of frames: run it with --release")]
fn structured_frames() {
    check_all(sweeps());
    check_all(frames::edges());
}
