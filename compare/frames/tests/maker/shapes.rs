//! The shapes that the drawn frames are meant to have, looked for in the oracle's header lists.

use crate::ask;
use frames::{Entry, Frames};
use oracle::{headers, slice, Header, Kind, Reason};
use std::collections::BTreeSet;

const DRAWN: usize = 100_000;

fn accepted() -> impl Iterator<Item = (Vec<u8>, Vec<Header>)> {
    Frames::new(77).take(DRAWN).filter_map(|(entry, bytes)| {
        let list = headers(ask(entry), &bytes).ok()?;
        Some((bytes, list))
    })
}

fn count(list: &[Header], kind: Kind) -> usize {
    list.iter().filter(|header| header.kind == kind).count()
}

#[test]
fn tags_of_every_count_and_type() {
    let is_tag = |bytes: &[u8]| matches!(bytes, [0x81, 0] | [0x88, 0xA8] | [0x91, 0]);
    let mut counts = BTreeSet::new();
    let mut types = BTreeSet::new();
    for (entry, bytes) in Frames::new(77).take(DRAWN) {
        if entry == Entry::Ethernet && bytes.len() > 40 {
            let tags = bytes[12..].chunks(4).take_while(|tag| is_tag(&tag[..2]));
            counts.insert(tags.clone().count());
            types.extend(tags.map(|tag| [tag[0], tag[1]]));
        }
    }
    assert!((0..=5).all(|tags| counts.contains(&tags)), "{counts:?}");
    assert_eq!(types.len(), 3);
}

#[test]
fn chains_of_every_kind_and_length() {
    let mut longest = 0;
    let mut most_auth = 0;
    let mut lengths = BTreeSet::new();
    for (_, list) in accepted() {
        longest = longest.max(list.len());
        most_auth = most_auth.max(count(&list, Kind::Auth));
        lengths.extend(list.iter().map(|header| (header.kind, header.length)));
    }
    assert!(longest > 5_000, "longest chain {longest}");
    assert!(most_auth > 3);
    for kind in [Kind::HopByHop, Kind::Routing, Kind::Destination] {
        assert!([8, 16, 24, 2_048]
            .iter()
            .all(|&n| lengths.contains(&(kind, n))));
    }
    assert!([12, 16, 1_028]
        .iter()
        .all(|&n| lengths.contains(&(Kind::Auth, n))));
    assert!((5..=15).all(|n| lengths.contains(&(Kind::Ipv4, n * 4))));
    assert!((5..=15).all(|n| lengths.contains(&(Kind::Tcp, n * 4))));
}

/// Two fragment headers in one chain: fragmenting or not, in every order.
#[test]
fn fragment_headers_in_any_order() {
    let mut orders = BTreeSet::new();
    for (bytes, list) in accepted() {
        let fragments = list.iter().filter(|header| header.kind == Kind::Fragment);
        let marks: Vec<bool> = fragments
            .map(|header| bytes[header.offset + 2] != 0 || bytes[header.offset + 3] & 0xF9 != 0)
            .collect();
        if marks.len() == 2 {
            orders.insert(marks);
        }
    }
    assert_eq!(orders.len(), 4);
}

/// Room against frame: lengths exact, padded behind, zero, and a room longer than 65,535.
#[test]
fn rooms() {
    let (mut exact, mut padded, mut zero, mut huge) = (0, 0, 0, 0);
    for (entry, bytes) in Frames::new(77).take(DRAWN) {
        let Ok(sliced) = slice(ask(entry), &bytes) else {
            continue;
        };
        let Some(net) = sliced.net else {
            continue;
        };
        let at = net.header.offset;
        let declared = match net.header.kind {
            Kind::Ipv4 => usize::from(bytes[at + 2]) * 256 + usize::from(bytes[at + 3]),
            _ => 40 + usize::from(bytes[at + 4]) * 256 + usize::from(bytes[at + 5]),
        };
        let there = bytes.len() - at;
        exact += usize::from(declared == there);
        padded += usize::from(declared < there);
        zero += usize::from(declared == 40 && net.header.kind == Kind::Ipv6);
        huge += usize::from(there > 65_575);
    }
    println!("exact {exact}, padded {padded}, payload length 0 {zero}, huge {huge}");
    assert!(exact > 1_000 && padded > 1_000 && zero > 1_000 && huge > 3);
}

#[test]
fn every_refused_value() {
    let mut values = BTreeSet::new();
    for (entry, bytes) in Frames::new(77).take(DRAWN) {
        if let Err(refusal) = slice(ask(entry), &bytes) {
            values.extend(refusal.value().map(|value| (refusal.number(), value)));
            if let Reason::TooShort { required, have, .. } = refusal.reason {
                assert!(required > have);
            }
        }
    }
    assert!((0..16).all(|v| v == 4 || values.contains(&(2, v))));
    assert!((0..5).all(|v| values.contains(&(3, v))));
    assert!((0..16).all(|v| v == 6 || values.contains(&(4, v))));
    assert!((0..5).all(|v| values.contains(&(7, v))));
}
