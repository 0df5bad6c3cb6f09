//! The edges of the length tests of the two IP headers at every way to them; their other tests.

use crate::frames::*;
use oracle::{slice, Entry, Kind, Layer, Reason, Source, Stop};

/// An IPv4 header with the given IHL (5 or more), whole.
fn ipv4_long(ihl: u8, protocol: u8, total: usize) -> Vec<u8> {
    let mut header = ipv4(protocol, total);
    header[0] = 0x40 | ihl;
    header.resize(usize::from(ihl) * 4, 0);
    header
}

#[test]
fn ipv4_needs_20() {
    for (entry, front) in ways(Entry::Ipv4) {
        // every other test would fail too, but comes later
        let frame = join(&[&front, &[0; 20]]);
        for have in 0..20 {
            let want = short(Kind::Ipv4, front.len(), (20, have), Source::Slice);
            assert_eq!(slice(entry, &frame[..front.len() + have]), Err(want));
        }
        let want = refused(Kind::Ipv4, front.len(), Reason::Ipv4Version(0));
        assert_eq!(slice(entry, &frame), Err(want));
    }
}

#[test]
fn ipv4_first_byte() {
    for (entry, front) in ways(Entry::Ipv4) {
        for first in 0..=255_u8 {
            let mut header = ipv4(59, 20);
            header[0] = first;
            let frame = join(&[&front, &header]);
            let at = front.len();
            let (version, ihl) = (first >> 4, first & 15);
            let answer = slice(entry, &frame);
            if version != 4 {
                let want = refused(Kind::Ipv4, at, Reason::Ipv4Version(version));
                assert_eq!(answer, Err(want));
            } else if ihl < 5 {
                assert_eq!(answer, Err(refused(Kind::Ipv4, at, Reason::Ihl(ihl))));
            } else if ihl > 5 {
                let need = (usize::from(ihl) * 4, 20);
                assert_eq!(answer, Err(short(Kind::Ipv4, at, need, Source::Slice)));
            } else {
                assert_eq!(answer.unwrap().stop, Stop::IpNumberNotOpened);
            }
        }
    }
}

#[test]
fn ipv4_needs_its_ihl() {
    for (entry, front) in ways(Entry::Ipv4) {
        for ihl in 6..=15 {
            let length = usize::from(ihl) * 4;
            let at = front.len();
            let frame = join(&[&front, &ipv4_long(ihl, 59, length), &[0]]);
            let want = short(Kind::Ipv4, at, (length, length - 1), Source::Slice);
            assert_eq!(slice(entry, &frame[..at + length - 1]), Err(want));
            for more in [0, 1] {
                let sliced = slice(entry, &frame[..at + length + more]).unwrap();
                let net = sliced.net.unwrap();
                assert_eq!(net.header, is(Kind::Ipv4, at, length));
                assert_eq!(net.extensions.offset, at + length);
                assert_eq!(net.extensions.length, 0);
                assert_eq!(sliced.payload.length, 0);
            }
        }
    }
}

#[test]
fn ipv4_total_length() {
    for (entry, front) in ways(Entry::Ipv4) {
        for ihl in 5..=15 {
            let length = usize::from(ihl) * 4;
            let at = front.len();
            for total in [0, 1, 19, length - 1] {
                let frame = join(&[&front, &ipv4_long(ihl, 59, total), &[0; 9]]);
                let want = short_at(Layer::Ipv4Packet, at, (length, total), Source::Ipv4);
                assert_eq!(slice(entry, &frame), Err(want));
            }
            for total in length..=length + 9 {
                let frame = join(&[&front, &ipv4_long(ihl, 59, total), &[0; 9]]);
                let sliced = slice(entry, &frame).unwrap();
                assert_eq!(sliced.payload.offset, at + length);
                assert_eq!(sliced.payload.length, total - length);
            }
            for total in [length + 10, 65_535] {
                let frame = join(&[&front, &ipv4_long(ihl, 59, total), &[0; 9]]);
                let need = (total, length + 9);
                let want = short_at(Layer::Ipv4Packet, at, need, Source::Slice);
                assert_eq!(slice(entry, &frame), Err(want));
            }
        }
    }
}

#[test]
fn ipv4_fragment_bits() {
    for bit in 0..16 {
        let mut packet = ipv4(59, 20);
        packet[6..8].copy_from_slice(&(1_u16 << bit).to_be_bytes());
        let sliced = slice(Entry::Ipv4, &packet).unwrap();
        // bit 15 is reserved, bit 14 is "don't fragment"
        assert_eq!(sliced.net.unwrap().fragmented, bit < 14);
        assert_eq!(sliced.stop.number(), if bit < 14 { 3 } else { 4 });
    }
}

#[test]
fn ipv6_needs_40() {
    for (entry, front) in ways(Entry::Ipv6) {
        let frame = join(&[&front, &[0; 40]]);
        for have in 0..40 {
            let want = short(Kind::Ipv6, front.len(), (40, have), Source::Slice);
            assert_eq!(slice(entry, &frame[..front.len() + have]), Err(want));
        }
    }
}

#[test]
fn ipv6_version() {
    for (entry, front) in ways(Entry::Ipv6) {
        for version in 0..16_u8 {
            let mut header = ipv6(59, 0);
            header[0] = version << 4 | 4;
            let answer = slice(entry, &join(&[&front, &header]));
            if version == 6 {
                assert_eq!(answer.unwrap().stop, Stop::IpNumberNotOpened);
            } else {
                let reason = Reason::Ipv6Version(version);
                assert_eq!(answer, Err(refused(Kind::Ipv6, front.len(), reason)));
            }
        }
    }
}

#[test]
fn ipv6_payload_length() {
    for (entry, front) in ways(Entry::Ipv6) {
        let at = front.len();
        for payload in 1..=9 {
            let frame = join(&[&front, &ipv6(59, payload), &[0; 9]]);
            let sliced = slice(entry, &frame).unwrap();
            assert_eq!(sliced.payload.offset, at + 40);
            assert_eq!(sliced.payload.length, payload);
            assert_eq!(sliced.net.unwrap().extensions.length, 0);
        }
        for payload in [10, 11, 65_535] {
            let frame = join(&[&front, &ipv6(59, payload), &[0; 9]]);
            let need = (40 + payload, 49);
            let want = short_at(Layer::Ipv6Packet, at, need, Source::Slice);
            assert_eq!(slice(entry, &frame), Err(want));
        }
        for there in [0, 1, 9] {
            let frame = join(&[&front, &ipv6(59, 0), &vec![0; there]]);
            assert_eq!(slice(entry, &frame).unwrap().payload.length, there);
        }
    }
}
