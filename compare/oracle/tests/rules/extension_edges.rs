//! The edges of the length tests of every extension header, in every room, and chains of them.

use crate::frames::*;
use oracle::{headers, slice, Entry, IpNumber, Kind, Naming, Reason, Source, Stop};

/// Holds an extension of `length` bytes, whose first test asks for `least`, against its edges.
fn check_edges(kind: Kind, least: usize, header: &[u8], rooms: impl Fn(usize) -> Vec<Room>) {
    let length = header.len();
    for edge in [least, length] {
        for have in [edge - 1, edge, edge + 1] {
            for room in rooms(have) {
                let answer = slice(room.entry, &room.frame);
                let asked = if have < least { least } else { length };
                if have < asked {
                    let want = short(kind, room.at, (asked, have), room.source);
                    assert_eq!(answer, Err(want));
                    continue;
                }
                let sliced = answer.unwrap();
                let extensions = sliced.net.unwrap().extensions;
                assert_eq!(extensions, is(kind, room.at, length).span());
                assert_eq!(sliced.payload.offset, room.at + length);
                assert_eq!(sliced.payload.length, have - length);
                assert_eq!(sliced.naming, Naming::Ip(IpNumber(59)));
                let list = headers(room.entry, &room.frame).unwrap();
                assert_eq!(list.last(), Some(&is(kind, room.at, length)));
            }
        }
    }
}

#[test]
fn raw_extensions() {
    for (number, kind) in [
        (0, Kind::HopByHop),
        (43, Kind::Routing),
        (60, Kind::Destination),
    ] {
        for length_byte in [0, 1, 2, 254, 255] {
            let header = raw(59, length_byte);
            check_edges(kind, 8, &header, |have| ipv6_rooms(number, &header, have));
        }
    }
}

#[test]
fn fragment_headers() {
    for word in [0, 1, 2, 4, 6, 8, 0x8000, 0xFFFF] {
        let header = fragment(59, word);
        check_edges(Kind::Fragment, 8, &header, |have| {
            ipv6_rooms(44, &header, have)
        });
    }
}

#[test]
fn auth_headers() {
    for length_byte in [1, 2, 3, 254, 255] {
        let header = auth(59, length_byte);
        check_edges(Kind::Auth, 12, &header, |have| rooms(51, &header, have));
    }
}

#[test]
fn auth_length_byte_0() {
    let header = auth(59, 0);
    for have in 0..=13 {
        for room in rooms(51, &header, have) {
            let want = if have < 12 {
                short(Kind::Auth, room.at, (12, have), room.source)
            } else {
                refused(Kind::Auth, room.at, Reason::AuthLengthZero)
            };
            assert_eq!(slice(room.entry, &room.frame), Err(want));
        }
    }
}

#[test]
fn fragment_bits() {
    for bit in 0..16 {
        for room in ipv6_rooms(44, &fragment(59, 1 << bit), 8) {
            let sliced = slice(room.entry, &room.frame).unwrap();
            let fragments = bit != 1 && bit != 2;
            assert_eq!(sliced.net.unwrap().fragmented, fragments);
            assert_eq!(sliced.stop.number(), if fragments { 3 } else { 4 });
        }
    }
}

/// Every extension's edges again, as the second one: its offset counts from the frame.
#[test]
fn second_extension() {
    let first = raw(43, 1);
    let chain = join(&[&first, &raw(59, 1)]);
    for (have, asked) in [(7, 8), (8, 16), (15, 16)] {
        for room in ipv6_rooms(60, &chain, 16 + have) {
            let want = short(Kind::Routing, room.at + 16, (asked, have), room.source);
            assert_eq!(slice(room.entry, &room.frame), Err(want));
        }
    }
    for room in ipv6_rooms(60, &chain, 32) {
        let extensions = slice(room.entry, &room.frame).unwrap().net.unwrap();
        assert_eq!(extensions.extensions.length, 32);
    }
}

/// "Later in an IPv6 chain it is refusal 5, before any length test".
#[test]
fn later_hop_by_hop() {
    for (number, first) in [
        (0, raw(0, 0)),
        (43, raw(0, 0)),
        (60, raw(0, 1)),
        (44, fragment(0, 0)),
        (44, fragment(0, 9)),
        (51, auth(0, 1)),
    ] {
        for behind in 0..10 {
            for room in ipv6_rooms(number, &first, first.len() + behind) {
                let at = room.at + first.len();
                let want = refused(Kind::HopByHop, at, Reason::HopByHopNotAtStart);
                assert_eq!(slice(room.entry, &room.frame), Err(want));
            }
        }
    }
}

/// "IPv4 takes only the one AUTH": the other numbers, and a second AUTH, are not opened.
#[test]
fn ipv4_opens_one_auth() {
    for number in [0, 43, 44, 60, 51] {
        let content = auth(number, 1);
        for room in ipv4_rooms(51, &content, 40) {
            let sliced = slice(room.entry, &room.frame).unwrap();
            assert_eq!(sliced.stop, Stop::IpNumberNotOpened);
            assert_eq!(sliced.naming, Naming::Ip(IpNumber(number)));
            assert_eq!(sliced.net.unwrap().extensions.length, 12);
        }
        if number == 51 {
            continue;
        }
        for room in ipv4_rooms(number, &[], 3) {
            let sliced = slice(room.entry, &room.frame).unwrap();
            assert_eq!(sliced.naming, Naming::Ip(IpNumber(number)));
            assert_eq!(sliced.net.unwrap().extensions.length, 0);
        }
    }
}

/// "Protocol 51: one AUTH header is read, fragmented or not."
#[test]
fn fragmented_ipv4_reads_auth() {
    let mut packet = join(&[&ipv4(51, 32), &auth(17, 1)]);
    packet[6] = 0x20;
    let sliced = slice(Entry::Ipv4, &packet).unwrap();
    assert_eq!(sliced.stop, Stop::Fragment);
    assert_eq!(sliced.payload.offset, 32);
    packet[21] = 0;
    let want = refused(Kind::Auth, 20, Reason::AuthLengthZero);
    assert_eq!(slice(Entry::Ipv4, &packet), Err(want));
    packet[21] = 2;
    let want = short(Kind::Auth, 20, (16, 12), Source::Ipv4);
    assert_eq!(slice(Entry::Ipv4, &packet), Err(want));
}

/// "An extension chain may be as long as the frame".
#[test]
fn a_chain_of_half_a_million_bytes() {
    let mut packet = ipv6(60, 0);
    for _ in 0..65_535 {
        packet.extend(raw(60, 0));
    }
    packet.extend(raw(59, 0));
    let list = headers(Entry::Ipv6, &packet).unwrap();
    assert_eq!(list.len(), 1 + 65_536);
    let sliced = slice(Entry::Ipv6, &packet).unwrap();
    assert_eq!(sliced.net.unwrap().extensions.length, 65_536 * 8);
    assert_eq!(sliced.payload.length, 0);
}

/// Every number after every extension: the ones that are read, refusal 5, transport, or a stop.
#[test]
fn every_number_after_an_extension() {
    for number in 0..=255 {
        let chain = join(&[&raw(number, 0), &[0; 7]]);
        for room in ipv6_rooms(43, &chain, chain.len()) {
            let at = room.at + 8;
            let answer = slice(room.entry, &room.frame);
            let lacks = |kind, need| Err(short(kind, at, (need, 7), room.source));
            match number {
                0 => {
                    let reason = Reason::HopByHopNotAtStart;
                    assert_eq!(answer, Err(refused(Kind::HopByHop, at, reason)));
                }
                6 => assert_eq!(answer, lacks(Kind::Tcp, 20)),
                17 => assert_eq!(answer, lacks(Kind::Udp, 8)),
                43 => assert_eq!(answer, lacks(Kind::Routing, 8)),
                44 => assert_eq!(answer, lacks(Kind::Fragment, 8)),
                51 => assert_eq!(answer, lacks(Kind::Auth, 12)),
                60 => assert_eq!(answer, lacks(Kind::Destination, 8)),
                _ => assert_eq!(answer.unwrap().naming, Naming::Ip(IpNumber(number))),
            }
        }
    }
}
