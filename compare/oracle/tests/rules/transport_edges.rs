//! The edges of the length tests of UDP and TCP, in every room.

use crate::frames::*;
use oracle::{slice, IpNumber, Kind, Layer, Naming, Reason, Source, Stop};

#[test]
fn udp_needs_8() {
    for have in 0..8 {
        // the length byte would be refused too, but comes later
        for room in rooms(17, &udp(1), have) {
            let want = short(Kind::Udp, room.at, (8, have), room.source);
            assert_eq!(slice(room.entry, &room.frame), Err(want));
        }
    }
    for have in [8, 9] {
        for room in rooms(17, &udp(8), have) {
            let sliced = slice(room.entry, &room.frame).unwrap();
            assert_eq!(sliced.transport, Some(is(Kind::Udp, room.at, 8)));
            assert_eq!(sliced.payload.offset, room.at + 8);
            assert_eq!(sliced.payload.length, 0);
            assert_eq!(sliced.naming, Naming::Ip(IpNumber(17)));
            assert_eq!(sliced.stop, Stop::TransportRead);
        }
    }
}

#[test]
fn udp_length_of_1_to_7() {
    for length in 1..8 {
        for have in [8, 9, 30] {
            for room in rooms(17, &udp(length), have) {
                let want = short(Kind::Udp, room.at, (8, length), Source::Udp);
                assert_eq!(slice(room.entry, &room.frame), Err(want));
            }
        }
    }
}

#[test]
fn udp_length_of_0_takes_the_rest() {
    for have in [8, 9, 30] {
        for room in rooms(17, &udp(0), have) {
            let sliced = slice(room.entry, &room.frame).unwrap();
            assert_eq!(sliced.payload.offset, room.at + 8);
            assert_eq!(sliced.payload.length, have - 8);
        }
    }
}

#[test]
fn udp_length_must_fit() {
    for have in [8, 9, 30] {
        for length in 8..=have {
            for room in rooms(17, &udp(length), have) {
                let sliced = slice(room.entry, &room.frame).unwrap();
                assert_eq!(sliced.payload.offset, room.at + 8);
                assert_eq!(sliced.payload.length, length - 8);
            }
        }
        for length in [have + 1, have + 9, have + 10, 65_535] {
            for room in rooms(17, &udp(length), have) {
                let need = (length, have);
                let want = short_at(Layer::UdpPayload, room.at, need, room.source);
                assert_eq!(slice(room.entry, &room.frame), Err(want));
            }
        }
    }
}

#[test]
fn tcp_needs_20() {
    for have in 0..20 {
        // a data offset of 0 would be refused too, but comes later
        for room in rooms(6, &tcp(0), have) {
            let want = short(Kind::Tcp, room.at, (20, have), room.source);
            assert_eq!(slice(room.entry, &room.frame), Err(want));
        }
    }
}

#[test]
fn tcp_data_offset() {
    for data_offset in 0..16 {
        let length = usize::from(data_offset) * 4;
        for have in [
            20,
            21,
            length.max(21) - 1,
            length.max(20),
            length.max(20) + 1,
        ] {
            for room in rooms(6, &tcp(data_offset), have) {
                let answer = slice(room.entry, &room.frame);
                if data_offset < 5 {
                    let reason = Reason::TcpDataOffset(data_offset);
                    assert_eq!(answer, Err(refused(Kind::Tcp, room.at, reason)));
                } else if have < length {
                    let want = short(Kind::Tcp, room.at, (length, have), room.source);
                    assert_eq!(answer, Err(want));
                } else {
                    let sliced = answer.unwrap();
                    assert_eq!(sliced.transport, Some(is(Kind::Tcp, room.at, length)));
                    assert_eq!(sliced.payload.offset, room.at + length);
                    assert_eq!(sliced.payload.length, have - length);
                    assert_eq!(sliced.naming, Naming::Ip(IpNumber(6)));
                    assert_eq!(sliced.stop, Stop::TransportRead);
                }
            }
        }
    }
}

/// Only the high four bits of byte 12 count.
#[test]
fn tcp_reserved_bits_are_not_read() {
    let mut header = tcp(5);
    header[12] |= 0x0F;
    for room in rooms(6, &header, 20) {
        let sliced = slice(room.entry, &room.frame).unwrap();
        assert_eq!(sliced.transport, Some(is(Kind::Tcp, room.at, 20)));
    }
}

/// The same length test under a UDP and a TCP behind AUTH, whose room AUTH shares.
#[test]
fn transport_behind_auth() {
    for (number, kind, need) in [(17, Kind::Udp, 8), (6, Kind::Tcp, 20)] {
        let header = auth(number, 2);
        for room in rooms(51, &header, 16 + need - 1) {
            let want = short(kind, room.at + 16, (need, need - 1), room.source);
            assert_eq!(slice(room.entry, &room.frame), Err(want));
        }
    }
}
