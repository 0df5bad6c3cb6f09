//! Header k, the list and the count: one chain behind all three, one refusal for every question.

use crate::frames::*;
use oracle::{count, header, headers, slice, Entry, HeaderAnswer, Kind, Source};

/// A frame with every kind of header that one frame can hold.
fn rich() -> Vec<u8> {
    let chain = join(&[
        &raw(43, 0),
        &raw(44, 1),
        &fragment(51, 6),
        &auth(60, 2),
        &raw(6, 0),
        &tcp(7),
    ]);
    join(&[&link(2, 0x86DD), &ipv6(0, chain.len()), &chain])
}

#[test]
fn every_header_once_in_order() {
    let frame = rich();
    let want = [
        is(Kind::Ethernet2, 0, 14),
        is(Kind::Vlan, 14, 4),
        is(Kind::Vlan, 18, 4),
        is(Kind::Ipv6, 22, 40),
        is(Kind::HopByHop, 62, 8),
        is(Kind::Routing, 70, 16),
        is(Kind::Fragment, 86, 8),
        is(Kind::Auth, 94, 16),
        is(Kind::Destination, 110, 8),
        is(Kind::Tcp, 118, 28),
    ];
    assert_eq!(headers(Entry::Ethernet, &frame).unwrap(), want);
    assert_eq!(count(Entry::Ethernet, &frame), Ok(want.len()));
    for (k, one) in want.iter().enumerate() {
        let answer = header(Entry::Ethernet, &frame, k);
        assert_eq!(answer, HeaderAnswer::Is(*one));
    }
    for k in [want.len(), want.len() + 1, usize::MAX] {
        assert_eq!(header(Entry::Ethernet, &frame, k), HeaderAnswer::NoMore);
    }
    let sliced = slice(Entry::Ethernet, &frame).unwrap();
    assert_eq!(sliced.transport, Some(want[9]));
    assert_eq!(sliced.net.unwrap().extensions.length, 56);
}

#[test]
fn a_refused_frame_refuses_every_question() {
    let frame = rich();
    let frame = &frame[..frame.len() - 1];
    let refusal = slice(Entry::Ethernet, frame).unwrap_err();
    assert_eq!(headers(Entry::Ethernet, frame), Err(refusal));
    assert_eq!(count(Entry::Ethernet, frame), Err(refusal));
    for k in [0, 3, 9, 10, usize::MAX] {
        let answer = header(Entry::Ethernet, frame, k);
        assert_eq!(answer, HeaderAnswer::Refused(refusal));
    }
}

#[test]
fn an_empty_frame() {
    for (entry, kind, need) in [
        (Entry::Ethernet, Kind::Ethernet2, 14),
        (Entry::Ipv4, Kind::Ipv4, 20),
        (Entry::Ipv6, Kind::Ipv6, 40),
    ] {
        let want = short(kind, 0, (need, 0), Source::Slice);
        assert_eq!(slice(entry, &[]), Err(want));
    }
}

#[test]
fn ip_entries_have_no_link() {
    let packet = join(&[&ipv4(17, 28), &udp(8)]);
    let sliced = slice(Entry::Ipv4, &packet).unwrap();
    assert_eq!((sliced.link, sliced.tags.len()), (None, 0));
    let want = [is(Kind::Ipv4, 0, 20), is(Kind::Udp, 20, 8)];
    assert_eq!(headers(Entry::Ipv4, &packet).unwrap(), want);
}
