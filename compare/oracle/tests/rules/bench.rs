//! F1 to F9 of "Frames from the bench"; F10 and F11 stand with the checksum, F12 with the text.

use crate::frames::*;
use oracle::{slice, Entry, EtherType, IpNumber, Kind, Layer, Naming, Reason, Source, Span, Stop};

const ETH: Entry = Entry::Ethernet;

/// An untagged Ethernet frame of IPv4, total length as given.
fn over_ipv4(protocol: u8, total: usize, content: &[u8]) -> Vec<u8> {
    join(&[&link(0, 0x0800), &ipv4(protocol, total), content])
}

/// An untagged Ethernet frame of IPv6, payload length as given.
fn over_ipv6(next: u8, payload: usize, content: &[u8]) -> Vec<u8> {
    join(&[&link(0, 0x86DD), &ipv6(next, payload), content])
}

#[test]
fn f1() {
    let want = short(Kind::Ethernet2, 0, (14, 13), Source::Slice);
    assert_eq!(slice(ETH, &[0; 13]), Err(want));

    let sliced = slice(ETH, &link(0, 0x0806)).unwrap();
    assert_eq!(sliced.link, Some(is(Kind::Ethernet2, 0, 14).span()));
    assert_eq!(sliced.tags, []);
    assert_eq!(sliced.net, None);
    assert_eq!(sliced.transport, None);
    assert_eq!((sliced.payload.offset, sliced.payload.length), (14, 0));
    assert_eq!(sliced.naming, Naming::Ether(EtherType(0x0806)));
    assert_eq!(sliced.stop, Stop::EtherTypeNotOpened);
}

#[test]
fn f2() {
    let sliced = slice(ETH, &link(3, 0x8100)).unwrap();
    let tag = |offset| Span { offset, length: 4 };
    assert_eq!(sliced.tags, [tag(14), tag(18), tag(22)]);
    assert_eq!((sliced.payload.offset, sliced.payload.length), (26, 0));
    assert_eq!(sliced.naming, Naming::Ether(EtherType(0x8100)));
    assert_eq!(sliced.stop, Stop::TagsFull);
}

#[test]
fn f3() {
    let frame = join(&[&link(1, 0x8100), &[0; 3]]);
    let want = short(Kind::Vlan, 18, (4, 3), Source::Slice);
    assert_eq!(slice(ETH, &frame), Err(want));
}

#[test]
fn f4() {
    let want = short_at(Layer::Ipv4Packet, 14, (20, 19), Source::Ipv4);
    assert_eq!(slice(ETH, &over_ipv4(17, 19, &[])), Err(want));
    let want = short_at(Layer::Ipv4Packet, 14, (21, 20), Source::Slice);
    assert_eq!(slice(ETH, &over_ipv4(17, 21, &[])), Err(want));
    let want = short(Kind::Udp, 34, (8, 0), Source::Ipv4);
    assert_eq!(slice(ETH, &over_ipv4(17, 20, &[])), Err(want));
}

#[test]
fn f5() {
    let want = refused(Kind::HopByHop, 62, Reason::HopByHopNotAtStart);
    assert_eq!(want.number(), 5);
    assert_eq!(slice(ETH, &over_ipv6(0, 8, &raw(0, 0))), Err(want));
}

#[test]
fn f6() {
    let sliced = slice(ETH, &over_ipv6(44, 8, &fragment(17, 1))).unwrap();
    assert_eq!(sliced.stop, Stop::Fragment);
    assert_eq!((sliced.payload.offset, sliced.payload.length), (62, 0));
    assert_eq!(sliced.naming, Naming::Ip(IpNumber(17)));
    let net = sliced.net.unwrap();
    assert!(net.fragmented);
    assert_eq!(net.header, is(Kind::Ipv6, 14, 40));
    assert_eq!((net.extensions.offset, net.extensions.length), (54, 8));

    let want = short(Kind::Udp, 62, (8, 0), Source::Ipv6);
    assert_eq!(slice(ETH, &over_ipv6(44, 8, &fragment(17, 0))), Err(want));
}

#[test]
fn f7() {
    let want = refused(Kind::Auth, 34, Reason::AuthLengthZero);
    assert_eq!(want.number(), 6);
    assert_eq!(slice(ETH, &over_ipv4(51, 32, &auth(17, 0))), Err(want));
    let want = short(Kind::Auth, 34, (12, 11), Source::Ipv4);
    assert_eq!(slice(ETH, &over_ipv4(51, 31, &auth(17, 0))), Err(want));
}

#[test]
fn f8() {
    let want = short(Kind::Udp, 34, (8, 7), Source::Udp);
    assert_eq!(slice(ETH, &over_ipv4(17, 28, &udp(7))), Err(want));
    let want = short(Kind::Udp, 54, (8, 7), Source::Udp);
    assert_eq!(slice(ETH, &over_ipv6(17, 8, &udp(7))), Err(want));

    let sliced = slice(ETH, &over_ipv4(17, 28, &udp(0))).unwrap();
    assert_eq!(sliced.transport, Some(is(Kind::Udp, 34, 8)));
    assert_eq!((sliced.payload.offset, sliced.payload.length), (42, 0));
    assert_eq!(sliced.stop, Stop::TransportRead);
}

#[test]
fn f9() {
    let want = refused(Kind::Tcp, 34, Reason::TcpDataOffset(4));
    assert_eq!(want.number(), 7);
    assert_eq!(slice(ETH, &over_ipv4(6, 40, &tcp(4))), Err(want));
    let want = short(Kind::Tcp, 34, (24, 20), Source::Ipv4);
    assert_eq!(slice(ETH, &over_ipv4(6, 40, &tcp(6)[..20])), Err(want));
    let want = short(Kind::Tcp, 54, (24, 20), Source::Ipv6);
    assert_eq!(slice(ETH, &over_ipv6(6, 20, &tcp(6)[..20])), Err(want));
}
