//! The six "errors a tired hand makes", each shown not to be made.

use crate::frames::*;
use oracle::{headers, slice, Entry, EtherType, IpNumber, Kind, Naming, Reason, Stop, Sum};

const ETH: Entry = Entry::Ethernet;

/// "Taking padding after total length as samples."
#[test]
fn padding_is_not_payload() {
    let packet = join(&[&ipv4(17, 30), &udp(0), &[7, 7]]);
    let plain = slice(Entry::Ipv4, &packet).unwrap();
    assert_eq!((plain.payload.offset, plain.payload.length), (28, 2));
    let padded = join(&[&packet, &[9; 18]]);
    assert_eq!(slice(Entry::Ipv4, &padded), Ok(plain));
}

/// "Testing IHL before the version: first byte 0x54 is refusal 2, not 3."
#[test]
fn version_comes_before_ihl() {
    let mut packet = ipv4(17, 20);
    packet[0] = 0x54;
    let want = refused(Kind::Ipv4, 0, Reason::Ipv4Version(5));
    assert_eq!(want.number(), 2);
    assert_eq!(slice(Entry::Ipv4, &packet), Err(want));
    packet[0] = 0x44;
    let want = refused(Kind::Ipv4, 0, Reason::Ihl(4));
    assert_eq!(want.number(), 3);
    assert_eq!(slice(Entry::Ipv4, &packet), Err(want));
}

/// "Refusing the fourth tag, or opening it."
#[test]
fn the_fourth_tag_is_left_unopened() {
    for tag_type in [0x8100, 0x88A8, 0x9100] {
        for behind in [0, 1, 3, 4, 60] {
            let frame = join(&[&link(3, tag_type), &vec![8; behind]]);
            let sliced = slice(ETH, &frame).unwrap();
            assert_eq!(sliced.stop, Stop::TagsFull);
            assert_eq!(sliced.tags.len(), 3);
            assert_eq!((sliced.payload.offset, sliced.payload.length), (26, behind));
            assert_eq!(sliced.naming, Naming::Ether(EtherType(tag_type)));
            assert_eq!(headers(ETH, &frame).unwrap().len(), 4);
        }
    }
}

/// "Letting a later, non-fragmenting fragment header clear the mark."
#[test]
fn the_fragment_mark_stays() {
    let chain = join(&[&fragment(44, 8), &fragment(60, 0), &raw(17, 0)]);
    let packet = join(&[&ipv6(44, chain.len()), &chain]);
    let sliced = slice(Entry::Ipv6, &packet).unwrap();
    assert!(sliced.net.unwrap().fragmented);
    assert_eq!(sliced.stop, Stop::Fragment);
    assert_eq!(sliced.naming, Naming::Ip(IpNumber(17)));
    assert_eq!((sliced.payload.offset, sliced.payload.length), (64, 0));
    // the mark never hides a later refusal
    let chain = join(&[&fragment(0, 8), &raw(17, 0)]);
    let packet = join(&[&ipv6(44, chain.len()), &chain]);
    let want = refused(Kind::HopByHop, 48, Reason::HopByHopNotAtStart);
    assert_eq!(slice(Entry::Ipv6, &packet), Err(want));
}

/// "Reading the AUTH length byte in units of 8."
#[test]
fn auth_counts_in_fours() {
    for (length_byte, length) in [(1, 12), (2, 16), (4, 24), (255, 1028)] {
        let packet = join(&[&ipv4(51, 20 + length), &auth(59, length_byte)]);
        let list = headers(Entry::Ipv4, &packet).unwrap();
        let want = [is(Kind::Ipv4, 0, 20), is(Kind::Auth, 20, length)];
        assert_eq!(list, want);
    }
}

/// "Joining odd slices in the sum without padding (F11)."
#[test]
fn odd_slices_are_padded_each() {
    let apart = Sum::new().add_slice(&[1]).add_slice(&[2]);
    let joined = Sum::new().add_slice(&[1, 2]);
    assert_eq!(apart.ones_complement(), 0xFCFF);
    assert_eq!(joined.ones_complement(), 0xFEFD);
}
