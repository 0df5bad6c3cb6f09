//! The edges of the link layer's length tests, and every EtherType.

use crate::frames::*;
use oracle::{headers, slice, Entry, EtherType, Kind, Naming, Source, Stop};

const ETH: Entry = Entry::Ethernet;

#[test]
fn ethernet_needs_14() {
    let frame = link(0, 0x0806);
    for have in 0..14 {
        let want = short(Kind::Ethernet2, 0, (14, have), Source::Slice);
        assert_eq!(slice(ETH, &frame[..have]), Err(want));
    }
    for more in [0, 1] {
        let sliced = slice(ETH, &join(&[&frame, &vec![0; more]])).unwrap();
        assert_eq!((sliced.payload.offset, sliced.payload.length), (14, more));
    }
}

#[test]
fn every_tag_needs_4() {
    for tags in 1..=3 {
        let frame = link(tags, 0x0806);
        let at = frame.len() - 4;
        for have in 0..4 {
            let want = short(Kind::Vlan, at, (4, have), Source::Slice);
            assert_eq!(slice(ETH, &frame[..at + have]), Err(want));
        }
        for more in [0, 1] {
            let sliced = slice(ETH, &join(&[&frame, &vec![0; more]])).unwrap();
            assert_eq!(sliced.tags.len(), tags);
            assert_eq!(sliced.payload.offset, 14 + 4 * tags);
            assert_eq!(sliced.payload.length, more);
            assert_eq!(sliced.stop, Stop::EtherTypeNotOpened);
        }
    }
}

/// With the frame ending behind the type, a type is opened (and refused for want of bytes) or it is
/// a stop.
#[test]
fn every_ether_type_after_every_count_of_tags() {
    for tags in 0..=3 {
        let at = 14 + 4 * tags;
        for ether_type in 0..=0xFFFF {
            let answer = slice(ETH, &link(tags, ether_type));
            let lacks = |kind, need| Err(short(kind, at, (need, 0), Source::Slice));
            match ether_type {
                0x0800 => assert_eq!(answer, lacks(Kind::Ipv4, 20)),
                0x86DD => assert_eq!(answer, lacks(Kind::Ipv6, 40)),
                0x8100 | 0x88A8 | 0x9100 if tags < 3 => {
                    assert_eq!(answer, lacks(Kind::Vlan, 4));
                }
                _ => {
                    let full = matches!(ether_type, 0x8100 | 0x88A8 | 0x9100);
                    let sliced = answer.unwrap();
                    assert_eq!(sliced.stop.number(), if full { 2 } else { 1 });
                    assert_eq!(sliced.naming, Naming::Ether(EtherType(ether_type)));
                    assert_eq!((sliced.payload.offset, sliced.payload.length), (at, 0));
                }
            }
        }
    }
}

/// "Payload after a link stop runs to the frame's end"; five tags leave two unopened.
#[test]
fn four_and_five_tags() {
    for tags in [4, 5] {
        let frame = link(tags, 0x0800);
        let list = headers(ETH, &frame).unwrap();
        assert_eq!(list.len(), 4);
        let sliced = slice(ETH, &frame).unwrap();
        assert_eq!(sliced.stop, Stop::TagsFull);
        assert_eq!(sliced.payload.offset, 26);
        assert_eq!(sliced.payload.length, 4 * (tags - 3));
    }
}
