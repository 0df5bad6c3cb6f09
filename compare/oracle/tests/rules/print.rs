//! The program's text: F12, the 60-byte frame, and one line of every form.

use crate::frames::*;
use oracle::{print, Entry};

#[test]
fn f12() {
    let mut frame = join(&[&link(1, 0x0800), &ipv4(17, 32), &udp(12)]);
    frame.resize(60, 0);
    let want = "ethernet2 0 14\nvlan 14 4\nipv4 18 20\nudp 38 8\npayload 46 4\nstop 5\n";
    assert_eq!(print(Entry::Ethernet, &frame), want);
}

#[test]
fn the_60_byte_frame() {
    let mut frame = join(&[&link(0, 0x0800), &ipv4(17, 60)]);
    frame.resize(60, 0);
    let want = "refused 1 ipv4-packet 14 required 60 have 46 source slice\n";
    assert_eq!(print(Entry::Ethernet, &frame), want);
}

#[test]
fn every_header_name() {
    let chain = join(&[
        &raw(43, 0),
        &raw(44, 0),
        &fragment(51, 0),
        &auth(60, 1),
        &raw(6, 0),
        &tcp(5),
    ]);
    let packet = join(&[&ipv6(0, chain.len()), &chain]);
    let want = "ipv6 0 40\nhop-by-hop 40 8\nrouting 48 8\nfragment 56 8\nauth 64 12\n\
                destination 76 8\ntcp 84 20\npayload 104 0\nstop 5\n";
    assert_eq!(print(Entry::Ipv6, &packet), want);
}

#[test]
fn every_stop() {
    let text = print(Entry::Ethernet, &join(&[&link(0, 0x0806), &[0; 3]]));
    assert_eq!(text, "ethernet2 0 14\npayload 14 3\nstop 1\n");
    let text = print(Entry::Ethernet, &link(4, 0));
    assert!(text.ends_with("vlan 22 4\npayload 26 4\nstop 2\n"));
    let text = print(Entry::Ipv6, &join(&[&ipv6(44, 9), &fragment(6, 1), &[0]]));
    assert_eq!(text, "ipv6 0 40\nfragment 40 8\npayload 48 1\nstop 3\n");
    let text = print(Entry::Ipv4, &ipv4(1, 20));
    assert_eq!(text, "ipv4 0 20\npayload 20 0\nstop 4\n");
}

#[test]
fn every_refusal() {
    let ipv4_of = |first: u8| {
        let mut header = ipv4(0, 20);
        header[0] = first;
        header
    };
    let over = |protocol, content: &[u8]| {
        let header = ipv4(protocol, 20 + content.len());
        join(&[&header, content])
    };
    let twice = join(&[&ipv6(0, 8), &raw(0, 0)]);
    for (entry, frame, want) in [
        (Entry::Ipv4, ipv4_of(0x65), "refused 2 ipv4 0 6"),
        (Entry::Ipv4, ipv4_of(0x44), "refused 3 ipv4 0 4"),
        (Entry::Ipv6, vec![0x45; 40], "refused 4 ipv6 0 4"),
        (Entry::Ipv6, twice, "refused 5 hop-by-hop 48"),
        (Entry::Ipv4, over(51, &auth(6, 0)), "refused 6 auth 20"),
        (Entry::Ipv4, over(6, &tcp(0)), "refused 7 tcp 20 0"),
        (
            Entry::Ipv4,
            over(17, &udp(9)),
            "refused 1 udp-payload 20 required 9 have 8 source ipv4",
        ),
        (
            Entry::Ipv4,
            over(17, &udp(3)),
            "refused 1 udp 20 required 8 have 3 source udp",
        ),
        (
            Entry::Ipv6,
            ipv6(59, 1),
            "refused 1 ipv6-packet 0 required 41 have 40 source slice",
        ),
    ] {
        assert_eq!(print(entry, &frame), format!("{want}\n"));
    }
}
