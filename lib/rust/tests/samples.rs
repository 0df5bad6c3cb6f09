//! Sample frames of document 01 through the crate, for machines that run no doc tests; and what is left in numbers lent to the library.
#[allow(dead_code)]
#[path = "../src/boundary.rs"]
mod boundary;

use bhirkulom::{
    count, header, headers, tcp_option, Entry, Kind, Layer, Number, OptionKind, OptionReason, Reason, SlicedPacket,
    Source, Stop, Sum16BitWords,
};

/// F12: one tag, IPv4 of total length 32, UDP of length 12, zeros up to 60 bytes.
fn f12() -> [u8; 60] {
    let mut frame = [0; 60];
    frame[12..14].copy_from_slice(&[0x81, 0x00]);
    frame[16..18].copy_from_slice(&[0x08, 0x00]);
    frame[18] = 0x45;
    frame[21] = 32;
    frame[27] = 17;
    frame[43] = 12;
    frame
}

#[test]
fn accepted() {
    let frame = f12();
    let packet = SlicedPacket::from_ethernet(&frame).unwrap();
    assert_eq!(packet.link.unwrap().slice, &frame[..14]);
    assert_eq!(packet.tags.len(), 1);
    assert_eq!(
        (packet.tags[0].kind, packet.tags[0].slice),
        (Kind::Vlan, &frame[14..18])
    );
    assert_eq!(packet.net.unwrap().exts.offset, 38);
    assert_eq!(packet.transport.unwrap().slice, &frame[38..46]);
    assert_eq!((packet.payload.offset, packet.payload.slice.len()), (46, 4));
    assert_eq!((packet.number, packet.stop), (Number::Ip(17), Stop::TransportRead));
}

/// Ethernet and ARP, which isn't opened.
fn arp() -> [u8; 60] {
    let mut frame = [0; 60];
    frame[12..14].copy_from_slice(&[0x08, 0x06]);
    frame
}

/// Which number names the payload: the library says so itself, and of a refused frame it tells none.
#[test]
fn numbering() {
    let mut four_tags = [0; 26];
    for at in [12, 16, 20, 24] {
        four_tags[at] = 0x81;
    }
    // IP number 0, which an IPv4 packet doesn't open
    let mut unopened = tcp();
    unopened[9] = 0;
    let cases: [(Entry, &[u8], [usize; 2], Option<Number>); 6] = [
        (Entry::Ethernet, &arp(), [0x0806, boundary::ETHER_TYPE], Some(Number::EtherType(0x0806))),
        (Entry::Ethernet, &four_tags, [0x8100, boundary::ETHER_TYPE], Some(Number::EtherType(0x8100))),
        (Entry::Ethernet, &f12(), [17, boundary::IP_NUMBER], Some(Number::Ip(17))),
        (Entry::Ipv4, &tcp(), [6, boundary::IP_NUMBER], Some(Number::Ip(6))),
        (Entry::Ipv4, &unopened, [0, boundary::IP_NUMBER], Some(Number::Ip(0))),
        (Entry::Ethernet, &f12()[..40], [0, 0], None),
    ];
    for (entry, frame, handed, number) in cases {
        let packet = boundary::slice(frame, entry as usize);
        assert_eq!([packet.number, packet.numbering], handed);
        assert_eq!(SlicedPacket::from_entry(entry, frame).ok().map(|sliced| sliced.number), number);
    }
    assert_eq!(boundary::slice(&arp(), 4).numbering, 0);
}

/// What the library leaves in so many numbers, which were full, of a frame's headers from number k on; then its count.
fn lent(frame: &[u8], entry: usize, k: usize, room: usize) -> (Vec<usize>, usize) {
    let mut heads = vec![7; room];
    let reply = boundary::headers(frame, entry, k, &mut heads);
    (heads, reply.count)
}

#[test]
fn zeros_behind_headers() {
    let listed = [1, 0, 14, 2, 14, 4, 3, 18, 20, 10, 38, 8];
    let with_zeros = |from: usize, to: usize, room: usize| {
        let mut heads = listed[3 * from..3 * to].to_vec();
        heads.resize(room, 0);
        (heads, 4)
    };
    assert_eq!(lent(&f12(), 1, 0, 17), with_zeros(0, 4, 17));
    assert_eq!(lent(&f12(), 1, 0, 12), with_zeros(0, 4, 12));
    // no whole three is left for header 3
    assert_eq!(lent(&f12(), 1, 1, 8), with_zeros(1, 3, 8));
    assert_eq!(lent(&f12(), 1, 3, 2), with_zeros(0, 0, 2));
    for k in [4, 5, usize::MAX] {
        assert_eq!(lent(&f12(), 1, k, 9), with_zeros(0, 0, 9));
    }
}

/// Two headers stand before the one that is refused, and neither is left; nor is what was lent to an entry that there isn't.
#[test]
fn zeros_alone() {
    let cut = &f12()[..40];
    assert_eq!(count(Entry::Ethernet, cut).unwrap_err().layer, Layer::Ipv4Packet);
    for k in 0..4 {
        assert_eq!(lent(cut, 1, k, 17), (vec![0; 17], 0));
    }
    for entry in [0, 4, usize::MAX] {
        assert_eq!(lent(&f12(), entry, 0, 17), (vec![0; 17], 0));
    }
}

#[test]
fn by_number() {
    let frame = f12();
    let listed: Vec<_> = headers(Entry::Ethernet, &frame)
        .map(|h| h.unwrap())
        .map(|h| (h.kind.name(), h.offset, h.slice.len()))
        .collect();
    assert_eq!(
        listed,
        [("ethernet2", 0, 14), ("vlan", 14, 4), ("ipv4", 18, 20), ("udp", 38, 8)]
    );
    assert_eq!(count(Entry::Ethernet, &frame), Ok(4));
    assert_eq!(header(Entry::Ethernet, &frame, 4), Ok(None));
    assert_eq!(header(Entry::Ethernet, &frame, usize::MAX), Ok(None));
}

/// IPv6 with more extensions than the list keeps without the heap.
#[test]
fn long_list() {
    let mut packet = [0; 40 + 8 * 20];
    packet[0] = 0x60;
    packet[6] = 60;
    for i in 0..20 {
        packet[40 + 8 * i] = if i == 19 { 59 } else { 60 };
    }
    let listed: Vec<_> = headers(Entry::Ipv6, &packet).map(|h| h.unwrap()).collect();
    assert_eq!(listed.len(), 21);
    assert_eq!(count(Entry::Ipv6, &packet), Ok(21));
    for (k, h) in listed.iter().enumerate() {
        assert_eq!(header(Entry::Ipv6, &packet, k), Ok(Some(*h)));
    }
    assert_eq!((listed[20].kind, listed[20].offset), (Kind::Destination, 192));
}

#[test]
fn refused() {
    let refusal = SlicedPacket::from_ethernet(&[0; 13]).unwrap_err();
    assert_eq!((refusal.layer, refusal.offset), (Layer::Header(Kind::Ethernet2), 0));
    let (required, have, source) = (14, 13, Source::Slice);
    assert_eq!(refusal.reason, Reason::TooShort { required, have, source });
    assert_eq!(count(Entry::Ethernet, &[0; 13]), Err(refusal));
    assert_eq!(header(Entry::Ethernet, &[0; 13], 5), Err(refusal));
    let said = SlicedPacket::from_ipv4(&[0x54; 20]).unwrap_err().to_string();
    assert_eq!(said, "refused 2 ipv4 0 5");
    let said = SlicedPacket::from_ipv6(&[]).unwrap_err().to_string();
    assert_eq!(said, "refused 1 ipv6 0 required 40 have 0 source slice");
}

#[test]
fn options() {
    let bytes = [1, 254, 2, 8, 9];
    assert_eq!(tcp_option(&bytes, 0).unwrap().unwrap().kind, OptionKind::Noop);
    assert_eq!(tcp_option(&bytes, 1).unwrap().unwrap().kind, OptionKind::Unknown(254));
    let refusal = tcp_option(&bytes, 2).unwrap_err();
    assert_eq!((refusal.reason, refusal.offset), (OptionReason::LengthNotSound, 3));
    assert_eq!(refusal.to_string(), "refused 9 option 3");
    assert_eq!(tcp_option(&[], 0), Ok(None));
}

/// IPv4 of total length 44 with a TCP header of 24 bytes, whose options are a maximum segment size.
fn tcp() -> [u8; 44] {
    let mut packet = [0; 44];
    packet[0] = 0x45;
    packet[3] = 44;
    packet[9] = 6;
    packet[32] = 0x60;
    packet[40..].copy_from_slice(&[2, 4, 5, 0xb4]);
    packet
}

#[test]
fn options_of_a_packet() {
    let packet = tcp();
    let sliced = SlicedPacket::from_ipv4(&packet).unwrap();
    let kinds: Vec<_> = sliced.tcp_options().unwrap().map(|o| o.unwrap().kind).collect();
    assert_eq!(kinds, [OptionKind::MaximumSegmentSize]);
    assert!(SlicedPacket::from_ethernet(&f12()).unwrap().tcp_options().is_none());
}

#[test]
fn checksum() {
    let sum = Sum16BitWords::new();
    assert_eq!(sum.ones_complement(), 0xffff);
    assert_eq!(sum.add_slice(&[1]).add_slice(&[2]).ones_complement(), 0xfcff);
    assert_eq!(sum.add_slice(&[1, 2]).ones_complement(), 0xfefd);
    assert_eq!(sum.add_slice(&[0xff, 0xff]).to_ones_complement_with_no_zero(), 0xffff);
}
