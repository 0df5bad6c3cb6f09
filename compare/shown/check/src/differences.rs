//! The known differences on frames: part B of the list, and the raw entry's (document 02, No. 1).

use crate::parts::*;
use crate::rows::Row;
use oracle::Source;
use shown_map::{Answer, Layer, Refused, Way};

/// Every row of part B, and E1 and E3 of part E.
pub fn rows() -> Vec<Row> {
    let mut rows = content_rows();
    rows.extend(length_rows());
    rows.extend(outside_rows());
    rows.extend(shape_rows());
    rows.extend(raw_rows());
    rows
}

/// B1 and B2: what the errors carry.
fn content_rows() -> Vec<Row> {
    let first = |byte, mut frame: Vec<u8>| {
        frame[14] = byte;
        frame
    };
    let new = Row::new;
    let rows = vec![
        new(
            "B1",
            "IPv4 first byte 0x54",
            first(0x54, over_ipv4(17, 20, &[])),
        ),
        new(
            "B1",
            "IPv4 first byte 0x44",
            first(0x44, over_ipv4(17, 20, &[])),
        ),
        new("B1", "IPv6 version 5", first(0x50, over_ipv6(59, 0, &[]))).fill(),
        new("B1", "hop-by-hop after 60", over_ipv6(60, 8, &raw(0))),
        new("B1", "TCP data offset 4", over_ipv4(6, 40, &tcp(4))),
        new("B2", "IPv4, AUTH 0", over_ipv4(51, 32, &auth(17, 0))),
        new("B2", "IPv6, AUTH 0", over_ipv6(51, 12, &auth(17, 0))),
    ];
    rows.into_iter().map(Row::folded).collect()
}

/// B3 to B5: layers and sources of lengths.
fn length_rows() -> Vec<Row> {
    let extension = [ipv6(60, 0), vec![0; 4]].concat();
    let new = Row::new;
    vec![
        new("B3", "IPv6, next 60, room of 4", over_ipv6(60, 4, &[0; 4]))
            .fill()
            .folded(),
        new("B4", "payload length 0, next 60, 4 bytes", extension)
            .raw()
            .different(),
        new("B4", "the same over Ethernet", over_ipv6(60, 0, &[0; 4]))
            .fill()
            .folded(),
        new("B5", "payload length 0, next 17, nothing", ipv6(17, 0))
            .raw()
            .different(),
        new("B5", "the same over Ethernet", over_ipv6(17, 0, &[])).fill(),
    ]
}

/// B6 and B7: what the crate opens and we don't.
fn outside_rows() -> Vec<Row> {
    let new = Row::new;
    let mut fragment_of_icmp = over_ipv4(1, 28, &[0; 8]);
    fragment_of_icmp[20] = 0x20;
    vec![
        new("B6", "14 bytes of type 0x0806", link(0, 0x0806)).outside(),
        new("B6", "14 bytes of type 0x88e5", link(0, 0x88E5)).outside(),
        new("B6", "IPv4, ICMP", over_ipv4(1, 20, &[])).outside(),
        new("B6", "IPv4, IGMP", over_ipv4(2, 20, &[])).outside(),
        new("B6", "IPv4, ICMPv6", over_ipv4(58, 20, &[])).outside(),
        new("B6", "IPv6, ICMP", over_ipv6(1, 0, &[])).outside(),
        new("B6", "IPv6, ICMPv6", over_ipv6(58, 0, &[])).outside(),
        new("B6", "a fragment of ICMP is inside", fragment_of_icmp),
        new("B7", "two tags, then 0x88e5", link(2, 0x88E5)).outside(),
        new("B7", "three tags, then 0x88e5", link(3, 0x88E5)).fill(),
    ]
}

/// B8 and B9: the reply's shape, derived and equal.
fn shape_rows() -> Vec<Row> {
    let two = [raw(60), raw(59), vec![7; 2]].concat();
    let new = Row::new;
    vec![
        new(
            "B8",
            "a type not opened",
            [link(1, 0x1234), vec![7]].concat(),
        ),
        new("B8", "a number not opened", over_ipv4(59, 22, &[7; 2])),
        new(
            "B8",
            "a fragment",
            over_ipv6(44, 10, &[17, 0, 0, 1, 0, 0, 0, 0, 7, 7]),
        ),
        new(
            "B8",
            "transport read",
            over_ipv4(6, 42, &[tcp(5), vec![7; 2]].concat()),
        ),
        new("B9", "IPv6 with two extensions", over_ipv6(0, 18, &two)),
    ]
}

/// E1: the raw entry's own order of tests. E3 is B4 and B5.
fn raw_rows() -> Vec<Row> {
    let mut ten = vec![0; 10];
    ten[0] = 0x46;
    let new = Row::new;
    vec![
        new("E1", "one byte 0x44", vec![0x44]).raw().different(),
        new("E1", "ten bytes 0x46 ..", ten).raw().different(),
        new("E1", "one byte 0x45", vec![0x45]).raw(),
    ]
}

/// E2: what only the raw entry answers, against document 02; gives the number of answers that
/// aren't its.
pub fn raw_only() -> usize {
    let empty = Refused::TooShort {
        layer: Layer::Ip,
        offset: 0,
        required: 1,
        have: 0,
        source: Source::Slice,
    };
    let version = Refused::Content {
        number: 11,
        value: Some(5),
    };
    let asked: [(&str, &[u8], Refused); 2] = [
        ("nothing", &[], empty),
        ("one byte 0x50: no place with it", &[0x50], version),
    ];
    let mut faults = 0;
    for (about, bytes, paper) in asked {
        let published = shown_map::slice(Way::Raw, bytes);
        let good = published == Answer::Refused(paper);
        faults += usize::from(!good);
        println!("E2 (raw entry): {about}");
        println!("    bytes  {}", hex(bytes));
        println!("    crate  {published}");
        println!("    02     {paper}");
        println!(
            "    {}",
            if good {
                "Same, as listed"
            } else {
                "NOT AS LISTED"
            }
        );
    }
    faults
}
