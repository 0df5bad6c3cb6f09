//! What the shown files decide as document 01 does, a small frame for each.

use crate::parts::*;
use crate::rows::Row;

/// Part A of the list of differences: nothing differs.
pub fn rows() -> Vec<Row> {
    let mut rows = link_rows();
    rows.extend(ipv4_rows());
    rows.extend(ipv6_rows());
    rows
}

fn link_rows() -> Vec<Row> {
    let new = Row::new;
    let short = [link(3, 0x88A8), vec![0; 3]].concat();
    vec![
        new("A tag", "three tags, then 0x88a8 and 3 bytes", short).fill(),
        new("A type", "type 0x05ff", [link(0, 0x05FF), vec![7]].concat()),
        new("A type", "type 0x1234 after two tags", link(2, 0x1234)),
    ]
}

fn ipv4_rows() -> Vec<Row> {
    let new = Row::new;
    let first = |byte| {
        let mut frame = over_ipv4(17, 28, &udp(0));
        frame[14] = byte;
        frame
    };
    let fragmented = |word: u16, protocol, content: &[u8]| {
        let mut frame = over_ipv4(protocol, 20 + content.len() as u16, content);
        frame[20..22].copy_from_slice(&word.to_be_bytes());
        frame
    };
    let padded = [over_ipv4(59, 24, &[1; 4]), vec![9; 7]].concat();
    vec![
        new("A ipv4", "19 bytes", over_ipv4(17, 28, &[])[..33].to_vec()),
        new("A ipv4", "first byte 0x54: version first", first(0x54)).folded(),
        new("A ipv4", "first byte 0x44", first(0x44)).folded(),
        new("A ipv4", "IHL 8 in 28 bytes", first(0x48)),
        new("A ipv4", "padding behind total length", padded),
        new("A ipv4", "number 0 not opened", over_ipv4(0, 28, &raw(17))),
        new(
            "A ipv4",
            "number 43 not opened",
            over_ipv4(43, 28, &raw(17)),
        ),
        new(
            "A ipv4",
            "number 44 not opened",
            over_ipv4(44, 28, &raw(17)),
        ),
        new(
            "A ipv4",
            "number 60 not opened",
            over_ipv4(60, 28, &raw(17)),
        ),
        new("A ipv4", "AUTH naming 51", over_ipv4(51, 32, &auth(51, 1))),
        new(
            "A ipv4",
            "AUTH, M = 1",
            fragmented(0x2000, 51, &auth(17, 1)),
        ),
        new("A ipv4", "UDP, offset 1", fragmented(1, 17, &[])),
        new(
            "A ipv4",
            "UDP, don't fragment",
            fragmented(0x4000, 17, &udp(8)),
        ),
        new("A ipv4", "TCP cut", over_ipv4(6, 39, &tcp(5)[..19])),
    ]
}

fn ipv6_rows() -> Vec<Row> {
    let new = Row::new;
    let chain = |next, parts: &[Vec<u8>]| {
        let content = parts.concat();
        over_ipv6(next, content.len() as u16, &content)
    };
    let ended = |number| chain(60, &[raw(number), vec![1; 3]]);
    vec![
        new("A ipv6", "number 0 after 60", chain(60, &[raw(0)])).folded(),
        new(
            "A ipv6",
            "AUTH twice",
            chain(51, &[auth(51, 1), auth(59, 1)]),
        ),
        new(
            "A ipv6",
            "a fragmenting header, then one that doesn't",
            chain(44, &[fragment(44, 8), fragment(17, 0)]),
        ),
        new(
            "A ipv6",
            "a fragmenting header, then extensions",
            chain(44, &[fragment(60, 1), raw(43), raw(6)]),
        ),
        new(
            "A ipv6",
            "a fragmenting header, then number 0",
            chain(44, &[fragment(0, 1)]),
        )
        .folded(),
        new("A ipv6", "number 50 ends the walk", ended(50)),
        new("A ipv6", "number 59 ends the walk", ended(59)),
        new("A ipv6", "number 135 ends the walk", ended(135)),
        new("A ipv6", "number 139 ends the walk", ended(139)),
        new("A ipv6", "number 140 ends the walk", ended(140)),
        new("A ipv6", "TCP cut, source ipv6", chain(6, &[vec![0; 19]])),
    ]
}
