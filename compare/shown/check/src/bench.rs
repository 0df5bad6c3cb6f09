//! "Frames from the bench": F1 to F9, F12 and the 60-byte line; F10, F11 are with the checksum.

use crate::parts::*;
use crate::rows::Row;
use oracle::Entry;
use shown_map::Answer;

/// F1 to F9, as document 01 has them; free bytes are zero.
pub fn rows() -> Vec<Row> {
    let new = Row::new;
    vec![
        new("F1", "13 bytes", vec![0; 13]).fill(),
        new("F1", "14 bytes of type 0x0806", link(0, 0x0806)).outside(),
        new("F2", "three tags, the third naming 0x8100", link(3, 0x8100)).fill(),
        new(
            "F3",
            "one tag naming 0x8100, then 3 bytes",
            [link(1, 0x8100), vec![0; 3]].concat(),
        )
        .fill(),
        new("F4", "total length 19", over_ipv4(17, 19, &[])),
        new("F4", "total length 21", over_ipv4(17, 21, &[])),
        new("F4", "total length 20, protocol 17", over_ipv4(17, 20, &[])).fill(),
        new("F5", "hop-by-hop naming 0", over_ipv6(0, 8, &raw(0))).folded(),
        new("F6", "M = 1", over_ipv6(44, 8, &fragment(17, 1))).fill(),
        new("F6", "M = 0", over_ipv6(44, 8, &fragment(17, 0))).fill(),
        new("F7", "total length 32", over_ipv4(51, 32, &auth(17, 0)))
            .fill()
            .folded(),
        new("F7", "total length 31", over_ipv4(51, 31, &auth(17, 0))).fill(),
        new("F8", "UDP length 7", over_ipv4(17, 28, &udp(7))).fill(),
        new("F8", "UDP length 0", over_ipv4(17, 28, &udp(0))).fill(),
        new("F9", "TCP offset 4", over_ipv4(6, 40, &tcp(4))).folded(),
        new("F9", "TCP offset 6", over_ipv4(6, 40, &tcp(6))),
        new("F12", "one tag, total length 32, UDP length 12", f12()).fill(),
        new("60 bytes", "total length 60 in 46 bytes", sixty()),
    ]
}

/// "One tag, IPv4 total 32, UDP length 12, zeros up to 60 bytes".
fn f12() -> Vec<u8> {
    let mut frame = [link(1, 0x0800), ipv4(17, 32), udp(12)].concat();
    frame.resize(60, 0);
    frame
}

/// "A 60-byte untagged frame with IPv4 total 60 and IHL 5".
fn sixty() -> Vec<u8> {
    let mut frame = over_ipv4(0, 60, &[]);
    frame.resize(60, 0);
    frame
}

/// The program's output for F12 and the 60-byte frame, from the crate's answers; gives the number
/// of texts that aren't document 01's.
pub fn program() -> usize {
    let printed = [
        (
            f12(),
            "ethernet2 0 14\nvlan 14 4\nipv4 18 20\nudp 38 8\npayload 46 4\nstop 5\n",
        ),
        (
            sixty(),
            "refused 1 ipv4-packet 14 required 60 have 46 source slice\n",
        ),
    ];
    let mut faults = 0;
    for (frame, text) in printed {
        let good = print(&frame) == text;
        faults += usize::from(!good);
        println!("the program's text, {good}:\n{}", print(&frame));
    }
    faults
}

fn print(frame: &[u8]) -> String {
    let sliced = match shown_map::slice(Entry::Ethernet, frame) {
        Answer::Accepted(sliced) => sliced,
        other => return format!("{other}\n"),
    };
    let mut text = String::new();
    for header in shown_map::headers(Entry::Ethernet, frame).unwrap_or_default() {
        let name = header.kind.name();
        text += &format!("{name} {} {}\n", header.offset, header.length);
    }
    let payload = sliced.payload;
    text += &format!("payload {} {}\n", payload.offset, payload.length);
    text + &format!("stop {}\n", sliced.stop.number())
}
