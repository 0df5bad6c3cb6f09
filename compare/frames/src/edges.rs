//! Structured cases: every header kind and length test, one short, exact, one long, every number.
//!
//! Each function here is one finite family of frames; [`edges`] chains them all.

use crate::entry::{Case, Entry};
use crate::odometer::Odometer;
use crate::parts;

/// The ways to an IP header: its own entry, and Ethernet with no tag up to three.
const WAYS: usize = 5;

/// Bytes that any header can be read from: a UDP length of 8, a TCP data offset of 5, an extension
/// of 16 bytes, an AUTH of 12 and a fragment header that does not fragment.
const TAIL: [u8; 24] = [
    59, 1, 0, 0, 0, 8, 0, 0, 0, 0, 0, 0, 0x50, 0, 0, 0, 0, 0, 0, 0, 0, 0, 0, 0,
];

/// What ends the room behind an IP header, and whether padding follows it.
#[derive(Clone, Copy)]
enum By {
    Total(usize),
    Payload(usize),
    Slice,
}

const ROOMS: [By; 5] = [
    By::Total(0),
    By::Total(9),
    By::Payload(0),
    By::Payload(9),
    By::Slice,
];

/// Every structured case.
pub fn edges() -> impl Iterator<Item = Case> {
    link_edges()
        .chain(first_byte_edges())
        .chain(ipv4_edges())
        .chain(ipv6_edges())
        .chain(extension_edges())
        .chain(ipv4_auth_edges())
        .chain(udp_edges())
        .chain(tcp_edges())
        .chain(number_edges())
}

/// `length` with the third of one short, exact and one long that `place` says.
fn near(length: usize, place: usize) -> usize {
    (length + place).saturating_sub(1)
}

/// The link headers of a way, and its entry.
fn front(way: usize, own: Entry) -> Case {
    let ether_type = match own {
        Entry::Ipv4 => 0x0800,
        _ => 0x86DD,
    };
    match way {
        0 => (own, Vec::new()),
        _ => (Entry::Ethernet, parts::link(way - 1, ether_type)),
    }
}

/// A packet whose room is exactly `content`. (A room of 0 bytes under IPv6 is the slice's.)
fn enclose(way: usize, by: By, number: u8, content: &[u8]) -> Case {
    let (own, header, padding) = match by {
        By::Total(padding) => {
            let total = 20 + content.len();
            (Entry::Ipv4, parts::ipv4(5, number, 0, total), padding)
        }
        By::Payload(padding) => {
            let header = parts::ipv6(number, content.len());
            (Entry::Ipv6, header, padding)
        }
        By::Slice => (Entry::Ipv6, parts::ipv6(number, 0), 0),
    };
    let (entry, mut bytes) = front(way, own);
    bytes.extend(header);
    bytes.extend_from_slice(content);
    bytes.resize(bytes.len() + padding, 0xFF);
    (entry, bytes)
}

/// `bytes` cut or drawn out to `length`, with the tail behind them.
fn sized(bytes: &[u8], length: usize) -> Vec<u8> {
    let mut sized = bytes.to_vec();
    sized.extend_from_slice(&TAIL);
    sized.resize(length, 0);
    sized
}

/// Every EtherType at the end of 0 to 3 tags, one short, exact and one long.
pub fn link_edges() -> impl Iterator<Item = Case> {
    Odometer::new([4, 3, 65_536]).map(|[tags, place, ether_type]| {
        let bytes = parts::link(tags, ether_type as u16);
        (Entry::Ethernet, sized(&bytes, near(bytes.len(), place)))
    })
}

/// Every first byte of an IP header, in slices of every length up to 61 bytes.
pub fn first_byte_edges() -> impl Iterator<Item = Case> {
    Odometer::new([WAYS, 2, 62, 256]).map(|[way, version, there, first]| {
        let (own, mut header) = match version {
            0 => (Entry::Ipv4, parts::ipv4(15, 59, 0, there)),
            _ => (Entry::Ipv6, parts::ipv6(59, there.saturating_sub(40))),
        };
        header[0] = first as u8;
        let (entry, mut bytes) = front(way, own);
        bytes.extend(sized(&header, there));
        (entry, bytes)
    })
}

/// IPv4's four length tests, for every IHL, every number and four fragment words.
pub fn ipv4_edges() -> impl Iterator<Item = Case> {
    const WORDS: [u16; 4] = [0, 0x4000, 0x2000, 1];
    Odometer::new([WAYS, 4, 16, 3, WORDS.len(), 256]).map(|[way, test, ihl, place, word, number]| {
        let length = (ihl * 4).max(20);
        let (there, total) = match test {
            0 => (near(20, place), ihl * 4),
            1 => (near(ihl * 4, place), ihl * 4),
            2 => (length + 8, near(ihl * 4, place)),
            _ => (length + 8, near(length + 8, place)),
        };
        let header = parts::ipv4(ihl, number as u8, WORDS[word], total);
        let (entry, mut bytes) = front(way, Entry::Ipv4);
        bytes.extend(sized(&header, there));
        (entry, bytes)
    })
}

/// IPv6's two length tests, for every version, every number and three sizes of content.
pub fn ipv6_edges() -> impl Iterator<Item = Case> {
    const SIZES: [usize; 3] = [0, 8, 24];
    Odometer::new([WAYS, 2, 16, SIZES.len(), 3, 256]).map(
        |[way, test, version, size, place, number]| {
            let (there, payload) = match test {
                0 => (near(40, place), SIZES[size]),
                _ => (40 + SIZES[size], near(SIZES[size], place)),
            };
            let mut header = parts::ipv6(number as u8, payload);
            header[0] = (version << 4) as u8;
            let (entry, mut bytes) = front(way, Entry::Ipv6);
            bytes.extend(sized(&header, there));
            (entry, bytes)
        },
    )
}

/// The two length tests of every extension, first and second in its chain, in every IPv6 room, for
/// every number that it names; and the same with a tail behind it.
pub fn extension_edges() -> impl Iterator<Item = Case> {
    const NUMBERS: [u8; 5] = [0, 43, 60, 44, 51];
    Odometer::new([WAYS, 3, 2, NUMBERS.len(), 4, 3, 3, 256]).map(
        |[way, room, second, kind, variant, test, place, next]| {
            let number = NUMBERS[kind];
            let header = extension(number, next as u8, variant);
            let length = extension_length(number, &header, test, place);
            let content = sized(&header, length);
            let by = ROOMS[2 + room];
            if second == 0 {
                return enclose(way, by, number, &content);
            }
            let chain = [parts::raw(number, 0), content].concat();
            enclose(way, by, 60, &chain)
        },
    )
}

/// AUTH's two length tests under IPv4, for every number that it names; and with a tail behind it.
pub fn ipv4_auth_edges() -> impl Iterator<Item = Case> {
    Odometer::new([WAYS, 2, 4, 3, 3, 256]).map(|[way, room, variant, test, place, next]| {
        let header = extension(51, next as u8, variant);
        let length = extension_length(51, &header, test, place);
        enclose(way, ROOMS[room], 51, &sized(&header, length))
    })
}

/// An extension in one of four variants: length bytes, or fragment words.
fn extension(number: u8, next: u8, variant: usize) -> Vec<u8> {
    match number {
        44 => parts::fragment(next, [0, 6, 1, 8][variant]),
        51 => parts::auth(next, [0, 1, 2, 255][variant]),
        _ => parts::raw(next, [0, 1, 2, 255][variant]),
    }
}

/// How much of an extension is there: near its least length, near its full length, or with a tail.
fn extension_length(number: u8, header: &[u8], test: usize, place: usize) -> usize {
    let least = if number == 51 { 12 } else { 8 };
    match test {
        0 => near(least, place),
        1 => near(header.len(), place),
        _ => near(header.len() + TAIL.len(), place),
    }
}

/// UDP in every room of 0 to 32 bytes with every length up to 40 and some beyond.
pub fn udp_edges() -> impl Iterator<Item = Case> {
    Odometer::new([WAYS, ROOMS.len(), 33, 44]).map(|[way, room, have, length]| {
        let length = match length {
            41 => 256,
            42 => 32_768,
            43 => 65_535,
            other => other,
        };
        enclose(way, ROOMS[room], 17, &sized(&parts::udp(length), have))
    })
}

/// TCP in every room of 0 to 64 bytes with every data offset, the bits beside it clear and set.
pub fn tcp_edges() -> impl Iterator<Item = Case> {
    Odometer::new([WAYS, ROOMS.len(), 65, 16, 2]).map(|[way, room, have, offset, beside]| {
        let mut header = parts::tcp(offset as u8);
        header[12] |= [0, 0x0F][beside];
        enclose(way, ROOMS[room], 6, &sized(&header, have))
    })
}

/// Every number directly behind an IP header, in every room of 0 to 44 bytes with three contents.
pub fn number_edges() -> impl Iterator<Item = Case> {
    const CONTENTS: [&[u8]; 3] = [&[], &TAIL, &[44, 0, 0, 1, 0, 0, 0, 0, 17]];
    Odometer::new([WAYS, ROOMS.len(), CONTENTS.len(), 45, 256]).map(
        |[way, room, content, have, number]| {
            let mut bytes = CONTENTS[content].to_vec();
            bytes.resize(have, 0);
            enclose(way, ROOMS[room], number as u8, &bytes)
        },
    )
}
