//! Document 01's rules read backwards: whether a list of headers is a chain of a frame.

use oracle::{Header, Kind, Sliced, Stop};

/// What a header names: a type of the link layer, or an IP number.
#[derive(Clone, Copy, PartialEq, Eq)]
enum Name {
    Ether(u16),
    Ip(u8),
    Nothing,
}

/// Asserts that the list is a chain from offset 0, begun with `first`, that ends as `sliced` says:
/// "each later one begins where the last ended and is the kind that the last one named, each [...]
/// has the length its own fields give and lies whole inside its room".
pub fn assert_chain(first: Kind, frame: &[u8], list: &[Header], sliced: &Sliced) {
    let mut at = 0;
    let mut end = frame.len();
    let mut name = Name::Nothing;
    let mut fragmented = false;
    for (place, header) in list.iter().enumerate() {
        let bytes = &frame[header.offset..];
        assert_eq!(header.offset, at);
        assert_eq!(header.length, length(header.kind, bytes));
        if place == 0 {
            assert_eq!(header.kind, first);
        } else {
            assert!(may_follow(name, list[place - 1].kind, header.kind));
        }
        end = room_end(header, bytes, end);
        at += header.length;
        assert!(at <= end && end <= frame.len());
        fragmented |= fragments(header.kind, bytes);
        name = names(header.kind, bytes);
    }
    assert_eq!(
        (sliced.payload.offset, sliced.payload.length),
        (at, end - at)
    );
    let tags = list.iter().filter(|one| one.kind == Kind::Vlan).count();
    let last = list[list.len() - 1].kind;
    assert_eq!(sliced.stop, stop(name, last, tags, fragmented));
}

fn pair(bytes: &[u8], at: usize) -> usize {
    usize::from(bytes[at]) << 8 | usize::from(bytes[at + 1])
}

fn length(kind: Kind, bytes: &[u8]) -> usize {
    match kind {
        Kind::Ethernet2 => 14,
        Kind::Vlan => 4,
        Kind::Ipv4 => usize::from(bytes[0] % 16) * 4,
        Kind::Ipv6 => 40,
        Kind::HopByHop | Kind::Routing | Kind::Destination => 8 + usize::from(bytes[1]) * 8,
        Kind::Fragment | Kind::Udp => 8,
        Kind::Auth => 8 + usize::from(bytes[1]) * 4,
        Kind::Tcp => usize::from(bytes[12] / 16) * 4,
    }
}

fn names(kind: Kind, bytes: &[u8]) -> Name {
    match kind {
        Kind::Ethernet2 => Name::Ether(pair(bytes, 12) as u16),
        Kind::Vlan => Name::Ether(pair(bytes, 2) as u16),
        Kind::Ipv4 => Name::Ip(bytes[9]),
        Kind::Ipv6 => Name::Ip(bytes[6]),
        Kind::Udp | Kind::Tcp => Name::Nothing,
        _ => Name::Ip(bytes[0]),
    }
}

fn may_follow(name: Name, last: Kind, kind: Kind) -> bool {
    match name {
        Name::Ether(0x8100 | 0x88A8 | 0x9100) => kind == Kind::Vlan,
        Name::Ether(0x0800) => kind == Kind::Ipv4,
        Name::Ether(0x86DD) => kind == Kind::Ipv6,
        Name::Ip(0) => kind == Kind::HopByHop && last == Kind::Ipv6,
        Name::Ip(43) => kind == Kind::Routing && last != Kind::Ipv4,
        Name::Ip(60) => kind == Kind::Destination && last != Kind::Ipv4,
        Name::Ip(44) => kind == Kind::Fragment && last != Kind::Ipv4,
        Name::Ip(51) => kind == Kind::Auth,
        Name::Ip(17) => kind == Kind::Udp,
        Name::Ip(6) => kind == Kind::Tcp,
        _ => false,
    }
}

fn room_end(header: &Header, bytes: &[u8], end: usize) -> usize {
    match header.kind {
        Kind::Ipv4 => header.offset + pair(bytes, 2),
        Kind::Ipv6 if pair(bytes, 4) != 0 => header.offset + 40 + pair(bytes, 4),
        Kind::Udp if pair(bytes, 4) != 0 => header.offset + pair(bytes, 4),
        _ => end,
    }
}

fn fragments(kind: Kind, bytes: &[u8]) -> bool {
    match kind {
        Kind::Ipv4 => bytes[6] & 0x3F != 0 || bytes[7] != 0,
        Kind::Fragment => bytes[3] & 1 != 0 || pair(bytes, 2) / 8 != 0,
        _ => false,
    }
}

fn stop(name: Name, last: Kind, tags: usize, fragmented: bool) -> Stop {
    match name {
        Name::Ether(0x8100 | 0x88A8 | 0x9100) => {
            assert_eq!(tags, 3);
            Stop::TagsFull
        }
        Name::Ether(other) => {
            assert!(other != 0x0800 && other != 0x86DD);
            Stop::EtherTypeNotOpened
        }
        Name::Nothing => Stop::TransportRead,
        Name::Ip(_) if fragmented => Stop::Fragment,
        Name::Ip(other) => {
            assert!(
                other != 17 && other != 6,
                "transport left unopened behind {last:?}"
            );
            Stop::IpNumberNotOpened
        }
    }
}
