//! The proved library's answers in the oracle's types, so that they compare.

use bhirkulom as b;
use oracle as o;

pub fn entry(entry: frames::Entry) -> (b::Entry, o::Entry) {
    match entry {
        frames::Entry::Ethernet => (b::Entry::Ethernet, o::Entry::Ethernet),
        frames::Entry::Ipv4 => (b::Entry::Ipv4, o::Entry::Ipv4),
        frames::Entry::Ipv6 => (b::Entry::Ipv6, o::Entry::Ipv6),
    }
}

pub fn slice(entry: b::Entry, frame: &[u8]) -> Result<o::Sliced, o::Refusal> {
    let packet = b::SlicedPacket::from_entry(entry, frame).map_err(refusal)?;
    Ok(o::Sliced {
        link: packet.link.map(|h| span(h.offset, h.slice)),
        tags: packet
            .tags
            .iter()
            .map(|h| span(h.offset, h.slice))
            .collect(),
        net: packet.net.map(|net| o::Net {
            header: header(net.header),
            extensions: span(net.exts.offset, net.exts.slice),
            fragmented: net.fragmented,
        }),
        transport: packet.transport.map(header),
        payload: span(packet.payload.offset, packet.payload.slice),
        naming: match packet.number {
            b::Number::EtherType(number) => o::Naming::Ether(o::EtherType(number)),
            b::Number::Ip(number) => o::Naming::Ip(o::IpNumber(number)),
        },
        stop: stop(packet.stop),
    })
}

pub fn header_at(entry: b::Entry, frame: &[u8], k: usize) -> o::HeaderAnswer {
    match b::header(entry, frame, k) {
        Ok(Some(found)) => o::HeaderAnswer::Is(header(found)),
        Ok(None) => o::HeaderAnswer::NoMore,
        Err(refused) => o::HeaderAnswer::Refused(refusal(refused)),
    }
}

/// All headers from one walk.
pub fn headers(entry: b::Entry, frame: &[u8]) -> Result<Vec<o::Header>, o::Refusal> {
    b::headers(entry, frame).map(|h| h.map(header).map_err(refusal)).collect()
}

pub fn count(entry: b::Entry, frame: &[u8]) -> Result<usize, o::Refusal> {
    b::count(entry, frame).map_err(refusal)
}

pub fn option(bytes: &[u8], k: usize) -> o::OptionAnswer {
    match b::tcp_option(bytes, k) {
        Ok(Some(found)) => o::OptionAnswer::Is {
            kind: found.kind.number(),
            offset: found.offset,
            size: found.slice.len(),
        },
        Ok(None) => o::OptionAnswer::NoMore,
        Err(refused) => o::OptionAnswer::Refused {
            number: refused.number(),
            offset: refused.offset,
        },
    }
}

/// The answer and the answer without zero, each as the two bytes that go into the header.
pub fn sum(pieces: &[&[u8]]) -> [[u8; 2]; 2] {
    let sum = pieces
        .iter()
        .fold(b::Sum16BitWords::new(), |sum, piece| sum.add_slice(piece));
    [
        sum.ones_complement().to_be_bytes(),
        sum.to_ones_complement_with_no_zero().to_be_bytes(),
    ]
}

fn span(offset: usize, bytes: &[u8]) -> o::Span {
    o::Span {
        offset,
        length: bytes.len(),
    }
}

fn header(found: b::HeaderSlice<'_>) -> o::Header {
    o::Header {
        kind: kind(found.kind),
        offset: found.offset,
        length: found.slice.len(),
    }
}

fn kind(kind: b::Kind) -> o::Kind {
    match kind {
        b::Kind::Ethernet2 => o::Kind::Ethernet2,
        b::Kind::Vlan => o::Kind::Vlan,
        b::Kind::Ipv4 => o::Kind::Ipv4,
        b::Kind::Ipv6 => o::Kind::Ipv6,
        b::Kind::HopByHop => o::Kind::HopByHop,
        b::Kind::Routing => o::Kind::Routing,
        b::Kind::Destination => o::Kind::Destination,
        b::Kind::Fragment => o::Kind::Fragment,
        b::Kind::Auth => o::Kind::Auth,
        b::Kind::Udp => o::Kind::Udp,
        b::Kind::Tcp => o::Kind::Tcp,
    }
}

fn stop(stop: b::Stop) -> o::Stop {
    match stop {
        b::Stop::EtherTypeNotOpened => o::Stop::EtherTypeNotOpened,
        b::Stop::TagsFull => o::Stop::TagsFull,
        b::Stop::Fragment => o::Stop::Fragment,
        b::Stop::IpNumberNotOpened => o::Stop::IpNumberNotOpened,
        b::Stop::TransportRead => o::Stop::TransportRead,
    }
}

fn refusal(refusal: b::Refusal) -> o::Refusal {
    o::Refusal {
        layer: match refusal.layer {
            b::Layer::Header(of) => o::Layer::Header(kind(of)),
            b::Layer::Ipv4Packet => o::Layer::Ipv4Packet,
            b::Layer::Ipv6Packet => o::Layer::Ipv6Packet,
            b::Layer::UdpPayload => o::Layer::UdpPayload,
        },
        offset: refusal.offset,
        reason: reason(refusal.reason),
    }
}

fn reason(reason: b::Reason) -> o::Reason {
    match reason {
        b::Reason::TooShort {
            required,
            have,
            source,
        } => o::Reason::TooShort {
            required,
            have,
            source: match source {
                b::Source::Slice => o::Source::Slice,
                b::Source::Ipv4 => o::Source::Ipv4,
                b::Source::Ipv6 => o::Source::Ipv6,
                b::Source::Udp => o::Source::Udp,
            },
        },
        b::Reason::Ipv4Version(value) => o::Reason::Ipv4Version(value),
        b::Reason::SmallIhl(value) => o::Reason::Ihl(value),
        b::Reason::Ipv6Version(value) => o::Reason::Ipv6Version(value),
        b::Reason::HopByHopNotAtStart => o::Reason::HopByHopNotAtStart,
        b::Reason::ZeroAuthLength => o::Reason::AuthLengthZero,
        b::Reason::SmallDataOffset(value) => o::Reason::TcpDataOffset(value),
    }
}
