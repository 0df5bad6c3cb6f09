//! The reply to an accepted frame, and the answer to "header number k".

use crate::number::Naming;
use crate::refusal::Refusal;

/// The kinds of header, "numbered from 1".
#[derive(Clone, Copy, Debug, PartialEq, Eq, PartialOrd, Ord, Hash)]
pub enum Kind {
    /// Ethernet II.
    Ethernet2 = 1,
    /// A VLAN tag.
    Vlan = 2,
    /// IPv4 (RFC 791).
    Ipv4 = 3,
    /// IPv6 (RFC 8200, section 3).
    Ipv6 = 4,
    /// Hop-by-hop options (RFC 8200, section 4.3).
    HopByHop = 5,
    /// Routing (RFC 8200, section 4.4).
    Routing = 6,
    /// Destination options (RFC 8200, section 4.6).
    Destination = 7,
    /// Fragment (RFC 8200, section 4.5).
    Fragment = 8,
    /// Authentication (RFC 4302).
    Auth = 9,
    /// UDP (RFC 768).
    Udp = 10,
    /// TCP (RFC 9293).
    Tcp = 11,
}

impl Kind {
    /// "The program's header names, numbered from 1".
    pub fn number(self) -> u8 {
        self as u8
    }

    /// The name that the program prints.
    pub fn name(self) -> &'static str {
        match self {
            Kind::Ethernet2 => "ethernet2",
            Kind::Vlan => "vlan",
            Kind::Ipv4 => "ipv4",
            Kind::Ipv6 => "ipv6",
            Kind::HopByHop => "hop-by-hop",
            Kind::Routing => "routing",
            Kind::Destination => "destination",
            Kind::Fragment => "fragment",
            Kind::Auth => "auth",
            Kind::Udp => "udp",
            Kind::Tcp => "tcp",
        }
    }
}

/// A part of the frame: "use offset and length records".
#[derive(Clone, Copy, Debug, PartialEq, Eq, PartialOrd, Ord, Hash)]
pub struct Span {
    /// Where it begins, counted from the frame's first byte.
    pub offset: usize,
    /// How many bytes it has.
    pub length: usize,
}

/// "A header's answer is its kind, offset and length."
#[derive(Clone, Copy, Debug, PartialEq, Eq, PartialOrd, Ord, Hash)]
pub struct Header {
    /// Its kind.
    pub kind: Kind,
    /// Where it begins, counted from the frame's first byte.
    pub offset: usize,
    /// How many bytes it has.
    pub length: usize,
}

impl Header {
    /// The bytes of the header.
    pub fn span(&self) -> Span {
        Span {
            offset: self.offset,
            length: self.length,
        }
    }
}

/// "IP header and extension range; fragment flag".
#[derive(Clone, Copy, Debug, PartialEq, Eq, PartialOrd, Ord, Hash)]
pub struct Net {
    /// The IPv4 or IPv6 header, without extensions.
    pub header: Header,
    /// The extensions as one range; with none, the empty range at the IP header's end.
    pub extensions: Span,
    /// IPv4: "more-fragments bit or nonzero offset". IPv6: "one fragmenting header marks the
    /// packet".
    pub fragmented: bool,
}

/// "Why it stopped".
#[derive(Clone, Copy, Debug, PartialEq, Eq, PartialOrd, Ord, Hash)]
pub enum Stop {
    /// 1, EtherType not opened.
    EtherTypeNotOpened = 1,
    /// 2, tags full.
    TagsFull = 2,
    /// 3, fragment; "3 comes before 4".
    Fragment = 3,
    /// 4, IP number not opened.
    IpNumberNotOpened = 4,
    /// 5, transport read.
    TransportRead = 5,
}

impl Stop {
    /// The number on paper, 1 to 5.
    pub fn number(self) -> u8 {
        self as u8
    }
}

/// "Accepted: Ethernet header; tags; IP header and extension range; fragment flag; transport;
/// payload range and the number naming it; why it stopped".
#[derive(Clone, Debug, PartialEq, Eq, PartialOrd, Ord, Hash)]
pub struct Sliced {
    /// The Ethernet header; none at the two IP entries.
    pub link: Option<Span>,
    /// The tags, outermost first, at most three.
    pub tags: Vec<Span>,
    /// The IP part; none at stops 1 and 2.
    pub net: Option<Net>,
    /// The UDP or TCP header; there at stop 5 only.
    pub transport: Option<Header>,
    /// What follows the last header read.
    pub payload: Span,
    /// The number naming the payload.
    pub naming: Naming,
    /// Why the walk stopped.
    pub stop: Stop,
}

/// The answer to "header number k of a frame".
#[derive(Clone, Copy, Debug, PartialEq, Eq, PartialOrd, Ord, Hash)]
pub enum HeaderAnswer {
    /// The header at that place.
    Is(Header),
    /// "Past the last header of an accepted one the answer is 'no more'".
    NoMore,
    /// "Header k of a refused frame is that refusal for every k".
    Refused(Refusal),
}
