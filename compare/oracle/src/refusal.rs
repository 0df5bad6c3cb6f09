//! Refusals 1 to 7: why a frame has no answer, and everything that such a refusal carries.

use crate::reply::Kind;

/// "Source is slice, IPv4 total length, IPv6 payload length or UDP length".
#[derive(Clone, Copy, Debug, PartialEq, Eq, PartialOrd, Ord, Hash)]
pub enum Source {
    /// The lent slice's own length.
    Slice,
    /// IPv4's total length.
    Ipv4,
    /// IPv6's payload length.
    Ipv6,
    /// UDP's length.
    Udp,
}

impl Source {
    /// "sources are slice, ipv4, ipv6, udp".
    pub fn name(self) -> &'static str {
        match self {
            Source::Slice => "slice",
            Source::Ipv4 => "ipv4",
            Source::Ipv6 => "ipv6",
            Source::Udp => "udp",
        }
    }
}

/// "The layer is the header, but 'IPv4 packet' or 'IPv6 packet' for the two IP length tests and
/// 'UDP payload' where UDP's length doesn't fit".
#[derive(Clone, Copy, Debug, PartialEq, Eq, PartialOrd, Ord, Hash)]
pub enum Layer {
    /// A header.
    Header(Kind),
    /// The packet that IPv4's total length declares.
    Ipv4Packet,
    /// The packet that IPv6's payload length declares.
    Ipv6Packet,
    /// The payload that UDP's length declares.
    UdpPayload,
}

impl Layer {
    /// The header's name; "layers add ipv4-packet, ipv6-packet, udp-payload".
    pub fn name(self) -> &'static str {
        match self {
            Layer::Header(kind) => kind.name(),
            Layer::Ipv4Packet => "ipv4-packet",
            Layer::Ipv6Packet => "ipv6-packet",
            Layer::UdpPayload => "udp-payload",
        }
    }
}

/// The reason for a refusal, with what the table has it carry besides layer and offset.
#[derive(Clone, Copy, Debug, PartialEq, Eq, PartialOrd, Ord, Hash)]
pub enum Reason {
    /// 1, too short. "'Required' and 'have' count from the named header".
    TooShort {
        /// The bytes asked for.
        required: usize,
        /// The bytes there, or the value of a length field.
        have: usize,
        /// What `have` comes from.
        source: Source,
    },
    /// 2, the version found where 4 is due.
    Ipv4Version(u8),
    /// 3, an IHL below 5.
    Ihl(u8),
    /// 4, the version found where 6 is due.
    Ipv6Version(u8),
    /// 5, hop-by-hop not at start.
    HopByHopNotAtStart,
    /// 6, AUTH length byte 0.
    AuthLengthZero,
    /// 7, a TCP data offset below 5.
    TcpDataOffset(u8),
}

/// "A frame's refusal names its reason, layer and offset" (the mission, demand 1).
#[derive(Clone, Copy, Debug, PartialEq, Eq, PartialOrd, Ord, Hash)]
pub struct Refusal {
    /// What was being read.
    pub layer: Layer,
    /// Where the header begins whose test failed.
    pub offset: usize,
    /// Why it is refused.
    pub reason: Reason,
}

impl Refusal {
    /// The number in document 01's table, 1 to 7.
    pub fn number(&self) -> u8 {
        match self.reason {
            Reason::TooShort { .. } => 1,
            Reason::Ipv4Version(_) => 2,
            Reason::Ihl(_) => 3,
            Reason::Ipv6Version(_) => 4,
            Reason::HopByHopNotAtStart => 5,
            Reason::AuthLengthZero => 6,
            Reason::TcpDataOffset(_) => 7,
        }
    }

    /// The version, IHL or data offset that refusals 2, 3, 4 and 7 carry.
    pub fn value(&self) -> Option<u8> {
        match self.reason {
            Reason::Ipv4Version(value)
            | Reason::Ihl(value)
            | Reason::Ipv6Version(value)
            | Reason::TcpDataOffset(value) => Some(value),
            Reason::TooShort { .. } | Reason::HopByHopNotAtStart | Reason::AuthLengthZero => None,
        }
    }
}
