//! A frame's refusal: its reason, layer and offset, with all that document 01's table has it carry.

use crate::boundary::Row;
use crate::header::Kind;
use std::error::Error;
use std::fmt;

/// What was being read.
#[derive(Clone, Copy, Debug, PartialEq, Eq, Hash)]
pub enum Layer {
    /// A header.
    Header(Kind),
    /// The packet that IPv4's total length declares.
    Ipv4Packet,
    /// The packet that IPv6's payload length declares.
    Ipv6Packet,
    /// The payload that UDP's length declares.
    UdpPayload,
}

/// What set the length that was found too short.
#[derive(Clone, Copy, Debug, PartialEq, Eq, Hash)]
pub enum Source {
    /// The length of the lent slice.
    Slice,
    /// IPv4's total length.
    Ipv4,
    /// IPv6's payload length.
    Ipv6,
    /// UDP's length.
    Udp,
}

/// Why a frame is refused. The numbers are those of document 01's table.
#[derive(Clone, Copy, Debug, PartialEq, Eq, Hash)]
pub enum Reason {
    /// 1: too short. Both counts begin at the named header.
    TooShort {
        /// The bytes asked for.
        required: usize,
        /// The bytes there, or the value of the length field that was too small.
        have: usize,
        /// What `have` comes from.
        source: Source,
    },
    /// 2: the version found where 4 is due.
    Ipv4Version(u8),
    /// 3: an IHL below 5.
    SmallIhl(u8),
    /// 4: the version found where 6 is due.
    Ipv6Version(u8),
    /// 5: a hop-by-hop header that isn't directly behind the IPv6 header.
    HopByHopNotAtStart,
    /// 6: an AUTH header whose length byte is 0.
    ZeroAuthLength,
    /// 7: a TCP data offset below 5.
    SmallDataOffset(u8),
}

/// Why a frame has no parts: the first test that failed, in walk order.
#[derive(Clone, Copy, Debug, PartialEq, Eq, Hash)]
pub struct Refusal {
    /// What was being read.
    pub layer: Layer,
    /// Where that header begins, counted from the slice's start.
    pub offset: usize,
    /// Why it is refused.
    pub reason: Reason,
}

impl Layer {
    /// The name that the program `slice_frame` prints.
    pub fn name(self) -> &'static str {
        match self {
            Layer::Header(kind) => kind.name(),
            Layer::Ipv4Packet => "ipv4-packet",
            Layer::Ipv6Packet => "ipv6-packet",
            Layer::UdpPayload => "udp-payload",
        }
    }

    fn by_number(number: usize) -> Layer {
        match number {
            13 => Layer::Ipv4Packet,
            14 => Layer::Ipv6Packet,
            15 => Layer::UdpPayload,
            kind => Layer::Header(Kind::by_number(kind)),
        }
    }
}

impl Source {
    /// The name that the program `slice_frame` prints.
    pub fn name(self) -> &'static str {
        match self {
            Source::Slice => "slice",
            Source::Ipv4 => "ipv4",
            Source::Ipv6 => "ipv6",
            Source::Udp => "udp",
        }
    }

    fn by_number(number: usize) -> Source {
        match number {
            1 => Source::Slice,
            2 => Source::Ipv4,
            3 => Source::Ipv6,
            4 => Source::Udp,
            other => unreachable!("no source has the number {other}"),
        }
    }
}

/// The name.
impl fmt::Display for Layer {
    fn fmt(&self, f: &mut fmt::Formatter<'_>) -> fmt::Result {
        f.pad(self.name())
    }
}

/// The name.
impl fmt::Display for Source {
    fn fmt(&self, f: &mut fmt::Formatter<'_>) -> fmt::Result {
        f.pad(self.name())
    }
}

impl Refusal {
    /// The number in document 01's table, 1 to 7.
    pub fn number(&self) -> u8 {
        match self.reason {
            Reason::TooShort { .. } => 1,
            Reason::Ipv4Version(_) => 2,
            Reason::SmallIhl(_) => 3,
            Reason::Ipv6Version(_) => 4,
            Reason::HopByHopNotAtStart => 5,
            Reason::ZeroAuthLength => 6,
            Reason::SmallDataOffset(_) => 7,
        }
    }

    pub(crate) fn from_row(row: &Row) -> Refusal {
        let [first, have, source] = row.values;
        // versions, IHL and data offset are four bits wide, so nothing is cut off
        let value = first as u8;
        let reason = match row.number {
            1 => Reason::TooShort {
                required: first,
                have,
                source: Source::by_number(source),
            },
            2 => Reason::Ipv4Version(value),
            3 => Reason::SmallIhl(value),
            4 => Reason::Ipv6Version(value),
            5 => Reason::HopByHopNotAtStart,
            6 => Reason::ZeroAuthLength,
            7 => Reason::SmallDataOffset(value),
            other => unreachable!("no refusal of a frame has the number {other}"),
        };
        Refusal {
            layer: Layer::by_number(row.layer),
            offset: row.offset,
            reason,
        }
    }
}

/// The line that the program `slice_frame` prints.
impl fmt::Display for Refusal {
    fn fmt(&self, f: &mut fmt::Formatter<'_>) -> fmt::Result {
        let (number, layer) = (self.number(), self.layer.name());
        write!(f, "refused {number} {layer} {}", self.offset)?;
        match self.reason {
            Reason::TooShort { required, have, source } => {
                let source = source.name();
                write!(f, " required {required} have {have} source {source}")
            }
            Reason::Ipv4Version(value)
            | Reason::SmallIhl(value)
            | Reason::Ipv6Version(value)
            | Reason::SmallDataOffset(value) => write!(f, " {value}"),
            Reason::HopByHopNotAtStart | Reason::ZeroAuthLength => Ok(()),
        }
    }
}

impl Error for Refusal {}
