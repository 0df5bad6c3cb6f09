//! The reply to a frame: its parts, as slices of the frame, or its refusal.

use crate::boundary::{self, Head, Net, Packet, Span, ETHER_TYPE, IP_NUMBER, REFUSED, THERE};
use crate::header::{Entry, HeaderSlice, Kind};
use crate::options::{tcp_options, TcpOptionsIterator};
use crate::refusal::Refusal;
use std::fmt;
use std::hash::{Hash, Hasher};
use std::ops::Deref;
use std::slice;

pub use crate::boundary::TAG_LIMIT;

/// Some bytes of a frame, and where they begin.
#[derive(Clone, Copy, Debug, PartialEq, Eq, Hash)]
pub struct PartSlice<'a> {
    /// Where they begin.
    pub offset: usize,
    /// The bytes.
    pub slice: &'a [u8],
}

/// An IP header with its extensions.
#[derive(Clone, Copy, Debug, PartialEq, Eq, Hash)]
pub struct NetSlice<'a> {
    /// The IPv4 or IPv6 header.
    pub header: HeaderSlice<'a>,
    /// Its extensions as one part, empty at the header's end where there are none.
    pub exts: PartSlice<'a>,
    /// The packet is a fragment, so no transport is opened.
    pub fragmented: bool,
}

/// The VLAN tags of a frame, outermost first, as a slice of them.
///
/// ```
/// # let mut frame = [0; 22];
/// # frame[12..14].copy_from_slice(&[0x88, 0xa8]);
/// # frame[16..18].copy_from_slice(&[0x81, 0x00]);
/// let packet = bhirkulom::SlicedPacket::from_ethernet(&frame)?;
/// for tag in &packet.tags {
///     println!("tag at {}, identifier {}", tag.offset, u16::from_be_bytes([tag.slice[0], tag.slice[1]]) & 0x0fff);
/// }
/// assert_eq!(packet.tags.len(), 2);
/// # Ok::<(), bhirkulom::Refusal>(())
/// ```
#[derive(Clone, Copy, PartialEq, Eq)]
pub struct Tags<'a> {
    held: [HeaderSlice<'a>; TAG_LIMIT],
    count: usize,
}

/// The number that names the payload.
#[derive(Clone, Copy, Debug, PartialEq, Eq, Hash)]
pub enum Number {
    /// An EtherType: the walk stopped in the link layer.
    EtherType(u16),
    /// An IP protocol number.
    Ip(u8),
}

/// Why the walk stopped.
#[derive(Clone, Copy, Debug, PartialEq, Eq, Hash)]
pub enum Stop {
    /// The EtherType isn't one that is opened.
    EtherTypeNotOpened = 1,
    /// A tag type was met with as many tags held as there is room for.
    TagsFull = 2,
    /// The packet is a fragment.
    Fragment = 3,
    /// The IP number isn't one that is opened.
    IpNumberNotOpened = 4,
    /// The transport header was read.
    TransportRead = 5,
}

/// An accepted frame cut into its parts.
#[derive(Clone, Copy, Debug, PartialEq, Eq, Hash)]
pub struct SlicedPacket<'a> {
    /// The Ethernet header; none at the two IP entries.
    pub link: Option<HeaderSlice<'a>>,
    /// The VLAN tags.
    pub tags: Tags<'a>,
    /// The IP header with its extensions.
    pub net: Option<NetSlice<'a>>,
    /// The UDP or TCP header.
    pub transport: Option<HeaderSlice<'a>>,
    /// What follows the last header read, up to the end that the lengths declare.
    pub payload: PartSlice<'a>,
    /// The number that names the payload.
    pub number: Number,
    /// Why the walk stopped.
    pub stop: Stop,
}

impl<'a> SlicedPacket<'a> {
    /// A whole Ethernet II frame, without the frame check sequence.
    pub fn from_ethernet(frame: &'a [u8]) -> Result<SlicedPacket<'a>, Refusal> {
        SlicedPacket::from_entry(Entry::Ethernet, frame)
    }

    /// A packet known to be IPv4.
    pub fn from_ipv4(packet: &'a [u8]) -> Result<SlicedPacket<'a>, Refusal> {
        SlicedPacket::from_entry(Entry::Ipv4, packet)
    }

    /// A packet known to be IPv6.
    pub fn from_ipv6(packet: &'a [u8]) -> Result<SlicedPacket<'a>, Refusal> {
        SlicedPacket::from_entry(Entry::Ipv6, packet)
    }

    /// A frame that begins as `entry` says.
    pub fn from_entry(entry: Entry, frame: &'a [u8]) -> Result<SlicedPacket<'a>, Refusal> {
        let reply = boundary::slice(frame, entry as usize);
        match reply.status {
            THERE => Ok(SlicedPacket::new(frame, &reply)),
            REFUSED => Err(Refusal::from_row(&reply.refusal)),
            other => unreachable!("no reply has the status {other}"),
        }
    }

    /// The TCP options; none where no TCP header was read.
    pub fn tcp_options(&self) -> Option<TcpOptionsIterator<'a>> {
        let header = self.transport.filter(|header| header.kind == Kind::Tcp)?;
        // an accepted TCP header has 20 bytes at least: its data offset is 5 or more
        Some(tcp_options(&header.slice[20..]))
    }

    fn new(frame: &'a [u8], reply: &Packet) -> SlicedPacket<'a> {
        SlicedPacket {
            link: part(frame, reply.link),
            tags: Tags::new(frame, reply),
            net: NetSlice::new(frame, &reply.net),
            transport: part(frame, reply.transport),
            payload: PartSlice::new(frame, reply.payload),
            number: Number::new(reply.numbering, reply.number),
            stop: Stop::by_number(reply.stop),
        }
    }
}

/// A header, or none where the kind is 0.
fn part(frame: &[u8], head: Head) -> Option<HeaderSlice<'_>> {
    (head.kind != 0).then(|| HeaderSlice::new(frame, head))
}

impl<'a> PartSlice<'a> {
    // every part of an accepted frame lies inside it, so the bytes are there (crate chain, Inside)
    fn new(frame: &'a [u8], span: Span) -> PartSlice<'a> {
        PartSlice {
            offset: span.at,
            slice: &frame[span.at..span.at + span.len],
        }
    }
}

impl<'a> NetSlice<'a> {
    fn new(frame: &'a [u8], net: &Net) -> Option<NetSlice<'a>> {
        part(frame, net.header).map(|header| NetSlice {
            header,
            exts: PartSlice::new(frame, net.exts),
            fragmented: net.fragmented,
        })
    }
}

impl<'a> Tags<'a> {
    fn new(frame: &'a [u8], reply: &Packet) -> Tags<'a> {
        // slots behind the count are zeros, which are an empty part of any frame
        let held = reply.tags.map(|tag| {
            let PartSlice { offset, slice } = PartSlice::new(frame, tag);
            HeaderSlice {
                kind: Kind::Vlan,
                offset,
                slice,
            }
        });
        Tags {
            held,
            count: reply.count,
        }
    }
}

impl<'a> Deref for Tags<'a> {
    type Target = [HeaderSlice<'a>];

    fn deref(&self) -> &[HeaderSlice<'a>] {
        &self.held[..self.count]
    }
}

impl<'t, 'a> IntoIterator for &'t Tags<'a> {
    type Item = &'t HeaderSlice<'a>;
    type IntoIter = slice::Iter<'t, HeaderSlice<'a>>;

    fn into_iter(self) -> Self::IntoIter {
        self.iter()
    }
}

impl Hash for Tags<'_> {
    fn hash<H: Hasher>(&self, state: &mut H) {
        (**self).hash(state);
    }
}

impl fmt::Debug for Tags<'_> {
    fn fmt(&self, f: &mut fmt::Formatter<'_>) -> fmt::Result {
        f.debug_list().entries(self.iter()).finish()
    }
}

impl Number {
    // an EtherType has two bytes, an IP number one
    fn new(numbering: usize, number: usize) -> Number {
        match numbering {
            ETHER_TYPE => Number::EtherType(number as u16),
            IP_NUMBER => Number::Ip(number as u8),
            other => unreachable!("no number of an accepted frame has the numbering {other}"),
        }
    }
}

/// `ether-type` or `ip-number`, and the number.
impl fmt::Display for Number {
    fn fmt(&self, f: &mut fmt::Formatter<'_>) -> fmt::Result {
        match self {
            Number::EtherType(number) => write!(f, "ether-type 0x{number:04x}"),
            Number::Ip(number) => write!(f, "ip-number {number}"),
        }
    }
}

impl Stop {
    /// The number in document 01, 1 to 5.
    pub fn number(self) -> u8 {
        self as u8
    }

    fn by_number(number: usize) -> Stop {
        match number {
            1 => Stop::EtherTypeNotOpened,
            2 => Stop::TagsFull,
            3 => Stop::Fragment,
            4 => Stop::IpNumberNotOpened,
            5 => Stop::TransportRead,
            other => unreachable!("no stop has the number {other}"),
        }
    }
}

/// What the number stands for, in a few words.
impl fmt::Display for Stop {
    fn fmt(&self, f: &mut fmt::Formatter<'_>) -> fmt::Result {
        f.pad(match self {
            Stop::EtherTypeNotOpened => "an EtherType that is not opened",
            Stop::TagsFull => "more tags than are opened",
            Stop::Fragment => "a fragment",
            Stop::IpNumberNotOpened => "an IP number that is not opened",
            Stop::TransportRead => "a transport header was read",
        })
    }
}
