//! Headers by number, and their count.

use crate::boundary::{self, Head, NO_MORE, REFUSED, THERE};
use crate::refusal::Refusal;
use std::fmt;
use std::iter::FusedIterator;

/// How a frame begins. Offsets count from the slice's start.
#[derive(Clone, Copy, Debug, PartialEq, Eq, Hash)]
pub enum Entry {
    /// A whole Ethernet II frame, without the frame check sequence.
    Ethernet = 1,
    /// A packet known to be IPv4.
    Ipv4 = 2,
    /// A packet known to be IPv6.
    Ipv6 = 3,
}

/// The kinds of header, with document 01's numbers.
#[derive(Clone, Copy, Debug, PartialEq, Eq, PartialOrd, Ord, Hash)]
pub enum Kind {
    /// Ethernet II.
    Ethernet2 = 1,
    /// A VLAN tag (types 0x8100, 0x88A8 and 0x9100).
    Vlan = 2,
    /// IPv4, its options included.
    Ipv4 = 3,
    /// IPv6, without its extensions.
    Ipv6 = 4,
    /// IPv6's hop-by-hop options.
    HopByHop = 5,
    /// IPv6's routing header.
    Routing = 6,
    /// IPv6's destination options.
    Destination = 7,
    /// IPv6's fragment header.
    Fragment = 8,
    /// The authentication header, behind IPv4 or IPv6.
    Auth = 9,
    /// UDP.
    Udp = 10,
    /// TCP, its options included.
    Tcp = 11,
}

/// A header of a frame: its kind, its offset and its bytes.
#[derive(Clone, Copy, Debug, PartialEq, Eq, Hash)]
pub struct HeaderSlice<'a> {
    /// What it is.
    pub kind: Kind,
    /// Where it begins.
    pub offset: usize,
    /// Its bytes.
    pub slice: &'a [u8],
}

impl Kind {
    /// The name that the program `slice_frame` prints.
    pub fn name(self) -> &'static str {
        match self {
            Kind::Ethernet2 => "ethernet2",
            Kind::Vlan => "vlan",
            Kind::Ipv4 => "ipv4",
            Kind::Ipv6 => "ipv6",
            Kind::HopByHop => "hop-by-hop",
            Kind::Routing => "routing",
            Kind::Destination => "destination",
            Kind::Fragment => "fragment",
            Kind::Auth => "auth",
            Kind::Udp => "udp",
            Kind::Tcp => "tcp",
        }
    }

    pub(crate) fn by_number(number: usize) -> Kind {
        match number {
            1 => Kind::Ethernet2,
            2 => Kind::Vlan,
            3 => Kind::Ipv4,
            4 => Kind::Ipv6,
            5 => Kind::HopByHop,
            6 => Kind::Routing,
            7 => Kind::Destination,
            8 => Kind::Fragment,
            9 => Kind::Auth,
            10 => Kind::Udp,
            11 => Kind::Tcp,
            other => unreachable!("no kind has the number {other}"),
        }
    }
}

/// The name.
impl fmt::Display for Kind {
    fn fmt(&self, f: &mut fmt::Formatter<'_>) -> fmt::Result {
        f.pad(self.name())
    }
}

impl<'a> HeaderSlice<'a> {
    // every header of an accepted frame lies inside it, so the bytes are there (crate chain, Inside)
    pub(crate) fn new(frame: &'a [u8], head: Head) -> HeaderSlice<'a> {
        HeaderSlice {
            kind: Kind::by_number(head.kind),
            offset: head.at,
            slice: &frame[head.at..head.at + head.len],
        }
    }
}

/// Header number k of a frame, counted from 0; none past the last one. A refused frame gives its refusal for every k.
pub fn header(entry: Entry, frame: &[u8], k: usize) -> Result<Option<HeaderSlice<'_>>, Refusal> {
    let reply = boundary::header(frame, entry as usize, k);
    match reply.status {
        THERE => Ok(Some(HeaderSlice::new(frame, reply.header))),
        NO_MORE => Ok(None),
        REFUSED => Err(Refusal::from_row(&reply.refusal)),
        other => unreachable!("no header's answer has the status {other}"),
    }
}

/// How many headers a frame has; a refused one has none, but its refusal.
pub fn count(entry: Entry, frame: &[u8]) -> Result<usize, Refusal> {
    let reply = boundary::count(frame, entry as usize);
    match reply.status {
        THERE => Ok(reply.count),
        REFUSED => Err(Refusal::from_row(&reply.refusal)),
        other => unreachable!("no count has the status {other}"),
    }
}

/// The headers of a frame, in order; of a refused frame its refusal, once.
///
/// The frame is walked once; a second time if it has more than 16 headers, whose numbers are then kept on the heap.
///
/// ```
/// use bhirkulom::{headers, Entry};
///
/// // IPv6 of payload length 0, then a destination header that names 59, which isn't opened
/// let mut packet = [0; 48];
/// packet[0] = 0x60;
/// packet[6] = 60;
/// packet[40] = 59;
/// let names: Vec<_> = headers(Entry::Ipv6, &packet).map(|h| h.unwrap().kind.name()).collect();
/// assert_eq!(names, ["ipv6", "destination"]);
/// assert_eq!(headers(Entry::Ipv6, &packet[..39]).filter(|h| h.is_err()).count(), 1);
/// ```
pub fn headers(entry: Entry, frame: &[u8]) -> Headers<'_> {
    let mut few = [0; NUMBERS * FEW];
    let mut many = Vec::new();
    let reply = boundary::headers(frame, entry as usize, 0, &mut few);
    if reply.count > FEW {
        many = vec![0; NUMBERS * reply.count];
        boundary::headers(frame, entry as usize, 0, &mut many);
    }
    let refusal = (reply.status == REFUSED).then(|| Refusal::from_row(&reply.refusal));
    Headers { frame, few, many, next: 0, count: reply.count, refusal }
}

/// How many numbers tell of a header: its kind, its offset and its length.
const NUMBERS: usize = 3;

/// How many headers are kept without the heap.
const FEW: usize = 16;

/// The iterator of [`headers`].
#[derive(Clone, Debug)]
pub struct Headers<'a> {
    frame: &'a [u8],
    // zeros behind the headers; zeros alone for a refused frame
    few: [usize; NUMBERS * FEW],
    // empty where the few suffice
    many: Vec<usize>,
    next: usize,
    count: usize,
    refusal: Option<Refusal>,
}

impl<'a> Iterator for Headers<'a> {
    type Item = Result<HeaderSlice<'a>, Refusal>;

    fn next(&mut self) -> Option<Self::Item> {
        if let Some(refusal) = self.refusal.take() {
            return Some(Err(refusal));
        }
        if self.next == self.count {
            return None;
        }
        let numbers = if self.many.is_empty() { &self.few[..] } else { &self.many };
        let at = NUMBERS * self.next;
        self.next += 1;
        let head = Head { kind: numbers[at], at: numbers[at + 1], len: numbers[at + 2] };
        Some(Ok(HeaderSlice::new(self.frame, head)))
    }

    fn size_hint(&self) -> (usize, Option<usize>) {
        // of a refused frame the count is 0
        let left = self.count - self.next + usize::from(self.refusal.is_some());
        (left, Some(left))
    }
}

impl ExactSizeIterator for Headers<'_> {}

impl FusedIterator for Headers<'_> {}
