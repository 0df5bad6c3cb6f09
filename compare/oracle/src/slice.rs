//! The questions about a frame: its reply, its headers, header number k and the count of headers.

use crate::cursor::Cursor;
use crate::link::{self, Link};
use crate::number::{EtherType, IpNumber, Naming};
use crate::refusal::Refusal;
use crate::reply::{Header, HeaderAnswer, Net, Sliced, Stop};
use crate::{ipv4, ipv6, transport};

/// "Entries: a whole Ethernet II frame, a packet known to be IPv4, and a packet known to be IPv6
/// (offsets then count from the packet's start)."
#[derive(Clone, Copy, Debug, PartialEq, Eq, PartialOrd, Ord, Hash)]
pub enum Entry {
    /// A whole Ethernet II frame, without the frame check sequence.
    Ethernet,
    /// A packet known to be IPv4; its version is tested all the same.
    Ipv4,
    /// A packet known to be IPv6; its version is tested all the same.
    Ipv6,
}

/// The reply to a frame of any length, or the refusal "of the first test failed in walk order".
pub fn slice(entry: Entry, frame: &[u8]) -> Result<Sliced, Refusal> {
    walk(entry, &mut Cursor::new(frame))
}

/// Every header of an accepted frame, once, in order.
pub fn headers(entry: Entry, frame: &[u8]) -> Result<Vec<Header>, Refusal> {
    let mut cursor = Cursor::new(frame);
    walk(entry, &mut cursor)?;
    Ok(cursor.into_headers())
}

/// "Header k of a refused frame is that refusal for every k [...]; past the last header of an
/// accepted one the answer is 'no more'."
pub fn header(entry: Entry, frame: &[u8], k: usize) -> HeaderAnswer {
    match headers(entry, frame) {
        Ok(list) => match list.get(k) {
            Some(header) => HeaderAnswer::Is(*header),
            None => HeaderAnswer::NoMore,
        },
        Err(refusal) => HeaderAnswer::Refused(refusal),
    }
}

/// The count of a frame's headers: "it is the chain's length"; of a refused frame, the refusal.
pub fn count(entry: Entry, frame: &[u8]) -> Result<usize, Refusal> {
    headers(entry, frame).map(|list| list.len())
}

/// The walk from a frame's first byte to its stop.
fn walk(entry: Entry, cursor: &mut Cursor) -> Result<Sliced, Refusal> {
    match entry {
        Entry::Ethernet => walk_ethernet(cursor),
        Entry::Ipv4 => {
            let (net, number) = ipv4::read(cursor)?;
            walk_transport(cursor, Link::default(), net, number)
        }
        Entry::Ipv6 => {
            let (net, number) = ipv6::read(cursor)?;
            walk_transport(cursor, Link::default(), net, number)
        }
    }
}

/// The link headers, then IP; "payload after a link stop runs to the frame's end".
fn walk_ethernet(cursor: &mut Cursor) -> Result<Sliced, Refusal> {
    let (link, ether_type) = link::read(cursor)?;
    let (net, number) = match ether_type {
        EtherType::IPV4 => ipv4::read(cursor)?,
        EtherType::IPV6 => ipv6::read(cursor)?,
        other => {
            return Ok(Sliced {
                link: link.ethernet,
                tags: link.tags,
                net: None,
                transport: None,
                payload: cursor.rest(),
                naming: Naming::Ether(other),
                stop: if other.is_tag() {
                    Stop::TagsFull
                } else {
                    Stop::EtherTypeNotOpened
                },
            });
        }
    };
    walk_transport(cursor, link, net, number)
}

/// "A fragmented packet's transport isn't opened. Otherwise 17 is UDP, 6 is TCP." The payload runs
/// "after IP to the room's end, after UDP to its length".
fn walk_transport(
    cursor: &mut Cursor,
    link: Link,
    net: Net,
    number: IpNumber,
) -> Result<Sliced, Refusal> {
    let (transport, stop) = match number {
        _ if net.fragmented => (None, Stop::Fragment),
        IpNumber::UDP => (Some(transport::read_udp(cursor)?), Stop::TransportRead),
        IpNumber::TCP => (Some(transport::read_tcp(cursor)?), Stop::TransportRead),
        _ => (None, Stop::IpNumberNotOpened),
    };
    Ok(Sliced {
        link: link.ethernet,
        tags: link.tags,
        net: Some(net),
        transport,
        payload: cursor.rest(),
        naming: Naming::Ip(number),
        stop,
    })
}
