//! The IPv6 packet (RFC 8200): its header, its room and its chain of extension headers.

use crate::auth;
use crate::cursor::{u16_at, Cursor};
use crate::number::IpNumber;
use crate::refusal::{Layer, Reason, Refusal, Source};
use crate::reply::{Header, Kind, Net, Span};

/// The thirteen bits of the fragment offset and the M bit (RFC 8200, section 4.5).
const OFFSET_OR_MORE: u16 = 0xFFF9;

/// The IPv6 header and its extensions. Gives the IP part and the number that ended the chain.
pub(crate) fn read(cursor: &mut Cursor) -> Result<(Net, IpNumber), Refusal> {
    let fixed = cursor.need(Kind::Ipv6, 40)?;
    let header = read_header(cursor, fixed)?;
    let extensions = cursor.rest().offset;
    let (number, fragmented) = read_extensions(cursor, IpNumber(fixed[6]))?;
    let net = Net {
        header,
        extensions: Span {
            offset: extensions,
            length: cursor.rest().offset - extensions,
        },
        fragmented,
    };
    Ok((net, number))
}

/// "In order: 40 bytes there; version 6; 40 + payload length there. Payload length 0: the room is
/// all that follows, source 'slice'."
fn read_header(cursor: &mut Cursor, fixed: &[u8]) -> Result<Header, Refusal> {
    let version = fixed[0] >> 4;
    if version != 6 {
        return Err(cursor.refuse(Kind::Ipv6, Reason::Ipv6Version(version)));
    }
    let payload = usize::from(u16_at(fixed, 4));
    if payload != 0 {
        if 40 + payload > cursor.left() {
            return Err(cursor.no_room(Layer::Ipv6Packet, 40 + payload));
        }
        cursor.narrow(40 + payload, Source::Ipv6);
    }
    cursor.take(Kind::Ipv6, 40)
}

/// "After each, the rest of the chain is read by the same rule over fewer bytes. One fragmenting
/// header marks the packet; the walk still goes on through later extensions. Any other number ends
/// it." Gives that number and the mark.
fn read_extensions(cursor: &mut Cursor, first: IpNumber) -> Result<(IpNumber, bool), Refusal> {
    let mut number = first;
    let mut fragmented = false;
    // "Number 0 is hop-by-hop directly after the IPv6 header"
    if number == IpNumber::HOP_BY_HOP {
        number = read_raw(cursor, Kind::HopByHop)?;
    }
    loop {
        number = match number {
            // "later in an IPv6 chain it is refusal 5, before any length test"
            IpNumber::HOP_BY_HOP => {
                return Err(cursor.refuse(Kind::HopByHop, Reason::HopByHopNotAtStart));
            }
            IpNumber::ROUTING => read_raw(cursor, Kind::Routing)?,
            IpNumber::DESTINATION => read_raw(cursor, Kind::Destination)?,
            IpNumber::AUTH => auth::read(cursor)?,
            IpNumber::FRAGMENT => {
                let (next, fragmenting) = read_fragment(cursor)?;
                fragmented |= fragmenting;
                next
            }
            other => return Ok((other, fragmented)),
        };
    }
}

/// "Hop-by-hop 0, routing 43, destination 60 are (second byte + 1) x 8 long, at least 8". The
/// 8-byte test comes first, as in every other reader. Gives the next number.
fn read_raw(cursor: &mut Cursor, kind: Kind) -> Result<IpNumber, Refusal> {
    let fixed = cursor.need(kind, 8)?;
    cursor.take(kind, (usize::from(fixed[1]) + 1) * 8)?;
    Ok(IpNumber(fixed[0]))
}

/// "Fragment 44 is 8, fragmenting if offset or M is nonzero". Gives the next number and whether it
/// fragments.
fn read_fragment(cursor: &mut Cursor) -> Result<(IpNumber, bool), Refusal> {
    let fixed = cursor.need(Kind::Fragment, 8)?;
    cursor.take(Kind::Fragment, 8)?;
    Ok((IpNumber(fixed[0]), u16_at(fixed, 2) & OFFSET_OR_MORE != 0))
}
