//! The IPv4 packet (RFC 791): its header, its room and the one AUTH header that it may have.

use crate::auth;
use crate::cursor::{u16_at, Cursor};
use crate::number::IpNumber;
use crate::refusal::{Layer, Reason, Refusal, Source};
use crate::reply::{Header, Kind, Net, Span};

/// The more-fragments bit and the thirteen bits of the fragment offset (RFC 791, section 3.1).
const MORE_OR_OFFSET: u16 = 0x3FFF;

/// The IPv4 header and "Protocol 51: one AUTH header is read, fragmented or not." Gives the IP part
/// and the number that ended it.
pub(crate) fn read(cursor: &mut Cursor) -> Result<(Net, IpNumber), Refusal> {
    let fixed = cursor.need(Kind::Ipv4, 20)?;
    let header = read_header(cursor, fixed)?;
    let extensions = cursor.rest().offset;
    let mut number = IpNumber(fixed[9]);
    if number == IpNumber::AUTH {
        number = auth::read(cursor)?;
    }
    let net = Net {
        header,
        extensions: Span {
            offset: extensions,
            length: cursor.rest().offset - extensions,
        },
        fragmented: u16_at(fixed, 6) & MORE_OR_OFFSET != 0,
    };
    Ok((net, number))
}

/// "Checked in this order: 20 bytes there; version 4; IHL at least 5; IHL x 4 bytes there; total
/// length at least IHL x 4; total length at most what is there. Room ends at total length."
fn read_header(cursor: &mut Cursor, fixed: &[u8]) -> Result<Header, Refusal> {
    let version = fixed[0] >> 4;
    if version != 4 {
        return Err(cursor.refuse(Kind::Ipv4, Reason::Ipv4Version(version)));
    }
    let ihl = fixed[0] & 0x0F;
    if ihl < 5 {
        return Err(cursor.refuse(Kind::Ipv4, Reason::Ihl(ihl)));
    }
    let length = usize::from(ihl) * 4;
    cursor.need(Kind::Ipv4, length)?;
    let total = usize::from(u16_at(fixed, 2));
    if total < length {
        return Err(cursor.too_short(Layer::Ipv4Packet, length, total, Source::Ipv4));
    }
    if total > cursor.left() {
        return Err(cursor.no_room(Layer::Ipv4Packet, total));
    }
    cursor.narrow(total, Source::Ipv4);
    cursor.take(Kind::Ipv4, length)
}
