//! The transport headers: UDP (RFC 768) and TCP (RFC 9293).

use crate::cursor::{u16_at, Cursor};
use crate::refusal::{Layer, Reason, Refusal, Source};
use crate::reply::{Header, Kind};

/// "UDP (RFC 768): 8 bytes; length 0 means the rest of the room (as RFC 2675 has it); 1 to 7 is
/// refused; else length must fit the room." The room then ends where the length says.
pub(crate) fn read_udp(cursor: &mut Cursor) -> Result<Header, Refusal> {
    let fixed = cursor.need(Kind::Udp, 8)?;
    let length = usize::from(u16_at(fixed, 4));
    if (1..8).contains(&length) {
        // "for UDP length 1 to 7 it is that length"
        return Err(cursor.too_short(Layer::Header(Kind::Udp), 8, length, Source::Udp));
    }
    if length > cursor.left() {
        return Err(cursor.no_room(Layer::UdpPayload, length));
    }
    if length != 0 {
        cursor.narrow(length, Source::Udp);
    }
    cursor.take(Kind::Udp, 8)
}

/// "TCP (RFC 9293): 20 bytes, data offset at least 5, then offset x 4 bytes there."
pub(crate) fn read_tcp(cursor: &mut Cursor) -> Result<Header, Refusal> {
    let fixed = cursor.need(Kind::Tcp, 20)?;
    let data_offset = fixed[12] >> 4;
    if data_offset < 5 {
        return Err(cursor.refuse(Kind::Tcp, Reason::TcpDataOffset(data_offset)));
    }
    cursor.take(Kind::Tcp, usize::from(data_offset) * 4)
}
