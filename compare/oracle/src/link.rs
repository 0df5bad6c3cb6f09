//! The link layer: the Ethernet II header and the walk over VLAN tags.

use crate::cursor::{u16_at, Cursor};
use crate::number::EtherType;
use crate::refusal::Refusal;
use crate::reply::{Kind, Span};

/// "At most 3 tags."
const MOST_TAGS: usize = 3;

/// What the link layer gave.
#[derive(Default)]
pub(crate) struct Link {
    /// The Ethernet header; none where the frame is known to be an IP packet.
    pub(crate) ethernet: Option<Span>,
    /// The tags, outermost first.
    pub(crate) tags: Vec<Span>,
}

/// "Ethernet: 14 bytes, type at 12. Tag: 4 bytes, type at 2." Gives the headers and the type that
/// ended the tag walk; the cursor holds the offset.
pub(crate) fn read(cursor: &mut Cursor) -> Result<(Link, EtherType), Refusal> {
    let bytes = cursor.need(Kind::Ethernet2, 14)?;
    let mut ether_type = EtherType(u16_at(bytes, 12));
    let mut link = Link {
        ethernet: Some(cursor.take(Kind::Ethernet2, 14)?.span()),
        tags: Vec::new(),
    };
    // "A tag type met with 3 held is accepted and left unopened, without looking at its bytes."
    while ether_type.is_tag() && link.tags.len() < MOST_TAGS {
        let bytes = cursor.need(Kind::Vlan, 4)?;
        ether_type = EtherType(u16_at(bytes, 2));
        link.tags.push(cursor.take(Kind::Vlan, 4)?.span());
    }
    Ok((link, ether_type))
}
