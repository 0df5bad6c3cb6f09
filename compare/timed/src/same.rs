//! The Rust side's answers handed over as the exports hand over theirs: in the same structs, with
//! zeros in those of the lent numbers that have no header.

use crate::boundary::{CountReply, Head, Net, Packet, Row, Span, ETHER_TYPE, IP_NUMBER, REFUSED, THERE};
use crate::walk::{self, Answer, Kind, Number, Refusal, Sliced};
use crate::{cursor, list};

const NO_SPAN: Span = Span { at: 0, len: 0 };
const NO_HEAD: Head = Head { kind: 0, at: 0, len: 0 };
const NO_NET: Net = Net { header: NO_HEAD, exts: NO_SPAN, fragmented: false };
const NO_ROW: Row = Row { number: 0, layer: 0, offset: 0, values: [0; 3] };

fn head(h: walk::Header) -> Head {
    Head { kind: h.kind as usize, at: h.at, len: h.len }
}

fn span(x: walk::Span) -> Span {
    Span { at: x.at, len: x.len }
}

fn row(refusal: Refusal) -> Row {
    let one = |number, layer: Kind, offset, value: u8| Row { number, layer: layer as usize, offset, values: [value as usize, 0, 0] };
    match refusal {
        Refusal::TooShort { offset, required, have, layer, source } => {
            Row { number: 1, layer: layer as usize, offset, values: [required, have, source as usize] }
        }
        Refusal::Ipv4Version { offset, version } => one(2, Kind::Ipv4, offset, version),
        Refusal::SmallIhl { offset, ihl } => one(3, Kind::Ipv4, offset, ihl),
        Refusal::Ipv6Version { offset, version } => one(4, Kind::Ipv6, offset, version),
        Refusal::HopByHopNotAtStart { offset } => one(5, Kind::HopByHop, offset, 0),
        Refusal::ZeroAuthLength { offset } => one(6, Kind::Auth, offset, 0),
        Refusal::SmallDataOffset { offset, value } => one(7, Kind::Tcp, offset, value),
    }
}

fn accepted(x: Sliced) -> Packet {
    let (number, numbering) = match x.ending.number {
        Number::EtherType(n) => (n as usize, ETHER_TYPE),
        Number::Ip(n) => (n as usize, IP_NUMBER),
    };
    Packet {
        status: THERE,
        link: x.link.map_or(NO_HEAD, head),
        count: x.count,
        tags: x.tags.map(span),
        net: x.net.map_or(NO_NET, |n| Net { header: head(n.header), exts: span(n.exts), fragmented: n.fragmented }),
        transport: x.transport.map_or(NO_HEAD, head),
        payload: span(x.ending.payload),
        number,
        numbering,
        stop: x.ending.stop as usize,
        refusal: NO_ROW,
    }
}

fn refused(refusal: Refusal) -> Packet {
    Packet {
        status: REFUSED,
        link: NO_HEAD,
        count: 0,
        tags: [NO_SPAN; walk::TAG_LIMIT],
        net: NO_NET,
        transport: NO_HEAD,
        payload: NO_SPAN,
        number: 0,
        numbering: 0,
        stop: 0,
        refusal: row(refusal),
    }
}

/// A whole Ethernet II frame.
#[inline(never)]
pub fn slice(s: &[u8]) -> Packet {
    match walk::slice_inlined(s) {
        Ok(x) => accepted(x),
        Err(refusal) => refused(refusal),
    }
}

/// Zeros go behind the headers once the walk is done, and over those of a refused frame.
#[inline(always)]
fn counted(answer: Answer<usize>, heads: &mut [usize]) -> CountReply {
    match answer {
        Ok(count) => {
            let written = 3 * count.min(heads.len() / 3);
            heads[written..].fill(0);
            CountReply { status: THERE, count, refusal: NO_ROW }
        }
        Err(refusal) => {
            heads.fill(0);
            CountReply { status: REFUSED, count: 0, refusal: row(refusal) }
        }
    }
}

/// The headers of a whole Ethernet II frame, by the cursor.
#[inline(never)]
pub fn headers(s: &[u8], heads: &mut [usize]) -> CountReply {
    let answer = cursor::headers(s, heads);
    counted(answer, heads)
}

/// The same, written out layer by layer.
#[inline(never)]
pub fn headers_straight(s: &[u8], heads: &mut [usize]) -> CountReply {
    let answer = list::headers(s, heads);
    counted(answer, heads)
}
