//! The crate's slices as a reply; the stop, the naming number and the payload's range are derived.

use crate::answer::{Answer, Excluded};
use etherparse::{
    EtherPayloadSlice, IpPayloadSlice, LinkExtSlice, LinkSlice, NetSlice, SlicedPacket,
    TransportSlice,
};
use oracle::{EtherType, Header, IpNumber, Kind, Naming, Net, Sliced, Span, Stop};

/// The reply, or what puts the frame outside the comparison.
pub(crate) fn answer(frame: &[u8], packet: &SlicedPacket) -> Answer {
    match excluded(packet) {
        Some(excluded) => Answer::Excluded(excluded),
        None => Answer::Accepted(sliced(frame, packet)),
    }
}

fn excluded(packet: &SlicedPacket) -> Option<Excluded> {
    let macsec = |ext: &LinkExtSlice| matches!(ext, LinkExtSlice::Macsec(_));
    if packet.link_exts.iter().any(macsec) {
        return Some(Excluded::Macsec);
    }
    if let Some(NetSlice::Arp(_)) = packet.net {
        return Some(Excluded::Arp);
    }
    match packet.transport {
        Some(TransportSlice::Icmpv4(_)) => Some(Excluded::Icmp),
        Some(TransportSlice::Igmp(_)) => Some(Excluded::Igmp),
        Some(TransportSlice::Icmpv6(_)) => Some(Excluded::Icmpv6),
        Some(TransportSlice::Udp(_) | TransportSlice::Tcp(_)) | None => None,
    }
}

fn sliced(frame: &[u8], packet: &SlicedPacket) -> Sliced {
    let (payload, naming, stop) = end(packet);
    Sliced {
        link: ethernet(packet).map(|header| span(frame, header)),
        tags: tags(packet).map(|tag| span(frame, tag)).collect(),
        net: packet.net.as_ref().map(|slice| net(frame, slice)),
        transport: packet
            .transport
            .as_ref()
            .map(|slice| transport(frame, slice)),
        payload: span(frame, payload),
        naming,
        stop,
    }
}

/// Where a part of the frame lies.
pub(crate) fn span(frame: &[u8], part: &[u8]) -> Span {
    let offset = part.as_ptr() as usize - frame.as_ptr() as usize;
    assert!(offset + part.len() <= frame.len(), "a part of the frame");
    Span {
        offset,
        length: part.len(),
    }
}

/// A part of the frame as a header.
pub(crate) fn header(frame: &[u8], kind: Kind, part: &[u8]) -> Header {
    let Span { offset, length } = span(frame, part);
    Header {
        kind,
        offset,
        length,
    }
}

/// The Ethernet header's bytes.
pub(crate) fn ethernet<'a>(packet: &SlicedPacket<'a>) -> Option<&'a [u8]> {
    match &packet.link {
        Some(LinkSlice::Ethernet2(slice)) => Some(slice.header_slice()),
        Some(LinkSlice::LinuxSll(_)) | None => None,
    }
}

/// The tags' bytes, outermost first.
pub(crate) fn tags<'p, 'a>(packet: &'p SlicedPacket<'a>) -> impl Iterator<Item = &'a [u8]> + 'p {
    packet.link_exts.iter().filter_map(|ext| match ext {
        LinkExtSlice::Vlan(tag) => Some(tag.header_slice()),
        LinkExtSlice::Macsec(_) => None,
    })
}

/// The IP part. With no extension, its range is "the empty range at the IP header's end".
pub(crate) fn net(frame: &[u8], slice: &NetSlice) -> Net {
    let (header, extensions) = match slice {
        NetSlice::Ipv4(slice) => {
            let header = header(frame, Kind::Ipv4, slice.header().slice());
            let auth = slice.extensions().auth;
            (header, auth.map(|auth| span(frame, auth.slice())))
        }
        NetSlice::Ipv6(slice) => (
            header(frame, Kind::Ipv6, slice.header().slice()),
            Some(span(frame, slice.extensions().slice())),
        ),
        NetSlice::Arp(_) => unreachable!("such a frame is excluded"),
    };
    Net {
        header,
        extensions: extensions.unwrap_or(Span {
            offset: header.offset + header.length,
            length: 0,
        }),
        fragmented: ip_payload(slice).fragmented,
    }
}

fn ip_payload<'p, 'a>(slice: &'p NetSlice<'a>) -> &'p IpPayloadSlice<'a> {
    match slice {
        NetSlice::Ipv4(slice) => slice.payload(),
        NetSlice::Ipv6(slice) => slice.payload(),
        NetSlice::Arp(_) => unreachable!("such a frame is excluded"),
    }
}

/// The transport header.
pub(crate) fn transport(frame: &[u8], slice: &TransportSlice) -> Header {
    match slice {
        TransportSlice::Udp(udp) => header(frame, Kind::Udp, udp.header_slice()),
        TransportSlice::Tcp(tcp) => header(frame, Kind::Tcp, tcp.header_slice()),
        _ => unreachable!("such a frame is excluded"),
    }
}

/// The payload, the number naming it and the stop, from what the cursor holds: the innermost slice
/// says them all.
fn end<'a>(packet: &SlicedPacket<'a>) -> (&'a [u8], Naming, Stop) {
    let Some(net) = &packet.net else {
        let EtherPayloadSlice {
            ether_type,
            payload,
            ..
        } = ether_payload(packet);
        let ether_type = EtherType(ether_type.0);
        let stop = match ether_type.is_tag() {
            true => Stop::TagsFull,
            false => Stop::EtherTypeNotOpened,
        };
        return (payload, Naming::Ether(ether_type), stop);
    };
    let ip = ip_payload(net);
    let naming = Naming::Ip(IpNumber(ip.ip_number.0));
    match &packet.transport {
        Some(TransportSlice::Udp(udp)) => (udp.payload(), naming, Stop::TransportRead),
        Some(TransportSlice::Tcp(tcp)) => (tcp.payload(), naming, Stop::TransportRead),
        _ if ip.fragmented => (ip.payload, naming, Stop::Fragment),
        _ => (ip.payload, naming, Stop::IpNumberNotOpened),
    }
}

/// What follows the last link header.
fn ether_payload<'a>(packet: &SlicedPacket<'a>) -> EtherPayloadSlice<'a> {
    match (packet.link_exts.iter().last(), &packet.link) {
        (Some(LinkExtSlice::Vlan(tag)), _) => tag.payload(),
        (None, Some(LinkSlice::Ethernet2(slice))) => slice.payload(),
        _ => unreachable!("without IP there is a link header, and MACsec is excluded"),
    }
}
