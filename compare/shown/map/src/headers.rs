//! The headers of an accepted frame as a list, the IPv6 extensions by the published `IntoIterator`.

use crate::accepted::{answer, ethernet, header, net, tags, transport};
use crate::answer::Answer;
use etherparse::{Ipv6ExtensionSlice, NetSlice, SlicedPacket};
use oracle::{Header, Kind};

/// Every header, once, in order; none where the frame is excluded.
pub(crate) fn headers(frame: &[u8], packet: &SlicedPacket) -> Option<Vec<Header>> {
    if let Answer::Excluded(_) = answer(frame, packet) {
        return None;
    }
    let mut list = Vec::new();
    list.extend(ethernet(packet).map(|part| header(frame, Kind::Ethernet2, part)));
    list.extend(tags(packet).map(|part| header(frame, Kind::Vlan, part)));
    if let Some(slice) = &packet.net {
        list.push(net(frame, slice).header);
        list.extend(extensions(frame, slice));
    }
    list.extend(packet.transport.iter().map(|part| transport(frame, part)));
    Some(list)
}

fn extensions(frame: &[u8], slice: &NetSlice) -> Vec<Header> {
    match slice {
        NetSlice::Ipv4(slice) => {
            let auth = slice.extensions().auth;
            let auth = auth.map(|auth| header(frame, Kind::Auth, auth.slice()));
            auth.into_iter().collect()
        }
        NetSlice::Ipv6(slice) => slice
            .extensions()
            .clone()
            .into_iter()
            .map(|extension| one(frame, extension))
            .collect(),
        NetSlice::Arp(_) => Vec::new(),
    }
}

fn one(frame: &[u8], extension: Ipv6ExtensionSlice) -> Header {
    use Ipv6ExtensionSlice::*;
    match extension {
        HopByHop(raw) => header(frame, Kind::HopByHop, raw.slice()),
        Routing(raw) => header(frame, Kind::Routing, raw.slice()),
        DestinationOptions(raw) => header(frame, Kind::Destination, raw.slice()),
        Fragment(fragment) => header(frame, Kind::Fragment, fragment.slice()),
        Authentication(auth) => header(frame, Kind::Auth, auth.slice()),
    }
}
