// Ours, not etherparse's: fills in `SlicedPacket` from the shown cursor; document 01's capacity.

use crate::*;
use arrayvec::ArrayVec;

/// What the cursor found.
#[derive(Clone, Debug, Eq, PartialEq)]
pub struct SlicedPacket<'a> {
    /// The link header.
    pub link: Option<LinkSlice<'a>>,
    /// The tags. "At most 3 tags" (document 01); the published capacity isn't shown.
    pub link_exts: ArrayVec<LinkExtSlice<'a>, 3>,
    /// The IP part.
    pub net: Option<NetSlice<'a>>,
    /// The transport part.
    pub transport: Option<TransportSlice<'a>>,
}

impl<'a> SlicedPacket<'a> {
    /// The entry for a whole Ethernet II frame.
    pub fn from_ethernet(data: &'a [u8]) -> Result<SlicedPacket<'a>, err::packet::SliceError> {
        SlicedPacketCursor::new().slice_ethernet2(data)
    }

    /// The entry for what an EtherType names.
    pub fn from_ether_type(
        ether_type: EtherType,
        data: &'a [u8],
    ) -> Result<SlicedPacket<'a>, err::packet::SliceError> {
        SlicedPacketCursor::new().slice_ether_type(EtherPayloadSlice {
            ether_type,
            len_source: LenSource::Slice,
            payload: data,
        })
    }

    /// The entry for an IP packet of either version.
    pub fn from_ip(data: &'a [u8]) -> Result<SlicedPacket<'a>, err::packet::SliceError> {
        SlicedPacketCursor::new().slice_ip(data)
    }
}
