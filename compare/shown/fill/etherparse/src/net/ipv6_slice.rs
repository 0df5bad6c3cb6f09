// Ours, not etherparse's: fills in `Ipv6Slice` from document 01 and RFC 8200.

use crate::err::ipv6::{HeaderSliceError, SliceError};
use crate::err::{ipv6_exts, Layer, LenError};
use crate::*;

/// An IPv6 packet: header, extensions and what follows.
#[derive(Clone, Debug, Eq, PartialEq)]
pub struct Ipv6Slice<'a> {
    pub(crate) header: Ipv6HeaderSlice<'a>,
    pub(crate) exts: Ipv6ExtensionsSlice<'a>,
    pub(crate) payload: IpPayloadSlice<'a>,
}

impl<'a> Ipv6Slice<'a> {
    /// "In order: 40 bytes there; version 6; 40 + payload length there. Payload length 0: the room
    /// is all that follows, source 'slice'." An extension that is too short carries "what set the
    /// room". The published file isn't shown; `IpSlice` is, and says otherwise of that source.
    pub fn from_slice(slice: &'a [u8]) -> Result<Ipv6Slice<'a>, SliceError> {
        let header = Ipv6HeaderSlice::from_slice(slice).map_err(|err| match err {
            HeaderSliceError::Len(err) => SliceError::Len(err),
            HeaderSliceError::Content(err) => SliceError::Header(err),
        })?;
        let (room, len_source) = room(&header, slice)?;
        let (exts, ip_number, payload) =
            Ipv6ExtensionsSlice::from_slice(header.next_header(), room).map_err(
                |err| match err {
                    ipv6_exts::HeaderSliceError::Len(mut err) => {
                        err.len_source = len_source;
                        SliceError::Len(err.add_offset(Ipv6Header::LEN))
                    }
                    ipv6_exts::HeaderSliceError::Content(err) => SliceError::Exts(err),
                },
            )?;
        let payload = IpPayloadSlice {
            ip_number,
            fragmented: exts.is_fragmenting_payload(),
            len_source,
            payload,
        };
        Ok(Ipv6Slice {
            header,
            exts,
            payload,
        })
    }

    /// The header.
    pub fn header(&self) -> Ipv6HeaderSlice<'a> {
        self.header
    }

    /// The extensions.
    pub fn extensions(&self) -> &Ipv6ExtensionsSlice<'a> {
        &self.exts
    }

    /// What follows the extensions.
    pub fn payload(&self) -> &IpPayloadSlice<'a> {
        &self.payload
    }

    /// Whether the packet is a fragment.
    pub fn is_payload_fragmented(&self) -> bool {
        self.payload.fragmented
    }
}

/// What follows the header, up to the room's end, and what set that end.
fn room<'a>(
    header: &Ipv6HeaderSlice,
    slice: &'a [u8],
) -> Result<(&'a [u8], LenSource), SliceError> {
    let after = &slice[Ipv6Header::LEN..];
    let length = usize::from(header.payload_length());
    if length == 0 {
        return Ok((after, LenSource::Slice));
    }
    match after.get(..length) {
        Some(room) => Ok((room, LenSource::Ipv6HeaderPayloadLen)),
        None => Err(SliceError::Len(LenError::too_short(
            Layer::Ipv6Packet,
            Ipv6Header::LEN + length,
            slice,
        ))),
    }
}
