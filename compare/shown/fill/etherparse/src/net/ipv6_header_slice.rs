// Ours, not etherparse's: fills in `Ipv6HeaderSlice` from document 01 and RFC 8200.

use crate::err::ipv6::{HeaderError, HeaderSliceError};
use crate::err::{Layer, LenError};
use crate::*;
use core::net::Ipv6Addr;

/// An IPv6 header; the slice is 40 bytes long.
#[derive(Clone, Copy, Debug, Eq, PartialEq)]
pub struct Ipv6HeaderSlice<'a> {
    slice: &'a [u8],
}

impl<'a> Ipv6HeaderSlice<'a> {
    /// "In order: 40 bytes there; version 6".
    pub fn from_slice(slice: &'a [u8]) -> Result<Ipv6HeaderSlice<'a>, HeaderSliceError> {
        let Some(header) = slice.get(..Ipv6Header::LEN) else {
            return Err(HeaderSliceError::Len(LenError::too_short(
                Layer::Ipv6Header,
                Ipv6Header::LEN,
                slice,
            )));
        };
        let version_number = header[0] >> 4;
        if version_number != 6 {
            let content = HeaderError::UnexpectedVersion { version_number };
            return Err(HeaderSliceError::Content(content));
        }
        Ok(Ipv6HeaderSlice { slice: header })
    }

    /// The header whose bytes are given.
    ///
    /// # Safety
    ///
    /// Nothing is asked for memory's sake; the slice should be a header's 40 bytes. It is `unsafe`
    /// because the shown `IpSlice` calls it so.
    pub(crate) unsafe fn from_slice_unchecked(slice: &'a [u8]) -> Ipv6HeaderSlice<'a> {
        Ipv6HeaderSlice { slice }
    }

    /// The header's bytes.
    pub fn slice(&self) -> &'a [u8] {
        self.slice
    }

    /// The length of what follows the header, at 4.
    pub fn payload_length(&self) -> u16 {
        u16::from_be_bytes(self.bytes(4))
    }

    /// The number that it names, at 6.
    pub fn next_header(&self) -> IpNumber {
        IpNumber(self.slice[6])
    }

    /// The source address, at 8.
    pub fn source(&self) -> [u8; 16] {
        self.bytes(8)
    }

    /// The source address.
    pub fn source_addr(&self) -> Ipv6Addr {
        Ipv6Addr::from(self.source())
    }

    /// The destination address, at 24.
    pub fn destination(&self) -> [u8; 16] {
        self.bytes(24)
    }

    /// The destination address.
    pub fn destination_addr(&self) -> Ipv6Addr {
        Ipv6Addr::from(self.destination())
    }

    /// The header's fields.
    pub fn to_header(&self) -> Ipv6Header {
        let first = u32::from_be_bytes(self.bytes(0));
        Ipv6Header {
            traffic_class: self.slice[0] << 4 | self.slice[1] >> 4,
            // SAFETY: `new_unchecked` asks nothing for memory's sake, and the mask leaves 20 bits.
            flow_label: unsafe { Ipv6FlowLabel::new_unchecked(first & 0xF_FFFF) },
            payload_length: self.payload_length(),
            next_header: self.next_header(),
            hop_limit: self.slice[7],
            source: self.source(),
            destination: self.destination(),
        }
    }

    fn bytes<const N: usize>(&self, at: usize) -> [u8; N] {
        *self.slice[at..].first_chunk().expect("40 bytes are there")
    }
}
