// Ours, not etherparse's: fills in `UdpHeaderSlice` from document 01 and RFC 768.

use crate::err::{Layer, LenError};
use crate::*;

/// A UDP header.
#[derive(Clone, Copy, Debug, Eq, PartialEq)]
pub struct UdpHeaderSlice<'a> {
    slice: &'a [u8; UdpHeader::LEN],
}

impl<'a> UdpHeaderSlice<'a> {
    /// "UDP (RFC 768): 8 bytes".
    pub fn from_slice(slice: &'a [u8]) -> Result<UdpHeaderSlice<'a>, LenError> {
        match slice.first_chunk() {
            Some(slice) => Ok(UdpHeaderSlice { slice }),
            None => Err(LenError::too_short(Layer::UdpHeader, UdpHeader::LEN, slice)),
        }
    }

    /// The header's bytes.
    pub fn slice(&self) -> &'a [u8] {
        self.slice
    }

    /// The header's fields.
    pub fn to_header(&self) -> UdpHeader {
        UdpHeader::from_bytes(*self.slice)
    }
}
