// Ours, not etherparse's: fills in `UdpSlice` from document 01, RFC 768 and RFC 2675.

use crate::err::{Layer, LenError};
use crate::*;

/// A UDP header and its payload.
#[derive(Clone, Debug, Eq, PartialEq)]
pub struct UdpSlice<'a> {
    slice: &'a [u8],
}

impl<'a> UdpSlice<'a> {
    /// "8 bytes; length 0 means the rest of the room (as RFC 2675 has it); 1 to 7 is refused; else
    /// length must fit the room."
    pub fn from_slice(slice: &'a [u8]) -> Result<UdpSlice<'a>, LenError> {
        let header = UdpHeaderSlice::from_slice(slice)?.to_header();
        let length = usize::from(header.length);
        match length {
            0 => Ok(UdpSlice { slice }),
            // "for UDP length 1 to 7 it is that length", and its source is that field
            1..=7 => Err(LenError {
                len: length,
                len_source: LenSource::UdpHeaderLen,
                ..LenError::too_short(Layer::UdpHeader, UdpHeader::LEN, slice)
            }),
            _ => match slice.get(..length) {
                Some(slice) => Ok(UdpSlice { slice }),
                None => Err(LenError::too_short(Layer::UdpPayload, length, slice)),
            },
        }
    }

    /// Header and payload.
    pub fn slice(&self) -> &'a [u8] {
        self.slice
    }

    /// The header's bytes.
    pub fn header_slice(&self) -> &'a [u8] {
        &self.slice[..UdpHeader::LEN]
    }

    /// What follows the header.
    pub fn payload(&self) -> &'a [u8] {
        &self.slice[UdpHeader::LEN..]
    }
}
