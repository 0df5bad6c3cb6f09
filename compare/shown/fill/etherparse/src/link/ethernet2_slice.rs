// Ours, not etherparse's: fills in `Ethernet2HeaderSlice` and `Ethernet2Slice` from document 01.

use crate::err::{Layer, LenError};
use crate::*;

/// An Ethernet II header: "14 bytes, type at 12".
#[derive(Clone, Copy, Debug, Eq, PartialEq)]
pub struct Ethernet2HeaderSlice<'a> {
    slice: &'a [u8; Ethernet2Header::LEN],
}

impl<'a> Ethernet2HeaderSlice<'a> {
    /// The header at the slice's start.
    pub fn from_slice(slice: &'a [u8]) -> Result<Ethernet2HeaderSlice<'a>, LenError> {
        match slice.first_chunk() {
            Some(slice) => Ok(Ethernet2HeaderSlice { slice }),
            None => Err(LenError::too_short(
                Layer::Ethernet2Header,
                Ethernet2Header::LEN,
                slice,
            )),
        }
    }

    /// The header's bytes.
    pub fn slice(&self) -> &'a [u8] {
        self.slice
    }

    /// The header's fields.
    pub fn to_header(&self) -> Ethernet2Header {
        Ethernet2Header::from_bytes(*self.slice)
    }
}

/// An Ethernet II header and what follows.
#[derive(Clone, Debug, Eq, PartialEq)]
pub struct Ethernet2Slice<'a> {
    header: Ethernet2HeaderSlice<'a>,
    payload: &'a [u8],
}

impl<'a> Ethernet2Slice<'a> {
    /// A frame without the frame check sequence.
    pub fn from_slice_without_fcs(slice: &'a [u8]) -> Result<Ethernet2Slice<'a>, LenError> {
        Ok(Ethernet2Slice {
            header: Ethernet2HeaderSlice::from_slice(slice)?,
            payload: &slice[Ethernet2Header::LEN..],
        })
    }

    /// The header's bytes.
    pub fn header_slice(&self) -> &'a [u8] {
        self.header.slice()
    }

    /// The header's length.
    pub fn header_len(&self) -> usize {
        Ethernet2Header::LEN
    }

    /// What follows, named by the type.
    pub fn payload(&self) -> EtherPayloadSlice<'a> {
        EtherPayloadSlice::after(self.header.slice(), self.payload)
    }
}
