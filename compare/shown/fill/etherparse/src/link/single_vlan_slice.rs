// Ours, not etherparse's: fills in `SingleVlanSlice`, its header and its fields from document 01.

use crate::err::{Layer, LenError};
use crate::*;

crate::helpers::field!(VlanPcp, u8, "The three bits of the priority (IEEE 802.1Q).");
crate::helpers::field!(
    VlanId,
    u16,
    "The twelve bits of the identifier (IEEE 802.1Q)."
);

/// A tag: "4 bytes, type at 2".
#[derive(Clone, Copy, Debug, Eq, PartialEq)]
pub struct SingleVlanHeaderSlice<'a> {
    slice: &'a [u8; SingleVlanHeader::LEN],
}

impl<'a> SingleVlanHeaderSlice<'a> {
    /// The tag at the slice's start.
    pub fn from_slice(slice: &'a [u8]) -> Result<SingleVlanHeaderSlice<'a>, LenError> {
        match slice.first_chunk() {
            Some(slice) => Ok(SingleVlanHeaderSlice { slice }),
            None => Err(LenError::too_short(
                Layer::VlanHeader,
                SingleVlanHeader::LEN,
                slice,
            )),
        }
    }

    /// The tag's bytes.
    pub fn slice(&self) -> &'a [u8] {
        self.slice
    }

    /// The tag's fields.
    pub fn to_header(&self) -> SingleVlanHeader {
        SingleVlanHeader::from_bytes(*self.slice)
    }
}

/// A tag and what follows.
#[derive(Clone, Debug, Eq, PartialEq)]
pub struct SingleVlanSlice<'a> {
    header: SingleVlanHeaderSlice<'a>,
    payload: &'a [u8],
}

impl<'a> SingleVlanSlice<'a> {
    /// A tag and the rest of the slice.
    pub fn from_slice(slice: &'a [u8]) -> Result<SingleVlanSlice<'a>, LenError> {
        Ok(SingleVlanSlice {
            header: SingleVlanHeaderSlice::from_slice(slice)?,
            payload: &slice[SingleVlanHeader::LEN..],
        })
    }

    /// The tag's bytes.
    pub fn header_slice(&self) -> &'a [u8] {
        self.header.slice()
    }

    /// The tag's length.
    pub fn header_len(&self) -> usize {
        SingleVlanHeader::LEN
    }

    /// What follows, named by the type.
    pub fn payload(&self) -> EtherPayloadSlice<'a> {
        EtherPayloadSlice::after(self.header.slice(), self.payload)
    }
}
