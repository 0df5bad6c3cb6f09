// Ours, not etherparse's: fills in `TcpSlice`: the shown `TcpHeaderSlice` and the rest of the room.

use crate::err::tcp::HeaderSliceError;
use crate::*;

/// A TCP header and what follows.
#[derive(Clone, Debug, Eq, PartialEq)]
pub struct TcpSlice<'a> {
    header: TcpHeaderSlice<'a>,
    slice: &'a [u8],
}

impl<'a> TcpSlice<'a> {
    /// Every test is the shown `TcpHeaderSlice`'s.
    pub fn from_slice(slice: &'a [u8]) -> Result<TcpSlice<'a>, HeaderSliceError> {
        let header = TcpHeaderSlice::from_slice(slice)?;
        Ok(TcpSlice { header, slice })
    }

    /// Header and payload.
    pub fn slice(&self) -> &'a [u8] {
        self.slice
    }

    /// The header's bytes.
    pub fn header_slice(&self) -> &'a [u8] {
        self.header.slice()
    }

    /// What follows the header.
    pub fn payload(&self) -> &'a [u8] {
        &self.slice[self.header.slice().len()..]
    }

    /// The header.
    pub fn header(&self) -> &TcpHeaderSlice<'a> {
        &self.header
    }
}
