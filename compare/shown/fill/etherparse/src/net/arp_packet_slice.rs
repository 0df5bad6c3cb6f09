// Ours, not etherparse's: a stub for `ArpPacketSlice`, which is outside the comparison.

use crate::err::LenError;

/// The bytes where an ARP packet is due, unread.
#[derive(Clone, Debug, Eq, PartialEq)]
pub struct ArpPacketSlice<'a> {
    slice: &'a [u8],
}

impl<'a> ArpPacketSlice<'a> {
    /// Takes any bytes.
    pub fn from_slice(slice: &'a [u8]) -> Result<ArpPacketSlice<'a>, LenError> {
        Ok(ArpPacketSlice { slice })
    }

    /// Every byte.
    pub fn slice(&self) -> &'a [u8] {
        self.slice
    }
}
