// Ours, not etherparse's: a stub for `IgmpSlice`, which is outside the comparison.

use crate::err::LenError;

/// The bytes where IGMP is due, unread.
#[derive(Clone, Debug, Eq, PartialEq)]
pub struct IgmpSlice<'a> {
    slice: &'a [u8],
}

impl<'a> IgmpSlice<'a> {
    /// Takes any bytes.
    pub fn from_slice(slice: &'a [u8]) -> Result<IgmpSlice<'a>, LenError> {
        Ok(IgmpSlice { slice })
    }

    /// Every byte.
    pub fn slice(&self) -> &'a [u8] {
        self.slice
    }
}
