// Ours, not etherparse's: a stub for `Icmpv4Slice`, which is outside the comparison.

use crate::err::LenError;

/// The bytes where ICMP is due, unread.
#[derive(Clone, Debug, Eq, PartialEq)]
pub struct Icmpv4Slice<'a> {
    slice: &'a [u8],
}

impl<'a> Icmpv4Slice<'a> {
    /// Takes any bytes.
    pub fn from_slice(slice: &'a [u8]) -> Result<Icmpv4Slice<'a>, LenError> {
        Ok(Icmpv4Slice { slice })
    }

    /// Every byte.
    pub fn slice(&self) -> &'a [u8] {
        self.slice
    }
}
