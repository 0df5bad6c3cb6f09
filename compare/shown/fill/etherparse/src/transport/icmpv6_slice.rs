// Ours, not etherparse's: a stub for `Icmpv6Slice`, which is outside the comparison.

use crate::err::LenError;

/// The bytes where ICMPv6 is due, unread.
#[derive(Clone, Debug, Eq, PartialEq)]
pub struct Icmpv6Slice<'a> {
    slice: &'a [u8],
}

impl<'a> Icmpv6Slice<'a> {
    /// Takes any bytes.
    pub fn from_slice(slice: &'a [u8]) -> Result<Icmpv6Slice<'a>, LenError> {
        Ok(Icmpv6Slice { slice })
    }

    /// Every byte.
    pub fn slice(&self) -> &'a [u8] {
        self.slice
    }
}
