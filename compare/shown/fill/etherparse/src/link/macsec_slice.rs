// Ours, not etherparse's: a stub for `MacsecSlice`, which is outside the comparison.

use crate::err::macsec::HeaderSliceError;
use crate::EtherPayloadSlice;

crate::helpers::field!(
    MacsecShortLen,
    u8,
    "The short length (IEEE 802.1AE), always 0 here."
);

/// The MACsec header, unread.
#[derive(Clone, Debug, Eq, PartialEq)]
pub struct MacsecHeaderSlice;

impl MacsecHeaderSlice {
    /// No header is read.
    pub fn header_len(&self) -> usize {
        0
    }

    /// 0, which sets no length.
    pub fn short_len(&self) -> MacsecShortLen {
        MacsecShortLen::default()
    }
}

/// What follows a MACsec header.
#[derive(Clone, Debug, Eq, PartialEq)]
pub enum MacsecPayloadSlice<'a> {
    /// Named by an EtherType; the stub never says so, so that the walk ends.
    Unmodified(EtherPayloadSlice<'a>),
    /// Bytes that aren't opened.
    Modified(&'a [u8]),
}

/// The bytes where a MACsec header is due.
#[derive(Clone, Debug, Eq, PartialEq)]
pub struct MacsecSlice<'a> {
    /// The header.
    pub header: MacsecHeaderSlice,
    /// Every byte.
    pub payload: MacsecPayloadSlice<'a>,
}

impl<'a> MacsecSlice<'a> {
    /// Takes any bytes.
    pub fn from_slice(slice: &'a [u8]) -> Result<MacsecSlice<'a>, HeaderSliceError> {
        Ok(MacsecSlice {
            header: MacsecHeaderSlice,
            payload: MacsecPayloadSlice::Modified(slice),
        })
    }
}
