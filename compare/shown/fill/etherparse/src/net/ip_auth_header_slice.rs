// Ours, not etherparse's: fills in `IpAuthHeaderSlice` from document 01 and RFC 4302.

use crate::err::ip_auth::{HeaderError, HeaderSliceError};
use crate::err::{Layer, LenError};
use crate::*;

/// An authentication header.
#[derive(Clone, Copy, Debug, Eq, PartialEq)]
pub struct IpAuthHeaderSlice<'a> {
    slice: &'a [u8],
}

impl<'a> IpAuthHeaderSlice<'a> {
    /// "AUTH 51 is (second byte + 2) x 4, at least 12 (RFC 4302), its zero test after the 12-byte
    /// test and before the full length."
    pub fn from_slice(slice: &'a [u8]) -> Result<IpAuthHeaderSlice<'a>, HeaderSliceError> {
        let whole = |length| match slice.get(..length) {
            Some(whole) => Ok(whole),
            None => Err(HeaderSliceError::Len(LenError::too_short(
                Layer::IpAuthHeader,
                length,
                slice,
            ))),
        };
        let fixed = whole(IpAuthHeader::MIN_LEN)?;
        if fixed[1] == 0 {
            return Err(HeaderSliceError::Content(HeaderError::ZeroPayloadLen));
        }
        let slice = whole((usize::from(fixed[1]) + 2) * 4)?;
        Ok(IpAuthHeaderSlice { slice })
    }

    /// The header's bytes.
    pub fn slice(&self) -> &'a [u8] {
        self.slice
    }

    /// The number that it names.
    pub fn next_header(&self) -> IpNumber {
        IpNumber(self.slice[0])
    }

    /// The header's fields.
    pub fn to_header(&self) -> IpAuthHeader {
        let number = |at: usize| {
            let s = self.slice;
            u32::from_be_bytes([s[at], s[at + 1], s[at + 2], s[at + 3]])
        };
        IpAuthHeader::new(self.next_header(), number(4), number(8), &self.slice[12..])
            .expect("a sliced header has a length that the length byte can say")
    }
}
