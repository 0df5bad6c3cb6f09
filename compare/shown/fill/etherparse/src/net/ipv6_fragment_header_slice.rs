// Ours, not etherparse's: fills in `Ipv6FragmentHeaderSlice` from document 01 and RFC 8200.

use crate::err::{Layer, LenError};
use crate::*;

/// A fragment header.
#[derive(Clone, Copy, Debug, Eq, PartialEq)]
pub struct Ipv6FragmentHeaderSlice<'a> {
    slice: &'a [u8; Ipv6FragmentHeader::LEN],
}

impl<'a> Ipv6FragmentHeaderSlice<'a> {
    /// "Fragment 44 is 8".
    pub fn from_slice(slice: &'a [u8]) -> Result<Ipv6FragmentHeaderSlice<'a>, LenError> {
        match slice.first_chunk() {
            Some(slice) => Ok(Ipv6FragmentHeaderSlice { slice }),
            None => Err(LenError::too_short(
                Layer::Ipv6FragHeader,
                Ipv6FragmentHeader::LEN,
                slice,
            )),
        }
    }

    /// The header's bytes.
    pub fn slice(&self) -> &'a [u8] {
        self.slice
    }

    /// The number that it names.
    pub fn next_header(&self) -> IpNumber {
        IpNumber(self.slice[0])
    }

    /// "Fragmenting if offset or M is nonzero": the first thirteen bits of bytes 2 and 3, and the
    /// last (RFC 8200, section 4.5).
    pub fn is_fragmenting_payload(&self) -> bool {
        self.to_header().is_fragmenting_payload()
    }

    /// The header's fields.
    pub fn to_header(&self) -> Ipv6FragmentHeader {
        let [_, _, high, low, id @ ..] = *self.slice;
        // SAFETY: `new_unchecked` asks nothing for memory's sake, and the shift leaves 13 bits.
        let offset = unsafe { IpFragOffset::new_unchecked(u16::from_be_bytes([high, low]) >> 3) };
        Ipv6FragmentHeader::new(
            self.next_header(),
            offset,
            low & 1 != 0,
            u32::from_be_bytes(id),
        )
    }
}
