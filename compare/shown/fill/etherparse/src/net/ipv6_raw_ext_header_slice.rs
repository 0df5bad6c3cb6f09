// Ours, not etherparse's: fills in `Ipv6RawExtHeaderSlice` from document 01 and RFC 8200.

use crate::err::{Layer, LenError};
use crate::*;

/// A hop-by-hop, routing or destination header.
#[derive(Clone, Copy, Debug, Eq, PartialEq)]
pub struct Ipv6RawExtHeaderSlice<'a> {
    slice: &'a [u8],
}

impl<'a> Ipv6RawExtHeaderSlice<'a> {
    /// "Hop-by-hop 0, routing 43, destination 60 are (second byte + 1) x 8 long, at least 8", the 8
    /// bytes first, as every other reader has it. The layer is the one that the shown
    /// `Ipv6RawExtHeader::read_limited` names.
    pub fn from_slice(slice: &'a [u8]) -> Result<Ipv6RawExtHeaderSlice<'a>, LenError> {
        let whole = |length| match slice.get(..length) {
            Some(whole) => Ok(whole),
            None => Err(LenError::too_short(Layer::Ipv6ExtHeader, length, slice)),
        };
        let fixed = whole(Ipv6RawExtHeader::MIN_LEN)?;
        let slice = whole((usize::from(fixed[1]) + 1) * 8)?;
        Ok(Ipv6RawExtHeaderSlice { slice })
    }

    /// The header's bytes.
    pub fn slice(&self) -> &'a [u8] {
        self.slice
    }

    /// The number that it names.
    pub fn next_header(&self) -> IpNumber {
        IpNumber(self.slice[0])
    }

    /// The header's fields.
    pub fn to_header(&self) -> Ipv6RawExtHeader {
        Ipv6RawExtHeader::new_raw(self.next_header(), &self.slice[2..])
            .expect("a sliced header has a length that the length byte can say")
    }
}
