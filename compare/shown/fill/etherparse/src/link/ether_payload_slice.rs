// Ours, not etherparse's: fills in `EtherPayloadSlice` from its uses in the shown cursor.

use crate::*;

/// What follows a link header, and the type that names it.
#[derive(Clone, Debug, Eq, PartialEq)]
pub struct EtherPayloadSlice<'a> {
    /// The type.
    pub ether_type: EtherType,
    /// What set the payload's length.
    pub len_source: LenSource,
    /// The bytes.
    pub payload: &'a [u8],
}

impl<'a> EtherPayloadSlice<'a> {
    /// What follows a link header whose last two bytes are the type, to the slice's end.
    pub(crate) fn after(header: &'a [u8], payload: &'a [u8]) -> EtherPayloadSlice<'a> {
        let [.., high, low] = *header else {
            unreachable!("a link header has at least two bytes")
        };
        EtherPayloadSlice {
            ether_type: EtherType(u16::from_be_bytes([high, low])),
            len_source: LenSource::Slice,
            payload,
        }
    }
}
