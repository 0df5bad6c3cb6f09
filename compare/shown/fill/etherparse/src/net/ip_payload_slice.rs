// Ours, not etherparse's: fills in `IpPayloadSlice` from its uses in the shown files.

use crate::*;

/// What follows the IP headers.
#[derive(Clone, Debug, Eq, PartialEq)]
pub struct IpPayloadSlice<'a> {
    /// The number that names it.
    pub ip_number: IpNumber,
    /// Whether it is a fragment.
    pub fragmented: bool,
    /// What set its length.
    pub len_source: LenSource,
    /// The bytes.
    pub payload: &'a [u8],
}
