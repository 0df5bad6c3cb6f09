// Ours, not etherparse's: fills in the TCP errors from their uses in the shown files.

use crate::err::LenError;

/// A TCP header's content isn't right.
#[derive(Clone, Debug, Eq, PartialEq)]
pub enum HeaderError {
    /// Data offset below 5.
    DataOffsetTooSmall { data_offset: u8 },
}

/// Why a TCP header isn't sliced.
#[derive(Clone, Debug, Eq, PartialEq)]
pub enum HeaderSliceError {
    /// Too few bytes.
    Len(LenError),
    /// Content that isn't right.
    Content(HeaderError),
}
