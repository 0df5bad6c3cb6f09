// Ours, not etherparse's: fills in AUTH's `HeaderSliceError` from its uses in the shown files.

use super::HeaderError;
use crate::err::LenError;

/// Why an authentication header isn't sliced.
#[derive(Clone, Debug, Eq, PartialEq)]
pub enum HeaderSliceError {
    /// Too few bytes.
    Len(LenError),
    /// Content that isn't right.
    Content(HeaderError),
}
