// Ours, not etherparse's: fills in the extensions' `HeaderSliceError` from its uses.

use super::HeaderError;
use crate::err::LenError;

/// Why an extension isn't sliced.
#[derive(Clone, Debug, Eq, PartialEq)]
pub enum HeaderSliceError {
    /// Too few bytes.
    Len(LenError),
    /// Content that isn't right.
    Content(HeaderError),
}
