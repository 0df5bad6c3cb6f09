// Ours, not etherparse's: fills in the cooked-header errors that the shown cursor names.

use crate::err::LenError;

/// No content is refused here: cooked captures are outside the comparison.
#[derive(Clone, Debug, Eq, PartialEq)]
pub enum HeaderError {}

/// Why a cooked header isn't sliced.
#[derive(Clone, Debug, Eq, PartialEq)]
pub enum HeaderSliceError {
    /// Too few bytes.
    Len(LenError),
    /// Content that isn't right.
    Content(HeaderError),
}
