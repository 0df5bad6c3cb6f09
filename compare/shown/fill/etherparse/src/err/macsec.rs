// Ours, not etherparse's: fills in the MACsec errors that the shown cursor names.

use crate::err::LenError;

/// No content is refused here: MACsec is outside the comparison.
#[derive(Clone, Debug, Eq, PartialEq)]
pub enum HeaderError {}

/// Why a MACsec header isn't sliced.
#[derive(Clone, Debug, Eq, PartialEq)]
pub enum HeaderSliceError {
    /// Too few bytes.
    Len(LenError),
    /// Content that isn't right.
    Content(HeaderError),
}
