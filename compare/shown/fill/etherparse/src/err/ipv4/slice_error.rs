// Ours, not etherparse's: fills in IPv4's `SliceError` from its uses in the shown files.

use super::HeaderError;
use crate::err;

/// Why an IPv4 packet isn't sliced.
#[derive(Clone, Debug, Eq, PartialEq)]
pub enum SliceError {
    /// Too few bytes.
    Len(err::LenError),
    /// The header's content.
    Header(HeaderError),
    /// The authentication header's content.
    Exts(err::ip_auth::HeaderError),
}
