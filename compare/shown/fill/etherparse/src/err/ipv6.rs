// Ours, not etherparse's: fills in the IPv6 errors from their uses in the shown files.

use crate::err;

/// An IPv6 header's content isn't right.
#[derive(Clone, Debug, Eq, PartialEq)]
pub enum HeaderError {
    /// The version isn't 6.
    UnexpectedVersion { version_number: u8 },
}

/// Why an IPv6 header isn't sliced.
#[derive(Clone, Debug, Eq, PartialEq)]
pub enum HeaderSliceError {
    /// Too few bytes.
    Len(err::LenError),
    /// Content that isn't right.
    Content(HeaderError),
}

/// Why an IPv6 packet isn't sliced.
#[derive(Clone, Debug, Eq, PartialEq)]
pub enum SliceError {
    /// Too few bytes.
    Len(err::LenError),
    /// The header's content.
    Header(HeaderError),
    /// An extension's content.
    Exts(err::ipv6_exts::HeaderError),
}
