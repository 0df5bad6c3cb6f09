// Ours, not etherparse's: fills in the extensions' `HeaderError` from its uses in the shown files.

use crate::err;

/// An extension's content isn't right.
#[derive(Clone, Debug, Eq, PartialEq)]
pub enum HeaderError {
    /// Hop-by-hop not directly after the IPv6 header.
    HopByHopNotAtStart,
    /// The authentication header's content.
    IpAuth(err::ip_auth::HeaderError),
}
