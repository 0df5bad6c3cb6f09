// Ours, not etherparse's: fills in `Ipv4Extensions`, which the shown extensions slice turns into.

use crate::IpAuthHeader;

/// IPv4's one extension header, read out.
#[derive(Clone, Debug, Default, Eq, PartialEq)]
pub struct Ipv4Extensions {
    /// The authentication header.
    pub auth: Option<IpAuthHeader>,
}
