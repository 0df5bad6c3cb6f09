// Ours, not etherparse's: fills in `IpHeaders`, which the shown `IpSlice` turns into.

use crate::*;

/// The IP headers, read out.
#[derive(Clone, Debug, Eq, PartialEq)]
pub enum IpHeaders {
    /// IPv4.
    Ipv4(Ipv4Header, Ipv4Extensions),
    /// IPv6.
    Ipv6(Ipv6Header, Ipv6Extensions),
}
