// Ours, not etherparse's: fills in `IpHeadersSlice`, which the shown `IpSlice` hands out.

use crate::*;

/// The IP headers.
#[derive(Clone, Debug, Eq, PartialEq)]
pub enum IpHeadersSlice<'a> {
    /// IPv4.
    Ipv4(Ipv4HeaderSlice<'a>, Ipv4ExtensionsSlice<'a>),
    /// IPv6.
    Ipv6(Ipv6HeaderSlice<'a>, Ipv6ExtensionsSlice<'a>),
}
