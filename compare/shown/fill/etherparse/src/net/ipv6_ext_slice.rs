// Ours, not etherparse's: fills in `Ipv6ExtensionSlice`, the item of the extensions' iterator.

use crate::*;

/// One extension header, by document 01's kinds.
#[derive(Clone, Copy, Debug, Eq, PartialEq)]
pub enum Ipv6ExtensionSlice<'a> {
    /// Number 0.
    HopByHop(Ipv6RawExtHeaderSlice<'a>),
    /// Number 43.
    Routing(Ipv6RawExtHeaderSlice<'a>),
    /// Number 60.
    DestinationOptions(Ipv6RawExtHeaderSlice<'a>),
    /// Number 44.
    Fragment(Ipv6FragmentHeaderSlice<'a>),
    /// Number 51.
    Authentication(IpAuthHeaderSlice<'a>),
}
