// Ours, not etherparse's: fills in `NetSlice` from its uses in the shown cursor.

use crate::*;

/// The IP part, or ARP.
#[derive(Clone, Debug, Eq, PartialEq)]
pub enum NetSlice<'a> {
    /// IPv4.
    Ipv4(Ipv4Slice<'a>),
    /// IPv6.
    Ipv6(Ipv6Slice<'a>),
    /// ARP; a stub.
    Arp(ArpPacketSlice<'a>),
}

impl<'a> From<IpSlice<'a>> for NetSlice<'a> {
    fn from(slice: IpSlice<'a>) -> NetSlice<'a> {
        match slice {
            IpSlice::Ipv4(slice) => NetSlice::Ipv4(slice),
            IpSlice::Ipv6(slice) => NetSlice::Ipv6(slice),
        }
    }
}
