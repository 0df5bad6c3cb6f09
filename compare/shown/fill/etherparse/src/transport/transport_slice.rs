// Ours, not etherparse's: fills in `TransportSlice` from its uses in the shown cursor.

use crate::*;

/// The transport part.
#[derive(Clone, Debug, Eq, PartialEq)]
pub enum TransportSlice<'a> {
    /// ICMP; a stub.
    Icmpv4(Icmpv4Slice<'a>),
    /// ICMPv6; a stub.
    Icmpv6(Icmpv6Slice<'a>),
    /// IGMP; a stub.
    Igmp(IgmpSlice<'a>),
    /// UDP.
    Udp(UdpSlice<'a>),
    /// TCP.
    Tcp(TcpSlice<'a>),
}
