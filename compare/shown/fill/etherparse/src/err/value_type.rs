// Ours, not etherparse's: fills in `ValueType` with what the shown header writers name.

/// Which value was too big.
#[derive(Clone, Copy, Debug, Eq, PartialEq)]
pub enum ValueType {
    /// The payload of IPv4.
    Ipv4PayloadLength,
    /// The payload of IPv6.
    Ipv6PayloadLength,
    /// The payload of UDP over IPv4.
    UdpPayloadLengthIpv4,
    /// The payload of UDP over IPv6.
    UdpPayloadLengthIpv6,
    /// The payload of TCP over IPv4.
    TcpPayloadLengthIpv4,
    /// The payload of TCP over IPv6.
    TcpPayloadLengthIpv6,
}
