// Ours, not etherparse's: fills in `IpNumber` and the `ip_number` constants of the shown files.

/// An IP protocol number.
#[derive(Clone, Copy, Debug, Default, Eq, Hash, Ord, PartialEq, PartialOrd)]
pub struct IpNumber(pub u8);

/// The numbers by name: those of document 01, and IANA's for what it leaves unopened.
pub mod ip_number {
    use super::IpNumber;

    /// Hop-by-hop options (document 01).
    pub const IPV6_HOP_BY_HOP: IpNumber = IpNumber(0);
    /// ICMP (RFC 792).
    pub const ICMP: IpNumber = IpNumber(1);
    /// IGMP (RFC 1112).
    pub const IGMP: IpNumber = IpNumber(2);
    /// TCP (document 01).
    pub const TCP: IpNumber = IpNumber(6);
    /// UDP (document 01).
    pub const UDP: IpNumber = IpNumber(17);
    /// Routing (document 01).
    pub const IPV6_ROUTE: IpNumber = IpNumber(43);
    /// Fragment (document 01).
    pub const IPV6_FRAG: IpNumber = IpNumber(44);
    /// AUTH (document 01).
    pub const AUTH: IpNumber = IpNumber(51);
    /// ICMPv6 (RFC 4443).
    pub const IPV6_ICMP: IpNumber = IpNumber(58);
    /// Destination options (document 01).
    pub const IPV6_DEST_OPTIONS: IpNumber = IpNumber(60);
    /// Mobility (RFC 6275).
    pub const MOBILITY: IpNumber = IpNumber(135);
    /// Host Identity Protocol (RFC 7401).
    pub const HIP: IpNumber = IpNumber(139);
    /// Shim6 (RFC 5533).
    pub const SHIM6: IpNumber = IpNumber(140);
}
