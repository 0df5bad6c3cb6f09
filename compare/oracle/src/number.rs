//! The numbers that name what comes next: EtherTypes and IP numbers, kept apart by their types.

/// An EtherType. "An EtherType is never taken for an IP protocol number."
#[derive(Clone, Copy, Debug, PartialEq, Eq, PartialOrd, Ord, Hash)]
pub struct EtherType(pub u16);

impl EtherType {
    /// "IPv4 0x0800".
    pub const IPV4: EtherType = EtherType(0x0800);
    /// "IPv6 0x86DD".
    pub const IPV6: EtherType = EtherType(0x86DD);

    /// "Tag types 0x8100, 0x88A8, 0x9100".
    pub fn is_tag(self) -> bool {
        matches!(self.0, 0x8100 | 0x88A8 | 0x9100)
    }
}

/// An IP protocol number (RFC 791 "Protocol", RFC 8200 "Next Header").
#[derive(Clone, Copy, Debug, PartialEq, Eq, PartialOrd, Ord, Hash)]
pub struct IpNumber(pub u8);

impl IpNumber {
    /// "hop-by-hop 0".
    pub const HOP_BY_HOP: IpNumber = IpNumber(0);
    /// "6 is TCP".
    pub const TCP: IpNumber = IpNumber(6);
    /// "17 is UDP".
    pub const UDP: IpNumber = IpNumber(17);
    /// "routing 43".
    pub const ROUTING: IpNumber = IpNumber(43);
    /// "fragment 44".
    pub const FRAGMENT: IpNumber = IpNumber(44);
    /// "AUTH 51".
    pub const AUTH: IpNumber = IpNumber(51);
    /// "destination 60".
    pub const DESTINATION: IpNumber = IpNumber(60);
}

/// "The naming number is the EtherType for stops 1 and 2, else the last IP number (17 or 6 after
/// transport)."
#[derive(Clone, Copy, Debug, PartialEq, Eq, PartialOrd, Ord, Hash)]
pub enum Naming {
    /// The type that the last link header named.
    Ether(EtherType),
    /// The number that the last IP header or extension named.
    Ip(IpNumber),
}
