// Ours, not etherparse's: fills in `EtherType` and the `ether_type` constants of the shown cursor.

/// An EtherType.
#[derive(Clone, Copy, Debug, Default, Eq, Hash, Ord, PartialEq, PartialOrd)]
pub struct EtherType(pub u16);

/// The types by name.
pub mod ether_type {
    use super::EtherType;

    /// IPv4 (document 01).
    pub const IPV4: EtherType = EtherType(0x0800);
    /// IPv6 (document 01).
    pub const IPV6: EtherType = EtherType(0x86DD);
    /// A tag type of document 01, by IEEE 802.1Q's name.
    pub const VLAN_TAGGED_FRAME: EtherType = EtherType(0x8100);
    /// A tag type of document 01, by IEEE 802.1ad's name.
    pub const PROVIDER_BRIDGING: EtherType = EtherType(0x88A8);
    /// A tag type of document 01, in use before IEEE 802.1ad.
    pub const VLAN_DOUBLE_TAGGED_FRAME: EtherType = EtherType(0x9100);
    /// ARP (RFC 826).
    pub const ARP: EtherType = EtherType(0x0806);
    /// MACsec (IEEE 802.1AE).
    pub const MACSEC: EtherType = EtherType(0x88E5);
}
