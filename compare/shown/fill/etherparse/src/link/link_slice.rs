// Ours, not etherparse's: fills in `LinkSlice` and `LinkExtSlice` from the shown cursor.

use crate::*;

/// The link header.
#[derive(Clone, Debug, Eq, PartialEq)]
pub enum LinkSlice<'a> {
    /// Ethernet II.
    Ethernet2(Ethernet2Slice<'a>),
    /// Cooked capture; a stub.
    LinuxSll(LinuxSllSlice<'a>),
}

/// What may stand between the link header and IP.
#[derive(Clone, Debug, Eq, PartialEq)]
pub enum LinkExtSlice<'a> {
    /// A tag.
    Vlan(SingleVlanSlice<'a>),
    /// MACsec; a stub.
    Macsec(MacsecSlice<'a>),
}
