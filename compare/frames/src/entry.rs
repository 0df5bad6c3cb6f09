//! The entries that a frame is made for, and what the makers hand out.

/// How a frame is to be read. This crate leans on no other, so the entry is its own.
#[derive(Clone, Copy, Debug, PartialEq, Eq, PartialOrd, Ord, Hash)]
pub enum Entry {
    /// A whole Ethernet II frame.
    Ethernet,
    /// A packet said to be IPv4.
    Ipv4,
    /// A packet said to be IPv6.
    Ipv6,
}

impl Entry {
    /// The three entries.
    pub const ALL: [Entry; 3] = [Entry::Ethernet, Entry::Ipv4, Entry::Ipv6];
}

/// An entry and the bytes of a frame for it.
pub type Case = (Entry, Vec<u8>);
