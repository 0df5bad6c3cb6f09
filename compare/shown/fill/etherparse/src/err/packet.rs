// Ours, not etherparse's: fills in the cursor's `SliceError` from its uses in the shown cursor.

use crate::err;

/// Why a packet isn't sliced.
#[derive(Clone, Debug, Eq, PartialEq)]
pub enum SliceError {
    /// Too few bytes.
    Len(err::LenError),
    /// The stub refuses no cooked header by its content.
    LinuxSll(err::linux_sll::HeaderError),
    /// The stub refuses no MACsec header by its content.
    Macsec(err::macsec::HeaderError),
    /// The IP header, where its version isn't known beforehand.
    Ip(err::ip::HeaderError),
    /// The IPv4 header.
    Ipv4(err::ipv4::HeaderError),
    /// IPv4's authentication header.
    Ipv4Exts(err::ip_auth::HeaderError),
    /// The IPv6 header.
    Ipv6(err::ipv6::HeaderError),
    /// IPv6's extension headers.
    Ipv6Exts(err::ipv6_exts::HeaderError),
    /// The TCP header.
    Tcp(err::tcp::HeaderError),
}
