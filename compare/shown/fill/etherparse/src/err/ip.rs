// Ours, not etherparse's: fills in the errors of `IpSlice` from their uses in the shown files.

use crate::err;

/// An IP header of a version not known beforehand.
#[derive(Clone, Debug, Eq, PartialEq)]
pub enum HeaderError {
    /// Neither version 4 nor 6.
    UnsupportedIpVersion { version_number: u8 },
    /// IHL below 5.
    Ipv4HeaderLengthSmallerThanHeader { ihl: u8 },
}

/// An IP header or one of its extensions.
#[derive(Clone, Debug, Eq, PartialEq)]
pub enum HeadersError {
    /// The IP header.
    Ip(HeaderError),
    /// IPv4's authentication header.
    Ipv4Ext(err::ip_auth::HeaderError),
    /// IPv6's extension headers.
    Ipv6Ext(err::ipv6_exts::HeaderError),
}

/// Why an IP packet isn't sliced.
#[derive(Clone, Debug, Eq, PartialEq)]
pub enum SliceError {
    /// Too few bytes.
    Len(err::LenError),
    /// Content that isn't right.
    IpHeaders(HeadersError),
}
