// Ours, not etherparse's: a stub for `Ipv6Extensions`, which the shown `IpSlice` turns into.

use crate::err::ipv6_exts::HeaderSliceError;
use crate::*;

/// IPv6's extension headers, read out; the stub holds none of them.
#[derive(Clone, Debug, Default, Eq, PartialEq)]
pub struct Ipv6Extensions;

impl Ipv6Extensions {
    /// Walks over the extensions and keeps nothing.
    pub fn from_slice(
        start_ip_number: IpNumber,
        start_slice: &[u8],
    ) -> Result<(Ipv6Extensions, IpNumber, &[u8]), HeaderSliceError> {
        let (_, ip_number, rest) = Ipv6ExtensionsSlice::from_slice(start_ip_number, start_slice)?;
        Ok((Ipv6Extensions, ip_number, rest))
    }
}
