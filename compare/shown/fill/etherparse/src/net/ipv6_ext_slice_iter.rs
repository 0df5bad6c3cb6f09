// Ours, not etherparse's: fills in `Ipv6ExtensionSliceIter`, whose fields the shown extensions set.

use crate::Ipv6ExtensionSlice::*;
use crate::*;

/// The extension headers of a slice that the strict walk has accepted.
#[derive(Clone, Debug, Eq, PartialEq)]
pub struct Ipv6ExtensionSliceIter<'a> {
    pub(crate) next_header: IpNumber,
    pub(crate) rest: &'a [u8],
}

impl<'a> Iterator for Ipv6ExtensionSliceIter<'a> {
    type Item = Ipv6ExtensionSlice<'a>;

    fn next(&mut self) -> Option<Ipv6ExtensionSlice<'a>> {
        if self.rest.is_empty() {
            return None;
        }
        let raw = || Ipv6RawExtHeaderSlice::from_slice(self.rest).ok();
        let header = match self.next_header {
            ip_number::IPV6_HOP_BY_HOP => HopByHop(raw()?),
            ip_number::IPV6_ROUTE => Routing(raw()?),
            ip_number::IPV6_DEST_OPTIONS => DestinationOptions(raw()?),
            ip_number::IPV6_FRAG => Fragment(Ipv6FragmentHeaderSlice::from_slice(self.rest).ok()?),
            ip_number::AUTH => Authentication(IpAuthHeaderSlice::from_slice(self.rest).ok()?),
            _ => return None,
        };
        let (next_header, length) = match &header {
            HopByHop(raw) | Routing(raw) | DestinationOptions(raw) => {
                (raw.next_header(), raw.slice().len())
            }
            Fragment(fragment) => (fragment.next_header(), fragment.slice().len()),
            Authentication(auth) => (auth.next_header(), auth.slice().len()),
        };
        self.next_header = next_header;
        self.rest = &self.rest[length..];
        Some(header)
    }
}
