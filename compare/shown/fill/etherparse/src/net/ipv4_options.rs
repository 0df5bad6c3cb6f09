// Ours, not etherparse's: fills in `Ipv4Options`, which the shown IPv4 header holds, from RFC 791.

use crate::err::ipv4::BadOptionsLen;
use core::ops::Deref;

/// Up to 40 bytes of options, a multiple of 4.
#[derive(Clone, Debug, Eq, Hash, Ord, PartialEq, PartialOrd)]
pub struct Ipv4Options {
    pub(crate) len: u8,
    pub(crate) buf: [u8; 40],
}

impl Ipv4Options {
    /// No options.
    pub fn new() -> Ipv4Options {
        Ipv4Options {
            len: 0,
            buf: [0; 40],
        }
    }

    /// How many bytes.
    pub fn len_u8(&self) -> u8 {
        self.len
    }
}

impl Default for Ipv4Options {
    fn default() -> Ipv4Options {
        Ipv4Options::new()
    }
}

impl Deref for Ipv4Options {
    type Target = [u8];

    fn deref(&self) -> &[u8] {
        &self.buf[..usize::from(self.len)]
    }
}

impl AsMut<[u8]> for Ipv4Options {
    fn as_mut(&mut self) -> &mut [u8] {
        &mut self.buf[..usize::from(self.len)]
    }
}

impl TryFrom<&[u8]> for Ipv4Options {
    type Error = BadOptionsLen;

    fn try_from(data: &[u8]) -> Result<Ipv4Options, BadOptionsLen> {
        if data.len() > 40 || data.len() % 4 != 0 {
            return Err(BadOptionsLen {
                bad_len: data.len(),
            });
        }
        let mut options = Ipv4Options::new();
        // at most 40, so nothing is cut off
        options.len = data.len() as u8;
        options.as_mut().copy_from_slice(data);
        Ok(options)
    }
}
