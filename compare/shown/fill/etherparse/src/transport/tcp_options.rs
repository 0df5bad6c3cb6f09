// Ours, not etherparse's: fills in `TcpOptions`, which the shown TCP header holds, from RFC 9293.

use crate::*;

/// Up to 40 bytes of options, a multiple of 4.
#[derive(Clone, Debug, Eq, Hash, Ord, PartialEq, PartialOrd)]
pub struct TcpOptions {
    pub(crate) len: u8,
    pub(crate) buf: [u8; 40],
}

impl TcpOptions {
    /// The options of a slice, with zeros up to a multiple of 4.
    pub fn try_from_slice(slice: &[u8]) -> Result<TcpOptions, TcpOptionWriteError> {
        let mut options = TcpOptions::default();
        match options.buf.get_mut(..slice.len()) {
            Some(buf) => buf.copy_from_slice(slice),
            None => return Err(TcpOptionWriteError::NotEnoughSpace(slice.len())),
        }
        // at most 40, so nothing is cut off
        options.len = slice.len().next_multiple_of(4) as u8;
        Ok(options)
    }

    /// Not filled in: nothing on the strict path writes options.
    pub fn try_from_elements(_: &[TcpOptionElement]) -> Result<TcpOptions, TcpOptionWriteError> {
        Err(TcpOptionWriteError::NotFilledIn)
    }

    /// How many bytes.
    pub fn len(&self) -> usize {
        usize::from(self.len)
    }

    /// How many bytes.
    pub fn len_u8(&self) -> u8 {
        self.len
    }

    /// The data offset of a header with these options.
    pub fn data_offset(&self) -> u8 {
        TcpHeader::MIN_DATA_OFFSET + self.len / 4
    }

    /// The bytes.
    pub fn as_slice(&self) -> &[u8] {
        &self.buf[..self.len()]
    }

    /// The options, one by one.
    pub fn elements_iter(&self) -> TcpOptionsIterator<'_> {
        TcpOptionsIterator::from_slice(self.as_slice())
    }
}

impl Default for TcpOptions {
    fn default() -> TcpOptions {
        TcpOptions {
            len: 0,
            buf: [0; 40],
        }
    }
}
