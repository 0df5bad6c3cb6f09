// Ours, not etherparse's: a stub for `LinuxSllSlice`, which is outside the comparison.

use crate::err::linux_sll::HeaderSliceError;
use crate::EtherType;

/// The bytes where a cooked header is due, unread.
#[derive(Clone, Debug, Eq, PartialEq)]
pub struct LinuxSllSlice<'a> {
    slice: &'a [u8],
}

/// What the cooked header names.
#[derive(Clone, Copy, Debug, Eq, PartialEq)]
pub enum LinuxSllProtocolType {
    /// An EtherType; the stub never says so, so that the walk ends.
    EtherType(EtherType),
    /// Nothing: the header isn't read.
    Unread,
}

/// What follows a cooked header.
#[derive(Clone, Debug, Eq, PartialEq)]
pub struct LinuxSllPayloadSlice<'a> {
    /// What it is.
    pub protocol_type: LinuxSllProtocolType,
    /// The bytes.
    pub payload: &'a [u8],
}

impl<'a> LinuxSllSlice<'a> {
    /// Takes any bytes.
    pub fn from_slice(slice: &'a [u8]) -> Result<LinuxSllSlice<'a>, HeaderSliceError> {
        Ok(LinuxSllSlice { slice })
    }

    /// No header is read.
    pub fn header_len(&self) -> usize {
        0
    }

    /// Every byte.
    pub fn payload(&self) -> LinuxSllPayloadSlice<'a> {
        LinuxSllPayloadSlice {
            protocol_type: LinuxSllProtocolType::Unread,
            payload: self.slice,
        }
    }
}
