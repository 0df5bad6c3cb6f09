//! TCP options by number (RFC 9293, RFC 7323, RFC 2018).

use crate::boundary::{self, NO_MORE, REFUSED, THERE};
use std::error::Error;
use std::fmt;
use std::iter::FusedIterator;

/// The kinds of option.
#[derive(Clone, Copy, Debug, PartialEq, Eq, Hash)]
pub enum OptionKind {
    /// Kind 1, of one byte.
    Noop,
    /// Kind 2, of 4 bytes.
    MaximumSegmentSize,
    /// Kind 3, of 3 bytes.
    WindowScale,
    /// Kind 4, of 2 bytes.
    SelectiveAcknowledgementPermitted,
    /// Kind 5, of 10, 18, 26 or 34 bytes.
    SelectiveAcknowledgement,
    /// Kind 8, of 10 bytes.
    Timestamp,
    /// Any other kind, with its number.
    Unknown(u8),
}

/// An option: its kind, its offset from the slice's start, and its bytes, kind and length byte included.
#[derive(Clone, Copy, Debug, PartialEq, Eq, Hash)]
pub struct TcpOption<'a> {
    /// What it is.
    pub kind: OptionKind,
    /// Where it begins.
    pub offset: usize,
    /// Its bytes.
    pub slice: &'a [u8],
}

/// Why an option is refused. The numbers are those of document 01's table.
#[derive(Clone, Copy, Debug, PartialEq, Eq, Hash)]
pub enum OptionReason {
    /// 8: the option's length byte is missing.
    NoLengthByte,
    /// 9: a length below 2 or past the end.
    LengthNotSound,
    /// 10: a known option of wrong size.
    WrongSize,
}

/// An option's refusal. What stands before it is listed all the same.
#[derive(Clone, Copy, Debug, PartialEq, Eq, Hash)]
pub struct OptionRefusal {
    /// Why it is refused.
    pub reason: OptionReason,
    /// Where the option begins.
    pub offset: usize,
}

impl OptionKind {
    /// The number in the option's first byte.
    pub fn number(self) -> u8 {
        match self {
            OptionKind::Noop => 1,
            OptionKind::MaximumSegmentSize => 2,
            OptionKind::WindowScale => 3,
            OptionKind::SelectiveAcknowledgementPermitted => 4,
            OptionKind::SelectiveAcknowledgement => 5,
            OptionKind::Timestamp => 8,
            OptionKind::Unknown(number) => number,
        }
    }

    fn by_number(number: usize, known: bool) -> OptionKind {
        match (known, number) {
            (true, 1) => OptionKind::Noop,
            (true, 2) => OptionKind::MaximumSegmentSize,
            (true, 3) => OptionKind::WindowScale,
            (true, 4) => OptionKind::SelectiveAcknowledgementPermitted,
            (true, 5) => OptionKind::SelectiveAcknowledgement,
            (true, 8) => OptionKind::Timestamp,
            (true, other) => unreachable!("no known option has the number {other}"),
            // the number is that of one byte, so nothing is cut off
            (false, other) => OptionKind::Unknown(other as u8),
        }
    }
}

impl OptionRefusal {
    /// The number in document 01's table, 8 to 10.
    pub fn number(&self) -> u8 {
        match self.reason {
            OptionReason::NoLengthByte => 8,
            OptionReason::LengthNotSound => 9,
            OptionReason::WrongSize => 10,
        }
    }

    fn new(number: usize, offset: usize) -> OptionRefusal {
        let reason = match number {
            8 => OptionReason::NoLengthByte,
            9 => OptionReason::LengthNotSound,
            10 => OptionReason::WrongSize,
            other => unreachable!("no refusal of an option has the number {other}"),
        };
        OptionRefusal { reason, offset }
    }
}

/// The words `refused`, the number, `option` and the offset.
impl fmt::Display for OptionRefusal {
    fn fmt(&self, f: &mut fmt::Formatter<'_>) -> fmt::Result {
        write!(f, "refused {} option {}", self.number(), self.offset)
    }
}

impl Error for OptionRefusal {}

/// Option number k, counted from 0, of what follows byte 20 of a TCP header; none behind kind 0 or the last one.
pub fn tcp_option(options: &[u8], k: usize) -> Result<Option<TcpOption<'_>>, OptionRefusal> {
    let reply = boundary::option(options, k);
    match reply.status {
        THERE => Ok(Some(TcpOption {
            kind: OptionKind::by_number(reply.kind, reply.known),
            offset: reply.at,
            // a listed option lies inside the slice (crate tcp_options, Order)
            slice: &options[reply.at..reply.at + reply.len],
        })),
        NO_MORE => Ok(None),
        REFUSED => Err(OptionRefusal::new(reply.refusal.number, reply.refusal.offset)),
        other => unreachable!("no option's answer has the status {other}"),
    }
}

/// The options of what follows byte 20 of a TCP header, in order; last the refusal, if one is refused.
///
/// Each step asks for an option by its number, so it walks over those before. A TCP header has 40 bytes of options at most.
///
/// ```
/// use bhirkulom::{tcp_options, OptionKind, OptionReason};
///
/// // a maximum segment size, a no-operation, a window scale without its length byte
/// let mut options = tcp_options(&[2, 4, 5, 0xb4, 1, 3]);
/// assert_eq!(options.next().unwrap()?.slice, [2, 4, 5, 0xb4]);
/// assert_eq!(options.next().unwrap()?.kind, OptionKind::Noop);
/// let refusal = options.next().unwrap().unwrap_err();
/// assert_eq!((refusal.reason, refusal.offset), (OptionReason::NoLengthByte, 5));
/// assert!(options.next().is_none());
/// # Ok::<(), bhirkulom::OptionRefusal>(())
/// ```
pub fn tcp_options(options: &[u8]) -> TcpOptionsIterator<'_> {
    TcpOptionsIterator { options, next: Some(0) }
}

/// The iterator of [`tcp_options`].
#[derive(Clone, Debug)]
pub struct TcpOptionsIterator<'a> {
    options: &'a [u8],
    // none behind the last answer
    next: Option<usize>,
}

impl<'a> Iterator for TcpOptionsIterator<'a> {
    type Item = Result<TcpOption<'a>, OptionRefusal>;

    fn next(&mut self) -> Option<Self::Item> {
        let k = self.next?;
        let answer = tcp_option(self.options, k).transpose();
        self.next = match answer {
            Some(Ok(_)) => Some(k + 1),
            _ => None,
        };
        answer
    }
}

impl FusedIterator for TcpOptionsIterator<'_> {}
