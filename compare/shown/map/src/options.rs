//! The crate's TCP options as a list of kinds, offsets and sizes, and how the list ends.

use etherparse::{TcpOptionElement, TcpOptionReadError, TcpOptionsIterator};
use oracle::OptionAnswer;

/// What the published iterator gives for a slice of options.
#[derive(Clone, Debug, PartialEq, Eq)]
pub struct Options {
    /// The options handed out, each an `OptionAnswer::Is`.
    pub listed: Vec<OptionAnswer>,
    /// The same, as the crate hands them out.
    pub elements: Vec<TcpOptionElement>,
    /// What came then.
    pub end: OptionEnd,
    /// Whether the iterator handed out anything when asked again after the end.
    pub goes_on: bool,
}

/// How the list of options ends.
#[derive(Clone, Debug, PartialEq, Eq)]
pub enum OptionEnd {
    /// Kind 0, or the slice's end.
    NoMore,
    /// An error, for the option at that offset.
    Error {
        /// Where the option begins.
        offset: usize,
        /// The crate's reason.
        error: TcpOptionReadError,
    },
}

/// Runs the published iterator over a slice.
pub fn options(slice: &[u8]) -> Options {
    let mut iterator = TcpOptionsIterator::from_slice(slice);
    let mut listed = Vec::new();
    let mut elements = Vec::new();
    let end = loop {
        // counted back from the end, so that it is the offset from the start
        let offset = slice.len() - iterator.rest().len();
        match iterator.next() {
            None => break OptionEnd::NoMore,
            Some(Err(error)) => break OptionEnd::Error { offset, error },
            Some(Ok(element)) => {
                listed.push(OptionAnswer::Is {
                    kind: kind(&element),
                    offset,
                    size: slice.len() - iterator.rest().len() - offset,
                });
                elements.push(element);
            }
        }
    };
    Options {
        listed,
        elements,
        end,
        goes_on: iterator.next().is_some(),
    }
}

fn kind(element: &TcpOptionElement) -> u8 {
    match element {
        TcpOptionElement::Noop => 1,
        TcpOptionElement::MaximumSegmentSize(_) => 2,
        TcpOptionElement::WindowScale(_) => 3,
        TcpOptionElement::SelectiveAcknowledgementPermitted => 4,
        TcpOptionElement::SelectiveAcknowledgement(..) => 5,
        TcpOptionElement::Timestamp(..) => 8,
    }
}
