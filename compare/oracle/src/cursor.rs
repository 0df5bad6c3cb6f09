//! The cursor over a frame: where the walk is, where the room ends, what set it, what was read.

use crate::refusal::{Layer, Reason, Refusal, Source};
use crate::reply::{Header, Kind, Span};

/// A place in a frame and the room from there on. `at <= end <= frame.len()` always holds.
pub(crate) struct Cursor<'a> {
    frame: &'a [u8],
    at: usize,
    end: usize,
    source: Source,
    taken: Vec<Header>,
}

impl<'a> Cursor<'a> {
    /// A cursor at the frame's first byte; the room is the whole slice.
    pub(crate) fn new(frame: &'a [u8]) -> Self {
        Cursor {
            frame,
            at: 0,
            end: frame.len(),
            source: Source::Slice,
            taken: Vec::new(),
        }
    }

    /// How many bytes the room still holds.
    pub(crate) fn left(&self) -> usize {
        self.end - self.at
    }

    /// The bytes from here to the room's end.
    pub(crate) fn rest(&self) -> Span {
        Span {
            offset: self.at,
            length: self.left(),
        }
    }

    /// The next `required` bytes, or refusal 1 of the header that needs them.
    pub(crate) fn need(&self, kind: Kind, required: usize) -> Result<&'a [u8], Refusal> {
        let room = &self.frame[self.at..self.end];
        room.get(..required)
            .ok_or_else(|| self.no_room(Layer::Header(kind), required))
    }

    /// Reads a header of the given length: "each later one begins where the last ended".
    pub(crate) fn take(&mut self, kind: Kind, length: usize) -> Result<Header, Refusal> {
        self.need(kind, length)?;
        let header = Header {
            kind,
            offset: self.at,
            length,
        };
        self.taken.push(header);
        self.at += length;
        Ok(header)
    }

    /// Ends the room `length` bytes from here, set by `source`; the caller has tested that it fits.
    pub(crate) fn narrow(&mut self, length: usize, source: Source) {
        assert!(length <= self.left(), "a room only shrinks");
        self.end = self.at + length;
        self.source = source;
    }

    /// Refusal 1 where the room is short: "inside an IP room it is what set the room".
    pub(crate) fn no_room(&self, layer: Layer, required: usize) -> Refusal {
        self.too_short(layer, required, self.left(), self.source)
    }

    /// Refusal 1 with a named `have`: "where 'have' is a length field's value it is that field".
    pub(crate) fn too_short(
        &self,
        layer: Layer,
        required: usize,
        have: usize,
        source: Source,
    ) -> Refusal {
        Refusal {
            layer,
            offset: self.at,
            reason: Reason::TooShort {
                required,
                have,
                source,
            },
        }
    }

    /// Refusals 2 to 7, of the header that begins here.
    pub(crate) fn refuse(&self, kind: Kind, reason: Reason) -> Refusal {
        Refusal {
            layer: Layer::Header(kind),
            offset: self.at,
            reason,
        }
    }

    /// Every header read, once, in order.
    pub(crate) fn into_headers(self) -> Vec<Header> {
        self.taken
    }
}

/// The 16-bit number at `at`: "All numbers are high byte first."
pub(crate) fn u16_at(bytes: &[u8], at: usize) -> u16 {
    u16::from_be_bytes([bytes[at], bytes[at + 1]])
}
