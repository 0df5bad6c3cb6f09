//! One case at a time: every question asked of each side, the answers held against each other, the input held against a copy.

use crate::handed;
use crate::ours;
#[cfg(shown)]
use crate::shown;
use crate::tally::Tally;
use std::fmt::Debug;

#[derive(Default)]
pub struct Checker {
    tally: Tally,
    /// The input as it was, to see that nobody wrote to it.
    copy: Vec<u8>,
}

impl Checker {
    pub fn begin(&mut self, phase: &str) {
        self.tally.begin(phase);
    }

    /// Says whether nothing differed.
    pub fn report(&self, seed: u64) -> bool {
        self.tally.report(seed)
    }

    /// The reply with all fields or the refusal with all it carries, the number that names the payload with which it is, header k for
    /// every k and two past the end, the count, the list with what is left behind it, and the options of a TCP header that was found.
    pub fn frame(&mut self, entry: frames::Entry, frame: &[u8]) {
        self.keep(frame);
        let (our, their) = ours::entry(entry);
        let reply = ours::slice(our, frame);
        let wanted = oracle::slice(their, frame);
        self.tally.reply(&wanted);
        self.same("reply", frame, &reply, &wanted);
        self.same("number", frame, &handed::number(our, frame), &handed::number_wanted(&wanted));
        self.headers(entry, frame);
        #[cfg(shown)]
        shown::reply(&mut self.tally, their, frame, reply.clone());
        if let Ok(sliced) = &reply {
            if let Some(header) = sliced.transport.filter(|h| h.kind == oracle::Kind::Tcp) {
                let options = &frame[header.offset + 20..header.offset + header.length];
                self.places(options);
            }
        }
        self.unwritten(frame);
    }

    pub fn options(&mut self, bytes: &[u8]) {
        self.keep(bytes);
        self.tally.case();
        self.places(bytes);
        self.unwritten(bytes);
    }

    pub fn sum(&mut self, pieces: &[Vec<u8>]) {
        self.tally.case();
        let pieces: Vec<&[u8]> = pieces.iter().map(Vec::as_slice).collect();
        let start = oracle::Sum::new();
        let sum = pieces.iter().fold(start, |sum, piece| sum.add_slice(piece));
        let wanted = [
            sum.ones_complement().to_be_bytes(),
            sum.ones_complement_with_no_zero().to_be_bytes(),
        ];
        let whole = pieces.concat();
        let answer = ours::sum(&pieces);
        self.same("checksum", &whole, &answer, &wanted);
        #[cfg(shown)]
        self.same("checksum, shown", &whole, &answer, &shown::sum(&pieces));
    }

    fn headers(&mut self, entry: frames::Entry, frame: &[u8]) {
        let (our, their) = ours::entry(entry);
        let wanted = oracle::headers(their, frame);
        let count = ours::count(our, frame);
        self.same(
            "count",
            frame,
            &count,
            &wanted.as_ref().map(Vec::len).map_err(|r| *r),
        );
        self.same("list", frame, &ours::headers(our, frame), &wanted);
        // all headers and room behind them; room for two of them and one number; none
        let whole = wanted.as_ref().map_or(0, Vec::len);
        for (k, room) in [(0, 3 * whole + 17), (1, 7), (whole, 4)] {
            let left = handed::list(our, frame, k, room);
            self.same("list with zeros", frame, &left, &handed::list_wanted(&wanted, k, room));
        }
        let last = count.unwrap_or(0) + 1;
        for k in 0..=last {
            let wanted = match &wanted {
                Ok(list) => list.get(k).map_or(oracle::HeaderAnswer::NoMore, |h| {
                    oracle::HeaderAnswer::Is(*h)
                }),
                Err(refusal) => oracle::HeaderAnswer::Refused(*refusal),
            };
            self.same("header k", frame, &ours::header_at(our, frame, k), &wanted);
            self.tally.asked();
        }
    }

    /// Every place of an options slice, and two behind the last.
    fn places(&mut self, bytes: &[u8]) {
        let mut behind = 0;
        for k in 0.. {
            let answer = ours::option(bytes, k);
            self.same("option k", bytes, &answer, &oracle::option(bytes, k));
            self.tally.asked();
            if !matches!(answer, oracle::OptionAnswer::Is { .. }) {
                behind += 1;
            }
            if behind == 3 {
                break;
            }
        }
    }

    fn same<A: PartialEq + Debug>(&mut self, question: &str, bytes: &[u8], ours: &A, theirs: &A) {
        if ours != theirs {
            self.tally
                .differs(question, bytes, format!("{ours:?}"), format!("{theirs:?}"));
        }
    }

    fn keep(&mut self, bytes: &[u8]) {
        self.copy.clear();
        self.copy.extend_from_slice(bytes);
    }

    fn unwritten(&mut self, bytes: &[u8]) {
        if self.copy != bytes {
            let copy = format!("{:02x?}", self.copy);
            self.tally.differs(
                "the input is unchanged",
                bytes,
                format!("{bytes:02x?}"),
                copy,
            );
        }
    }
}
