//! The crate's shown files beside our answers, folded as document 01 says.

use crate::tally::Tally;
use oracle::{Entry, Refusal, Sliced};
use shown_map::Answer;

pub fn reply(tally: &mut Tally, entry: Entry, frame: &[u8], ours: Result<Sliced, Refusal>) {
    let theirs = shown_map::slice(entry, frame);
    if let Answer::Excluded(reason) = theirs {
        tally.excluded(&format!("{reason:?}"));
        return;
    }
    tally.beside();
    let ours = Answer::from(ours);
    if ours != theirs {
        tally.differs(
            "reply, shown",
            frame,
            format!("{ours:?}"),
            format!("{theirs:?}"),
        );
    }
}

pub fn sum(pieces: &[&[u8]]) -> [[u8; 2]; 2] {
    [
        shown_map::checksum(pieces),
        shown_map::checksum_no_zero(pieces),
    ]
}
