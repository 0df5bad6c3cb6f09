//! Numbers as the library hands them over, and the same numbers worked out from the oracle's answers.

use crate::boundary;
use oracle::{Header, Naming, Refusal, Sliced};

/// What numbers are full of when they are lent. It is no number of a header.
const FULL: usize = usize::MAX;

/// The number that names the payload, and which it is.
pub fn number(entry: bhirkulom::Entry, frame: &[u8]) -> [usize; 2] {
    let packet = boundary::slice(frame, entry as usize);
    [packet.number, packet.numbering]
}

/// 1 is an EtherType, 2 an IP number. Of a refused frame nothing is told.
pub fn number_wanted(reply: &Result<Sliced, Refusal>) -> [usize; 2] {
    match reply.as_ref().map(|sliced| sliced.naming) {
        Ok(Naming::Ether(number)) => [number.0.into(), 1],
        Ok(Naming::Ip(number)) => [number.0.into(), 2],
        Err(_) => [0, 0],
    }
}

/// What is left in so many numbers of a frame's headers from number k on.
pub fn list(entry: bhirkulom::Entry, frame: &[u8], k: usize, room: usize) -> Vec<usize> {
    let mut lent = vec![FULL; room];
    boundary::headers(frame, entry as usize, k, &mut lent);
    lent
}

/// Three numbers a header, as many as there is room for, then zeros; zeros alone for a refused frame.
pub fn list_wanted(headers: &Result<Vec<Header>, Refusal>, k: usize, room: usize) -> Vec<usize> {
    let listed = headers.iter().flatten().skip(k).take(room / 3);
    let mut numbers: Vec<usize> = listed
        .flat_map(|h| [h.kind.number().into(), h.offset, h.length])
        .collect();
    numbers.resize(room, 0);
    numbers
}
