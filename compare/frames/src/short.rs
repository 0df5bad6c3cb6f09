//! Every slice of up to three bytes, as an iterator that needs no memory for it.

use crate::entry::Entry;
use std::ops::Deref;

/// A slice of up to three bytes, held by value.
#[derive(Clone, Copy, Debug, PartialEq, Eq)]
pub struct Short {
    bytes: [u8; 3],
    length: usize,
}

impl Deref for Short {
    type Target = [u8];

    fn deref(&self) -> &[u8] {
        &self.bytes[..self.length]
    }
}

/// Every slice of 0, 1, 2 and 3 bytes, once each: 16,843,009 of them.
pub fn every_short() -> impl Iterator<Item = Short> {
    (0..=3_usize).flat_map(|length| {
        (0..1_u32 << (8 * length)).map(move |number| {
            let [_, a, b, c] = number.to_be_bytes();
            let mut bytes = [a, b, c];
            // the number's last `length` bytes move to the front
            bytes.rotate_left(3 - length);
            Short { bytes, length }
        })
    })
}

/// Every slice of up to three bytes as a frame for every entry.
pub fn every_short_frame() -> impl Iterator<Item = (Entry, Short)> {
    Entry::ALL
        .into_iter()
        .flat_map(|entry| every_short().map(move |short| (entry, short)))
}
