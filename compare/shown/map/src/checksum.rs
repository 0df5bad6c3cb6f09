//! The crate's checksum as "the two bytes that go into the header".

use etherparse::checksum::Sum16BitWords;

/// The checksum of slices added one after the other.
pub fn checksum(slices: &[&[u8]]) -> [u8; 2] {
    in_header(sum(slices).ones_complement())
}

/// The same in the no-zero form.
pub fn checksum_no_zero(slices: &[&[u8]]) -> [u8; 2] {
    in_header(sum(slices).to_ones_complement_with_no_zero())
}

/// The checksum of one slice, added 16, 8, 4 and 2 bytes at a time, the last odd byte as a slice.
pub fn checksum_in_steps(slice: &[u8]) -> [u8; 2] {
    let mut sum = Sum16BitWords::new();
    let mut rest = slice;
    while !rest.is_empty() {
        (sum, rest) = if let Some((bytes, rest)) = rest.split_first_chunk() {
            (sum.add_16bytes(*bytes), rest)
        } else if let Some((bytes, rest)) = rest.split_first_chunk() {
            (sum.add_8bytes(*bytes), rest)
        } else if let Some((bytes, rest)) = rest.split_first_chunk() {
            (sum.add_4bytes(*bytes), rest)
        } else if let Some((bytes, rest)) = rest.split_first_chunk() {
            (sum.add_2bytes(*bytes), rest)
        } else {
            (sum.add_slice(rest), &[][..])
        };
    }
    in_header(sum.ones_complement())
}

fn sum(slices: &[&[u8]]) -> Sum16BitWords {
    slices
        .iter()
        .fold(Sum16BitWords::new(), |sum, slice| sum.add_slice(slice))
}

/// As the published callers do it: `.to_be()`, then the field's bytes high byte first.
fn in_header(answer: u16) -> [u8; 2] {
    answer.to_be().to_be_bytes()
}
