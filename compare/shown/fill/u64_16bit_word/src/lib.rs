//! Ours, not etherparse's: fills in the checksum word bodies from document 01 and RFC 1071.
//!
//! The published crate has them in a module of `checksum`. The shown file names that module but is
//! cut before its declaration; a crate of that name is found by the same path, so the shown text
//! stays as it is. Words are read in the machine's order (RFC 1071, section 2, "byte order
//! independence"); the shown callers end with `.to_be()`.
#![no_std]
#![forbid(unsafe_code)]

/// Adds with the carry brought round, so that no sum is ever cut off.
fn add(sum: u64, word: u64) -> u64 {
    let (sum, carry) = sum.overflowing_add(word);
    sum + u64::from(carry)
}

/// Adds one word.
pub fn add_2bytes(sum: u64, value: [u8; 2]) -> u64 {
    add(sum, u64::from(u16::from_ne_bytes(value)))
}

/// Adds two words.
pub fn add_4bytes(sum: u64, value: [u8; 4]) -> u64 {
    add(sum, u64::from(u32::from_ne_bytes(value)))
}

/// Adds four words.
pub fn add_8bytes(sum: u64, value: [u8; 8]) -> u64 {
    add(sum, u64::from_ne_bytes(value))
}

/// "A slice of odd length is padded with one zero byte where it ends."
pub fn add_slice(sum: u64, slice: &[u8]) -> u64 {
    slice.chunks(2).fold(sum, |sum, pair| {
        let second = pair.get(1).copied().unwrap_or(0);
        add_2bytes(sum, [pair[0], second])
    })
}

/// The complement of the sum folded to 16 bits, in the machine's order.
pub fn ones_complement(sum: u64) -> u16 {
    let mut folded = sum;
    while folded > 0xFFFF {
        folded = (folded >> 16) + (folded & 0xFFFF);
    }
    // at most 16 bits are left, so nothing is cut off
    !(folded as u16)
}

/// "The no-zero form turns 0 into 65,535."
pub fn ones_complement_with_no_zero(sum: u64) -> u16 {
    match ones_complement(sum) {
        0 => 0xFFFF,
        other => other,
    }
}
