//! The Internet checksum (RFC 1071), over slices added one after the other.

/// A sum of 16-bit words, folded; "state by value".
#[derive(Clone, Copy, Debug, Default, PartialEq, Eq, PartialOrd, Ord, Hash)]
pub struct Sum(u16);

impl Sum {
    /// The sum of nothing.
    pub fn new() -> Sum {
        Sum(0)
    }

    /// "Add the 16-bit words; a slice of odd length is padded with one zero byte where it ends."
    #[must_use]
    pub fn add_slice(self, slice: &[u8]) -> Sum {
        let folded = slice.chunks(2).fold(self.0, |folded, pair| {
            let low = pair.get(1).copied().unwrap_or(0);
            let word = u16::from_be_bytes([pair[0], low]);
            fold(u32::from(folded) + u32::from(word))
        });
        Sum(folded)
    }

    /// "The answer is 65,535 minus that"; its two bytes go into a header high byte first.
    pub fn ones_complement(self) -> u16 {
        65_535 - self.0
    }

    /// "The no-zero form turns 0 into 65,535."
    pub fn ones_complement_with_no_zero(self) -> u16 {
        match self.ones_complement() {
            0 => 65_535,
            other => other,
        }
    }
}

/// "The folded sum is 0 if the total is 0, else ((total - 1) mod 65,535) + 1".
fn fold(total: u32) -> u16 {
    match total {
        0 => 0,
        // at most 65,535, so nothing is cut off
        _ => ((total - 1) % 65_535 + 1) as u16,
    }
}
