//! The Internet checksum (RFC 1071), over slices added one after the other.

use crate::boundary;

/// The sum of the 16-bit words of the slices added so far, folded.
///
/// ```
/// use bhirkulom::Sum16BitWords;
///
/// // RFC 1071's example
/// let sum = Sum16BitWords::new().add_slice(&[0x00, 0x01, 0xf2, 0x03, 0xf4, 0xf5, 0xf6, 0xf7]);
/// assert_eq!(sum.ones_complement(), 0x220d);
/// // a slice of odd length is padded where it ends
/// assert_eq!(Sum16BitWords::new().add_slice(&[1]).add_slice(&[2]).ones_complement(), 0xfcff);
/// assert_eq!(Sum16BitWords::new().add_slice(&[0xff, 0xff]).to_ones_complement_with_no_zero(), 0xffff);
/// ```
#[derive(Clone, Copy, Debug, Default, PartialEq, Eq, Hash)]
pub struct Sum16BitWords {
    sum: u16,
}

impl Sum16BitWords {
    /// The sum of no slices.
    pub fn new() -> Sum16BitWords {
        Sum16BitWords { sum: 0 }
    }

    /// The sum with one slice more. A slice of odd length is padded with one zero byte where it ends.
    #[must_use]
    pub fn add_slice(self, slice: &[u8]) -> Sum16BitWords {
        Sum16BitWords {
            sum: boundary::sum_add(self.sum, slice),
        }
    }

    /// The checksum: the number that goes into a header, high byte first.
    pub fn ones_complement(self) -> u16 {
        boundary::sum_answer(self.sum)
    }

    /// The same with 0 turned into 65,535, for UDP, where 0 says that no checksum was made.
    pub fn to_ones_complement_with_no_zero(self) -> u16 {
        boundary::sum_answer_no_zero(self.sum)
    }
}
