// Ours, not etherparse's: fills in `ExtPayloadLenError`, which the shown raw extension returns.

/// An extension's payload of a length that can't be written.
#[derive(Clone, Debug, Eq, PartialEq)]
pub enum ExtPayloadLenError {
    /// Fewer than 6 bytes.
    TooSmall(usize),
    /// More than the header can hold.
    TooBig(usize),
    /// The header would not be a multiple of 8.
    Unaligned(usize),
}
