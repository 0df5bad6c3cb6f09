// Ours, not etherparse's: fills in `IcvLenError`, which the shown authentication header returns.

/// An integrity check value of a length that can't be written.
#[derive(Clone, Debug, Eq, PartialEq)]
pub enum IcvLenError {
    /// More than the header can hold.
    TooBig(usize),
    /// Not a multiple of 4.
    Unaligned(usize),
}
