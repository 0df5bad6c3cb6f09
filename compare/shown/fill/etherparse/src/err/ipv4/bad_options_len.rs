// Ours, not etherparse's: fills in `BadOptionsLen`, which the shown IPv4 header returns.

/// IPv4 options are at most 40 bytes, a multiple of 4.
#[derive(Clone, Debug, Eq, PartialEq)]
pub struct BadOptionsLen {
    /// The length that isn't right.
    pub bad_len: usize,
}
