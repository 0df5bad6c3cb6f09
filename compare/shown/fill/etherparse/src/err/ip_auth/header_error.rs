// Ours, not etherparse's: fills in AUTH's `HeaderError` from its uses in the shown files.

/// An authentication header's content isn't right.
#[derive(Clone, Debug, Eq, PartialEq)]
pub enum HeaderError {
    /// The length byte is 0.
    ZeroPayloadLen,
}
