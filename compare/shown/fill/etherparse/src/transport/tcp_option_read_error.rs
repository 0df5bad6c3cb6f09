// Ours, not etherparse's: fills in `TcpOptionReadError` from its uses in the shown iterator.

/// Why a TCP option isn't read.
#[derive(Clone, Debug, Eq, PartialEq)]
pub enum TcpOptionReadError {
    /// Too few bytes.
    UnexpectedEndOfSlice {
        option_id: u8,
        expected_len: u8,
        actual_len: usize,
    },
    /// A length byte that isn't right for the kind.
    UnexpectedSize { option_id: u8, size: u8 },
    /// A kind that the iterator doesn't know.
    UnknownId(u8),
}
