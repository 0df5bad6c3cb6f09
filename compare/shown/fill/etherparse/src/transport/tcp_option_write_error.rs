// Ours, not etherparse's: fills in `TcpOptionWriteError`, which the shown TCP header returns.

/// Why options aren't written.
#[derive(Clone, Debug, Eq, PartialEq)]
pub enum TcpOptionWriteError {
    /// More than the header can hold.
    NotEnoughSpace(usize),
    /// Writing single options is off the strict path and not filled in.
    NotFilledIn,
}
