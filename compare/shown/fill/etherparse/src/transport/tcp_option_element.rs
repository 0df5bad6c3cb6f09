// Ours, not etherparse's: fills in `TcpOptionElement` from its uses in the shown iterator.

/// One TCP option, read out.
#[derive(Clone, Debug, Eq, PartialEq)]
pub enum TcpOptionElement {
    /// Kind 1.
    Noop,
    /// Kind 2.
    MaximumSegmentSize(u16),
    /// Kind 3.
    WindowScale(u8),
    /// Kind 4.
    SelectiveAcknowledgementPermitted,
    /// Kind 5: one pair, and up to three more.
    SelectiveAcknowledgement((u32, u32), [Option<(u32, u32)>; 3]),
    /// Kind 8.
    Timestamp(u32, u32),
}
