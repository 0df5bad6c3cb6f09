// Ours, not etherparse's: fills in `tcp_option` from document 01, RFC 9293, 7323 and 2018.

/// The kinds and sizes of TCP options by name.
pub mod tcp_option {
    /// "0 ends".
    pub const KIND_END: u8 = 0;
    /// "1 is one byte".
    pub const KIND_NOOP: u8 = 1;
    /// "2 has size 4".
    pub const KIND_MAXIMUM_SEGMENT_SIZE: u8 = 2;
    /// "3 has 3".
    pub const KIND_WINDOW_SCALE: u8 = 3;
    /// "4 has 2".
    pub const KIND_SELECTIVE_ACK_PERMITTED: u8 = 4;
    /// "5 has 10, 18, 26 or 34".
    pub const KIND_SELECTIVE_ACK: u8 = 5;
    /// "8 has 10".
    pub const KIND_TIMESTAMP: u8 = 8;

    /// The size of kind 2.
    pub const LEN_MAXIMUM_SEGMENT_SIZE: u8 = 4;
    /// The size of kind 3.
    pub const LEN_WINDOW_SCALE: u8 = 3;
    /// The size of kind 4.
    pub const LEN_SELECTIVE_ACK_PERMITTED: u8 = 2;
    /// The size of kind 8.
    pub const LEN_TIMESTAMP: u8 = 10;
}
