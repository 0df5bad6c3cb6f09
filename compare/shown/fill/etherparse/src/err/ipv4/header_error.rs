// Ours, not etherparse's: fills in IPv4's `HeaderError` from its uses in the shown files.

/// An IPv4 header's content isn't right.
#[derive(Clone, Debug, Eq, PartialEq)]
pub enum HeaderError {
    /// The version isn't 4.
    UnexpectedVersion { version_number: u8 },
    /// IHL below 5.
    HeaderLengthSmallerThanHeader { ihl: u8 },
}
