// Ours, not etherparse's: fills in `SliceWriteSpaceError`, which the shown Ethernet writer returns.

use crate::err::Layer;

/// Too little room to write to.
#[derive(Clone, Debug, Eq, PartialEq)]
pub struct SliceWriteSpaceError {
    /// The bytes asked for.
    pub required_len: usize,
    /// The bytes there.
    pub len: usize,
    /// What was to be written.
    pub layer: Layer,
    /// Where it begins.
    pub layer_start_offset: usize,
}
