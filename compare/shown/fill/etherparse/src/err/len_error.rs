// Ours, not etherparse's: fills in `LenError` from its uses in the shown files.

use crate::err::Layer;
use crate::LenSource;

/// Too few bytes for what was to be read.
#[derive(Clone, Debug, Eq, PartialEq)]
pub struct LenError {
    /// The bytes asked for, counted from the layer's start.
    pub required_len: usize,
    /// The bytes there, or a length field's value.
    pub len: usize,
    /// What `len` comes from.
    pub len_source: LenSource,
    /// What was to be read.
    pub layer: Layer,
    /// Where it begins.
    pub layer_start_offset: usize,
}

impl LenError {
    /// The slice is too short for a layer that begins where it begins.
    pub(crate) fn too_short(layer: Layer, required_len: usize, slice: &[u8]) -> LenError {
        LenError {
            required_len,
            len: slice.len(),
            len_source: LenSource::Slice,
            layer,
            layer_start_offset: 0,
        }
    }

    /// The same error, told from `offset` bytes before.
    pub fn add_offset(mut self, offset: usize) -> LenError {
        self.layer_start_offset += offset;
        self
    }
}
