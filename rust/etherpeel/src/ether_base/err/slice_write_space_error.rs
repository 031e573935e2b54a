//! Too little space for a layer to be written.

use crate::ether_base::err::Layer;
use core::error::Error;
use core::fmt;

/// A slice is too short to write a layer to it.
///
/// All lengths and offsets are in bytes.
///
/// ```
/// use etherpeel::err::{Layer, SliceWriteSpaceError};
///
/// let error = SliceWriteSpaceError {
///     required_len: 14,
///     len: 13,
///     layer: Layer::Ethernet2Header,
///     layer_start_offset: 0,
/// };
/// assert_eq!(
///     format!("{error}").as_str(),
///     "Not enough space to write Ethernet 2 header to slice. Needed 14 byte(s), but only 13 byte(s) were available."
/// );
/// ```
#[derive(Clone, Copy, PartialEq, Eq, Hash, Debug)]
pub struct SliceWriteSpaceError {
    /// The length that the layer requires.
    pub required_len: usize,
    /// The length that is available, from the start of the layer.
    pub len: usize,
    /// The layer that was to be written.
    pub layer: Layer,
    /// The offset of the layer's first byte, from the start of what is written.
    pub layer_start_offset: usize,
}

impl fmt::Display for SliceWriteSpaceError {
    fn fmt(&self, f: &mut fmt::Formatter<'_>) -> fmt::Result {
        let layer = self.layer;
        let required_len = self.required_len;
        let len = self.len;
        let write_start = WriteStart {
            layer,
            offset: self.layer_start_offset,
        };
        write!(
            f,
            "Not enough space to write {layer} to slice. Needed {required_len} byte(s), but only {len} byte(s) were available{write_start}"
        )
    }
}

impl Error for SliceWriteSpaceError {}

/// The end of the text, which names the start of the layer if that is not 0.
#[derive(Clone, Copy)]
struct WriteStart {
    layer: Layer,
    offset: usize,
}

impl fmt::Display for WriteStart {
    fn fmt(&self, f: &mut fmt::Formatter<'_>) -> fmt::Result {
        let layer = self.layer;
        let offset = self.offset;
        if offset > 0 {
            write!(f, " (start offset of {layer} write was {offset} byte(s)).")
        } else {
            write!(f, ".")
        }
    }
}
