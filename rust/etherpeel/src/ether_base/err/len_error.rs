//! Too few bytes, or too many.

use crate::ether_base::LenSource;
use crate::ether_base::err::Layer;
use core::error::Error;
use core::fmt;

/// A layer has too few bytes, or too many.
///
/// All lengths and offsets are in bytes.
///
/// ```
/// use etherpeel::LenSource;
/// use etherpeel::err::{Layer, LenError};
///
/// let error = LenError {
///     required_len: 4,
///     len: 2,
///     len_source: LenSource::Slice,
///     layer: Layer::VlanHeader,
///     layer_start_offset: 0,
/// };
/// assert_eq!(error.add_offset(14).layer_start_offset, 14);
/// ```
#[cfg_attr(feature = "serde", derive(serde::Serialize, serde::Deserialize))]
#[derive(Clone, Copy, PartialEq, Eq, Hash, Debug)]
pub struct LenError {
    /// The length that the layer needs if `len` is smaller, and otherwise the greatest length that is allowed.
    pub required_len: usize,
    /// The length that is available, from the start of the layer.
    pub len: usize,
    /// Where `len` was taken from.
    pub len_source: LenSource,
    /// The layer that was read or written.
    pub layer: Layer,
    /// The offset of the layer's first byte, from the start of the slice or frame that is read.
    pub layer_start_offset: usize,
}

impl LenError {
    /// Returns the error with `offset` added to `layer_start_offset`. The sum must fit in a `usize`.
    ///
    /// A caller that passed only the tail of a slice uses it to report the place in the whole slice.
    ///
    /// # Panics
    ///
    /// The call may panic, or return something else, if a `requires` of its contract is not met.
    ///
    /// <details><summary>Contract</summary>
    ///
    /// ```text
    /// requires { self.layer_start_offset + offset < 2 ^ 64 }
    /// ensures { result ≡ record self { layer_start_offset = self.layer_start_offset + offset } }
    /// ```
    ///
    /// [Notation](crate::definitions::notation)
    ///
    /// </details>
    #[must_use]
    #[inline]
    pub const fn add_offset(self, offset: usize) -> LenError {
        LenError {
            layer_start_offset: self.layer_start_offset + offset,
            ..self
        }
    }
}

impl fmt::Display for LenError {
    fn fmt(&self, f: &mut fmt::Formatter<'_>) -> fmt::Result {
        let title = self.layer.error_title();
        let layer = self.layer;
        let required_len = self.required_len;
        let len = self.len;
        let len_source = self.len_source.name();
        let layer_start = LayerStart {
            layer,
            offset: self.layer_start_offset,
        };
        if required_len > len {
            write!(
                f,
                "{title}: Not enough data to decode '{layer}'. {required_len} byte(s) would be required, but only {len} byte(s) are available based on the {len_source}{layer_start}"
            )
        } else {
            write!(
                f,
                "{title}: Length of {len} byte(s) is too big for an '{layer}' (maximum is {required_len} bytes). The {len_source} was used to determine the length{layer_start}"
            )
        }
    }
}

impl Error for LenError {}

/// The end of the text, which names the start of the layer if that is not 0.
#[derive(Clone, Copy)]
struct LayerStart {
    layer: Layer,
    offset: usize,
}

impl fmt::Display for LayerStart {
    fn fmt(&self, f: &mut fmt::Formatter<'_>) -> fmt::Result {
        let layer = self.layer;
        let offset = self.offset;
        if offset > 0 {
            write!(f, " ('{layer}' starts at overall parsed byte {offset}).")
        } else {
            write!(f, ".")
        }
    }
}
