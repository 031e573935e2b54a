//! The length of a slice that is read.

use crate::ether_base::LenSource;
use crate::ether_base::err::{Layer, LenError};

/// Returns the error for a slice of `len` bytes whose first layer needs `required_len`. The layer starts at offset 0.
///
/// <details><summary>Contract</summary>
///
/// ```text
/// ensures { result ≡ record {
///   required_len = required_len;
///   len = len;
///   len_source = len_source;
///   layer = layer;
///   layer_start_offset = 0;
/// } }
/// ```
///
/// [Notation](crate::definitions::notation)
///
/// </details>
#[must_use]
#[inline]
pub fn too_short(required_len: usize, len: usize, len_source: LenSource, layer: Layer) -> LenError {
    LenError {
        required_len,
        len,
        len_source,
        layer,
        layer_start_offset: 0,
    }
}
