//! Writing a header to the front of a slice.

use crate::ether_base::err::{Layer, SliceWriteSpaceError};

/// Writes the bytes to the front of a slice, and returns the whole slice. A slice that is too short is unchanged.
///
/// <details><summary>Contract</summary>
///
/// ```text
/// ensures same_reference { result.ghost_name ≡ slice.entry.ghost_name }
/// ensures wrote { N ≤ length slice.old → result.now ≡ bytes.entry ++ drop N slice.old }
/// ensures kept { length slice.old < N → result.now ≡ slice.old }
/// ```
///
/// [Notation](crate::definitions::notation)
///
/// </details>
#[inline]
pub fn put<const N: usize>(bytes: [u8; N], slice: &mut [u8]) -> &mut [u8] {
    if let Some(front) = slice.first_chunk_mut::<N>() {
        *front = bytes;
    }
    slice
}

/// Lends the part of a slice after its first `required_len` bytes.
///
/// # Errors
///
/// The slice is shorter: the error has `required_len`, the slice's length as `len`, the `layer`, and 0 as
/// `layer_start_offset`.
///
/// <details><summary>Contract</summary>
///
/// ```text
/// ensures* writes_back { sem 𝓛 (LendsRest (take required_len slice.old) slice.entry result) }
/// ensures answers { AnswersRest required_len layer slice.old result }
/// ```
///
/// Words: [`LendsRest`](crate::definitions::ether_base#def.LendsRest),
/// [`AnswersRest`](crate::definitions::ether_base#def.AnswersRest). [Notation](crate::definitions::notation)
///
/// </details>
#[inline]
pub fn rest_from(
    slice: &mut [u8],
    required_len: usize,
    layer: Layer,
) -> Result<&mut [u8], SliceWriteSpaceError> {
    let len = slice.len();
    if len < required_len {
        return Err(SliceWriteSpaceError {
            required_len,
            len,
            layer,
            layer_start_offset: 0,
        });
    }
    Ok(&mut slice[required_len..])
}
