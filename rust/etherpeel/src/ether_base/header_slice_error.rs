//! Why a header can't be read from a slice, whatever its format.

use crate::ether_base::err::LenError;
use core::fmt::{self, Display};

/// Why a header can't be read from a slice.
///
/// Each format has an alias with its own content error: `err::linux_sll::HeaderSliceError` and
/// `err::macsec::HeaderSliceError`. `Display` gives the text of the error within.
#[derive(Clone, Copy, PartialEq, Eq, Hash, Debug)]
pub enum HeaderSliceError<E> {
    /// The slice is too short.
    Len(LenError),
    /// A field has a value that is not allowed or not supported.
    Content(E),
}

impl<E: Copy> HeaderSliceError<E> {
    /// Returns a length error with `offset` added to its `layer_start_offset`; the sum must fit in a `usize`. A
    /// content error has no offset and is returned unchanged.
    ///
    /// A caller that passed only the tail of a slice uses it to report the place in the whole slice.
    ///
    /// # Panics
    ///
    /// The call may panic, or return something else, if a `requires` of its contract is not met.
    ///
    /// <details><summary>Contract</summary>
    ///
    /// ```text
    /// requires { FitsMoved offset self }
    /// ensures { result ≡ moved offset self }
    /// ```
    ///
    /// Words: [`FitsMoved`](crate::definitions::ether_base#def.FitsMoved),
    /// [`moved`](crate::definitions::ether_base#def.moved). [Notation](crate::definitions::notation)
    ///
    /// </details>
    #[must_use]
    #[inline]
    pub const fn add_slice_offset(self, offset: usize) -> HeaderSliceError<E> {
        match self {
            HeaderSliceError::Len(error) => HeaderSliceError::Len(error.add_offset(offset)),
            HeaderSliceError::Content(error) => HeaderSliceError::Content(error),
        }
    }
}

impl<E: Display> Display for HeaderSliceError<E> {
    fn fmt(&self, f: &mut fmt::Formatter<'_>) -> fmt::Result {
        match self {
            HeaderSliceError::Len(error) => error.fmt(f),
            HeaderSliceError::Content(error) => error.fmt(f),
        }
    }
}
