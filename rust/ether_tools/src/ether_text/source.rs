//! What a run reads from.

use crate::ether_text::InputFault;
use std::io::{ErrorKind, Read};

/// What a run reads from: any [`Read`], or a [`SliceSource`].
///
/// What is proved for every source also holds for one that can't fail. So a function that reports a fault has seen
/// one.
pub trait Source {
    /// Reads some bytes to the front of `chunk`, and returns their number: 0 at the end of the input.
    ///
    /// <details><summary>Contract</summary>
    ///
    /// ```text
    /// ensures bound { IfOk result (λ count. count ≤ length chunk.new) }
    /// ensures read { IfOk result
    ///     (λ count. Consumes (remaining self.old) (remaining self.new) (take count chunk.new)) }
    /// ensures end { IfOk result
    ///     (λ count. count ≡ 0 → 0 < length chunk.new → IsAtEnd (remaining self.new)) }
    /// ensures kept { OnErr result (Keeps (remaining self.old) (remaining self.new)) }
    /// ensures failed { OnErr result can_fail }
    /// ```
    ///
    /// </details>
    fn read_some(&mut self, chunk: &mut [u8]) -> Result<usize, InputFault>;
}

impl<R: Read> Source for R {
    // a read that a signal interrupted is tried again
    fn read_some(&mut self, chunk: &mut [u8]) -> Result<usize, InputFault> {
        for _ in 0..u64::MAX {
            match self.read(chunk) {
                Ok(count) => return Ok(count),
                Err(error) if error.kind() == ErrorKind::Interrupted => {}
                Err(_) => return Err(InputFault),
            }
        }
        Err(InputFault)
    }
}

/// The bytes of a slice, which can be read without a fault.
///
/// ```
/// use ether_tools::ether_text::{SliceSource, Source};
///
/// let mut source = SliceSource::new(&[1, 2, 3]);
/// let mut chunk = [0; 2];
/// assert_eq!(source.read_some(&mut chunk), Ok(2));
/// assert_eq!(source.read_some(&mut chunk), Ok(1));
/// assert_eq!(source.read_some(&mut chunk), Ok(0));
/// ```
pub struct SliceSource<'a> {
    left: &'a [u8],
}

impl<'a> SliceSource<'a> {
    /// Makes a source of all of `bytes`.
    ///
    /// <details><summary>Contract</summary>
    ///
    /// ```text
    /// ensures { result.left.now ≡ bytes.now }
    /// ```
    ///
    /// </details>
    pub fn new(bytes: &'a [u8]) -> Self {
        SliceSource { left: bytes }
    }
}

impl Source for SliceSource<'_> {
    fn read_some(&mut self, chunk: &mut [u8]) -> Result<usize, InputFault> {
        let count = self.left.len().min(chunk.len());
        let (front, rest) = self.left.split_at(count);
        chunk[..count].copy_from_slice(front);
        self.left = rest;
        Ok(count)
    }
}
