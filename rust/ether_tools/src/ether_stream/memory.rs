//! Memory that the caller has, and which may grow.

use crate::ether_stream::NoMemory;

/// Bytes in memory that grows, or refuses to: memory of a heap, or an array of fixed size, which refuses what it has no
/// room for.
pub trait Grow {
    /// All bytes that there are.
    ///
    /// <details><summary>Contract</summary>
    ///
    /// ```text
    /// ensures { result.now ≡ items self.now }
    /// ```
    ///
    /// </details>
    fn bytes(&self) -> &[u8];

    /// All bytes that there are, for writing.
    ///
    /// <details><summary>Contract</summary>
    ///
    /// ```text
    /// ensures* writes_back { sem 𝓛 (Lends Self.row (Array u8 0) self.entry result (with_items self.old)) }
    /// ensures value { result.now ≡ items self.old }
    /// ```
    ///
    /// </details>
    fn bytes_mut(&mut self) -> &mut [u8];

    /// Makes room for `len` bytes in all. The bytes that are there are unchanged, and those after them unspecified.
    ///
    /// <details><summary>Contract</summary>
    ///
    /// ```text
    /// ensures kept { take (length (items self.old)) (items self.new) ≡ items self.old }
    /// ensures room { OnOk result (len ≤ length (items self.new)) }
    /// ensures same { OnErr result (items self.new ≡ items self.old) }
    /// ```
    ///
    /// </details>
    fn grow(&mut self, len: usize) -> Result<(), NoMemory>;
}
