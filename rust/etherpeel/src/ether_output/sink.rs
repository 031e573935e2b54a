//! What a run writes to.

use crate::ether_output::OutputFault;

/// What a run writes to: any writer of `std::io`, or a type of the caller.
///
/// What is proved for every sink also holds for one that can't fail. So a function that reports a fault has seen one,
/// and a function that reports a flush has called it.
pub trait Sink {
    /// Writes all of `bytes`.
    ///
    /// # Errors
    ///
    /// [`OutputFault`] if the sink has not taken all of them.
    ///
    /// <details><summary>Contract</summary>
    ///
    /// ```text
    /// ensures ok { OnOk result (Appends (contents self.old) (contents self.new) bytes.now) }
    /// ensures failed { OnErr result can_fail }
    /// ```
    ///
    /// Words: `contents` (the bytes that the sink holds, if they are known), `can_fail` (what holds if a call fails).
    /// [Notation](crate::definitions::notation)
    ///
    /// </details>
    fn put(&mut self, bytes: &[u8]) -> Result<(), OutputFault>;

    /// Flushes the sink.
    ///
    /// # Errors
    ///
    /// [`OutputFault`] if the sink could not be flushed.
    ///
    /// <details><summary>Contract</summary>
    ///
    /// ```text
    /// ensures kept { Keeps (contents self.old) (contents self.new) }
    /// ensures flushed { OnOk result (is_flushed self.new) }
    /// ensures failed { OnErr result can_fail }
    /// ```
    ///
    /// Words: `contents` (the bytes that the sink holds, if they are known), `is_flushed` (what holds of a sink whose
    /// last call was a flush), `can_fail` (what holds if a call fails). [Notation](crate::definitions::notation)
    ///
    /// </details>
    fn flush_all(&mut self) -> Result<(), OutputFault>;
}
