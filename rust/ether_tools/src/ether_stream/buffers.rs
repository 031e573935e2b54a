//! Memory for a run.

use crate::ether_stream::{EditBuffer, Grow, InputBuffer, NoMemory};
use etherpeel::ether_pcap::InterfaceTable;

/// Memory for a run.
pub struct Buffers<B: Grow, T: InterfaceTable> {
    /// For the bytes that are read.
    pub input: InputBuffer<B>,
    /// For a packet that is edited.
    pub edits: EditBuffer<B>,
    /// For the interfaces of a section.
    pub interfaces: T,
}

impl<B: Grow, T: InterfaceTable> Buffers<B, T> {
    /// Memory for a run. Returns [`NoMemory`] if one of the first two buffers can't grow to its first size.
    ///
    /// <details><summary>Contract</summary>
    ///
    /// ```text
    /// ensures empty { IfOk result (λ buffers. items buffers.input ≡ []) }
    /// ensures interfaces { IfOk result (λ buffers. buffers.interfaces ≡ interfaces) }
    /// ```
    ///
    /// </details>
    pub fn new(input: B, edits: B, interfaces: T) -> Result<Self, NoMemory> {
        Ok(Buffers {
            input: InputBuffer::new(input)?,
            edits: EditBuffer::new(edits)?,
            interfaces,
        })
    }
}
