//! Where a reader of capture files keeps the interfaces of a section.

use crate::ether_pcap::capture::capture_interface::CaptureInterface;
use arrayvec::ArrayVec;

/// Where a [`CaptureReader`](crate::ether_pcap::CaptureReader) keeps the interfaces of a section.
///
/// An `ArrayVec<CaptureInterface, N>` holds up to `N` interfaces and allocates no memory. A program that allocates can
/// implement this trait for a table of its own.
pub trait InterfaceTable {
    /// The interfaces, in the order in which they were added.
    ///
    /// <details><summary>Contract</summary>
    ///
    /// ```text
    /// ensures { result.now ≡ items self.now }
    /// ```
    ///
    /// Words: `items` (the interfaces, in the order in which they were described).
    /// [Notation](crate::definitions::notation)
    ///
    /// </details>
    #[must_use]
    fn interfaces(&self) -> &[CaptureInterface];

    /// Appends an interface. If there is no room, appends nothing and returns `false`.
    ///
    /// <details><summary>Contract</summary>
    ///
    /// ```text
    /// ensures added { IsTrue result → items self.new ≡ items self.old ++ interface ∷ [] }
    /// ensures room { IsTrue result → length (items self.old) < most }
    /// ensures full { IsFalse result → most ≤ length (items self.old) }
    /// ensures same { IsFalse result → items self.new ≡ items self.old }
    /// ```
    ///
    /// Words: `items` (the interfaces, in the order in which they were described), `most` (how many interfaces there
    /// is room for). [Notation](crate::definitions::notation)
    ///
    /// </details>
    fn add(&mut self, interface: CaptureInterface) -> bool;

    /// Removes all interfaces.
    ///
    /// <details><summary>Contract</summary>
    ///
    /// ```text
    /// ensures { items self.new ≡ [] }
    /// ```
    ///
    /// Words: `items` (the interfaces, in the order in which they were described).
    /// [Notation](crate::definitions::notation)
    ///
    /// </details>
    fn remove_all(&mut self);
}

impl<const N: usize> InterfaceTable for ArrayVec<CaptureInterface, N> {
    #[inline]
    fn interfaces(&self) -> &[CaptureInterface] {
        self.as_slice()
    }

    #[inline]
    fn add(&mut self, interface: CaptureInterface) -> bool {
        if self.is_full() {
            return false;
        }
        self.push(interface);
        true
    }

    #[inline]
    fn remove_all(&mut self) {
        self.clear();
    }
}
