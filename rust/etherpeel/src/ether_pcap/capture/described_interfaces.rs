//! The interfaces of a section, as far as its packets need them.

use crate::ether_pcap::capture::capture_interface::CaptureInterface;

/// The interfaces that a section has described so far, wherever a program keeps them.
///
/// [`ReaderState::read`](crate::ether_pcap::ReaderState::read) looks interfaces up here.
pub trait DescribedInterfaces {
    /// The interface with this number, counted from 0.
    ///
    /// <details><summary>Contract</summary>
    ///
    /// ```text
    /// ensures { result ≡ slice_get (items self.now) number }
    /// ```
    ///
    /// Words: `items` (the interfaces, in the order in which they were described).
    /// [Notation](crate::definitions::notation)
    ///
    /// </details>
    #[must_use]
    fn interface(&self, number: u32) -> Option<CaptureInterface>;
}

/// The interfaces of a slice, in its order.
#[derive(Clone, Copy, Debug)]
pub struct InterfaceSlice<'a>(pub &'a [CaptureInterface]);

impl DescribedInterfaces for InterfaceSlice<'_> {
    #[inline]
    fn interface(&self, number: u32) -> Option<CaptureInterface> {
        self.0.get(number as usize).copied()
    }
}
