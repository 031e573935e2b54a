//! The iterators whose `next` returns `None` for ever once it did. Written by hand, since Rattle has no such trait; their
//! contracts say it.

#[cfg(feature = "pcap")]
use crate::ether_pcap::{CapturePackets, PcapRecords, PcapngOptions};
use crate::ether_peel::Peel;
use core::iter::FusedIterator;

impl FusedIterator for Peel<'_> {}

#[cfg(feature = "pcap")]
impl FusedIterator for PcapRecords<'_> {}

#[cfg(feature = "pcap")]
impl FusedIterator for CapturePackets<'_> {}

#[cfg(feature = "pcap")]
impl FusedIterator for PcapngOptions<'_> {}
