//! A table for the interfaces of any section.

use arrayvec::ArrayVec;
use etherpeel::ether_pcap::{CaptureInterface, InterfaceTable};

/// How many interfaces a section of a capture may describe.
pub const MAX_INTERFACES: usize = 65_536;

/// An [`InterfaceTable`] with room for [`MAX_INTERFACES`].
pub trait SectionTable: InterfaceTable {}

impl SectionTable for ArrayVec<CaptureInterface, MAX_INTERFACES> {}
