//! The result of a whole walk, as a struct of C.

use crate::{EtherFault, numbers};
use etherpeel::ether_peel::Summary;

/// The result of a whole walk: `etherpeel_found` in C.
///
/// Each bit pattern is a value, so that C may pass memory that it has not written to.
#[repr(C)]
#[derive(Clone, Copy)]
pub struct EtherFound {
    /// The number of units.
    pub units: usize,
    /// The offset at which the remaining window starts, in bytes from the start of the frame.
    pub rest_start: usize,
    /// The offset at which it ends.
    pub rest_end: usize,
    /// The refused unit, if there is one.
    pub fault: EtherFault,
    /// What the window is announced as: 0 the first header of the frame, 1 an ether type, 2 netlink, 3 GRE over IP, 4
    /// a number without a meaning, 5 sealed by MACsec, 6 what follows an ARP packet.
    pub rest_kind: u32,
    /// The ether type or protocol number, 0 if there is none.
    pub rest_protocol: u16,
}

// as c/etherpeel.h lays it out
const _: () = assert!(size_of::<EtherFound>() == 88);

impl EtherFound {
    /// Sets it to the result of a walk.
    #[inline(always)]
    pub(crate) fn set(&mut self, found: &Summary) {
        *self = EtherFound {
            units: found.units,
            rest_start: found.rest_start,
            rest_end: found.rest_end,
            fault: EtherFault::NONE,
            rest_kind: numbers::rest_kind(found.kind),
            rest_protocol: numbers::rest_protocol(found.kind),
        };
        if let Some(fault) = &found.fault {
            self.fault = EtherFault::of(fault);
        }
    }
}
