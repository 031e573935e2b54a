//! Gathers the headers of a packet from a walk.

use crate::ether_packet::ext_places::FrameWindow;
use crate::ether_packet::packet_units::PacketUnits;
use crate::ether_peel::{Peel, PeelFault};

/// A walk, the headers that it has returned, and the fault if it has ended in one.
pub(in crate::ether_packet) struct PacketWalk<'a> {
    pub peel: Peel<'a>,
    pub read: PacketUnits<'a>,
    pub fault: Option<PeelFault>,
}

impl<'a> PacketWalk<'a> {
    /// Reads all headers, at most five. A loop that reads a header of any kind at any place takes a third more
    /// instructions. Functions that read two headers each are too long to be inlined, and take twice as many as the
    /// loop.
    ///
    /// # Panics
    ///
    /// The call may panic, or return something else, if a `requires` of its contract is not met.
    ///
    /// <details><summary>Contract</summary>
    ///
    /// ```text
    /// requires going { IsUnderWay self.old }
    /// requires few { headers_left self.old.peel.expected ≤ 5 }
    /// ensures { EndsAnyhow self.old self.new }
    /// ```
    ///
    /// Words: [`IsUnderWay`](crate::definitions::ether_packet#def.IsUnderWay),
    /// [`headers_left`](crate::definitions::ether_packet#def.headers_left),
    /// [`EndsAnyhow`](crate::definitions::ether_packet#def.EndsAnyhow). [Notation](crate::definitions::notation)
    ///
    /// </details>
    #[inline(always)]
    pub fn read_all(&mut self) {
        if self.read_next()
            && self.read_next()
            && self.read_next()
            && self.read_next()
            && self.read_next()
        {
            self.read_next();
        }
    }

    /// Reads the next header. Returns `false` if there is none.
    #[inline(always)]
    fn read_next(&mut self) -> bool {
        let place = FrameWindow {
            start: self.peel.offset(),
            bytes: self.peel.rest(),
        };
        match self.peel.next() {
            Some(Ok(unit)) => {
                self.read.add(&unit, place);
                true
            }
            Some(Err(error)) => {
                self.fault = Some(error);
                false
            }
            None => false,
        }
    }
}
