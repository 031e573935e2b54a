//! Frames that a bridge has received, and in which form they leave.

use crate::ether_switch::arrival::read_front;
use crate::ether_switch::{BridgeKind, PortSet, Vlan, retagging};
use crate::VlanPcp;

/// What a bridge knows of a frame that it has received.
#[cfg_attr(feature = "serde", derive(serde::Serialize, serde::Deserialize))]
#[derive(Clone, Copy, PartialEq, Eq, Hash, Debug)]
pub struct Received {
    /// The kind of the bridge.
    pub kind: BridgeKind,
    /// Its VLAN.
    pub vlan: Vlan,
    /// Its priority: that of its tag, or else the port's default.
    pub priority: VlanPcp,
    /// Whether its tag says that it may be dropped first under congestion.
    pub drop_eligible: bool,
    /// Whether it is for the bridge itself, for example for its spanning tree: its destination is a reserved address
    /// (IEEE 802.1Q, 8.6.3). It then leaves by no port.
    pub reserved: bool,
    /// The ports through which it leaves with the tag of its VLAN.
    pub tagged: PortSet,
    /// The ports through which it leaves without a tag.
    pub untagged: PortSet,
}

impl Received {
    /// Makes the frame ready to leave with the tag of its VLAN, and returns the index in the buffer at which it then
    /// begins.
    ///
    /// The buffer has four free bytes, and then the frame as it was received. The frame leaves as `buffer[at..]`. Only
    /// bytes before its payload change, so the time does not depend on its length. If it also leaves without a tag,
    /// one of the two forms is made on a copy.
    ///
    /// A tag of the bridge's kind keeps its priority, and gets the identifier of the VLAN; a frame without such a tag
    /// gets one. Returns `None`, leaving the buffer unchanged, if the frame is too short for its header or its tag.
    ///
    /// <details><summary>Contract</summary>
    ///
    /// ```text
    /// ensures sent { IfSome result (λ at. (hs : List Header) (e : Ending)
    ///     → Walk (start_of starts.Ethernet2) (drop 4 buffer.old) hs e
    ///     → LeavesTagged self.now (front_of self.now.kind hs) (drop 4 buffer.old) hs e (drop at buffer.new)) }
    /// ensures goes { (hs : List Header) (e : Ending)
    ///     → Walk (start_of starts.Ethernet2) (drop 4 buffer.old) hs e
    ///     → is_some result ≡ is_ok (front_of self.now.kind hs) }
    /// ensures kept { IfNone result (buffer.new ≡ buffer.old) }
    /// ```
    ///
    /// Words: [`Header`](crate::definitions::ether_base#def.Header),
    /// [`Ending`](crate::definitions::ether_peel#def.Ending), [`Walk`](crate::definitions::ether_peel#def.Walk),
    /// [`start_of`](crate::definitions::ether_peel#def.start_of), `starts` (`Start`),
    /// [`LeavesTagged`](crate::definitions::ether_switch#def.LeavesTagged),
    /// [`front_of`](crate::definitions::ether_switch#def.front_of). [Notation](crate::definitions::notation)
    ///
    /// </details>
    #[inline]
    pub fn make_tagged(&self, buffer: &mut [u8]) -> Option<usize> {
        match is_tagged(self.kind, buffer) {
            Some(true) => match retagging::rename(self.vlan, buffer) {
                Ok(()) => Some(4),
                Err(_) => None,
            },
            Some(false) => match retagging::tag(self, buffer) {
                Ok(()) => Some(0),
                Err(_) => None,
            },
            None => None,
        }
    }

    /// Makes the frame ready to leave without a tag, and returns the index in the buffer at which it then begins.
    ///
    /// The buffer is that of [`Received::make_tagged`]. Returns `None`, leaving the buffer unchanged, if the frame is
    /// too short for its header or its tag.
    ///
    /// Only the first tag is taken off: a frame that came in with two tags of the bridge's kind leaves with the second
    /// one.
    ///
    /// <details><summary>Contract</summary>
    ///
    /// ```text
    /// ensures sent { IfSome result (λ at. (hs : List Header) (e : Ending)
    ///     → Walk (start_of starts.Ethernet2) (drop 4 buffer.old) hs e
    ///     → LeavesUntagged (front_of self.now.kind hs) (drop 4 buffer.old) hs e (drop at buffer.new)) }
    /// ensures goes { (hs : List Header) (e : Ending)
    ///     → Walk (start_of starts.Ethernet2) (drop 4 buffer.old) hs e
    ///     → is_some result ≡ is_ok (front_of self.now.kind hs) }
    /// ensures kept { IfNone result (buffer.new ≡ buffer.old) }
    /// ```
    ///
    /// Words: [`Header`](crate::definitions::ether_base#def.Header),
    /// [`Ending`](crate::definitions::ether_peel#def.Ending), [`Walk`](crate::definitions::ether_peel#def.Walk),
    /// [`start_of`](crate::definitions::ether_peel#def.start_of), `starts` (`Start`),
    /// [`LeavesUntagged`](crate::definitions::ether_switch#def.LeavesUntagged),
    /// [`front_of`](crate::definitions::ether_switch#def.front_of). [Notation](crate::definitions::notation)
    ///
    /// </details>
    #[inline]
    pub fn make_untagged(&self, buffer: &mut [u8]) -> Option<usize> {
        match is_tagged(self.kind, buffer) {
            Some(true) => match retagging::untag(buffer) {
                Ok(_) => Some(8),
                Err(_) => None,
            },
            Some(false) => Some(4),
            None => None,
        }
    }
}

/// Whether the frame after four bytes of a buffer has a tag of the bridge's kind; `None` if its header or tag is cut
/// short.
#[inline]
fn is_tagged(kind: BridgeKind, buffer: &[u8]) -> Option<bool> {
    if buffer.len() < 4 {
        return None;
    }
    match read_front(kind, &buffer[4..]) {
        Ok(front) => Some(front.vlan.is_some()),
        Err(_) => None,
    }
}
