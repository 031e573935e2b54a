//! A frame that a bridge has received, as a struct of C.

use crate::ether_bridge::bridge_kind;
use etherpeel::ether_switch::{BridgeKind, Discarded, PortSet, Received, Vlan};
use etherpeel::VlanPcp;

/// A frame that a bridge has received, and where it goes: `etherpeel_received` in C.
///
/// Each bit pattern is a value, so that C may pass memory that it has not written to.
#[repr(C)]
#[derive(Clone, Copy)]
pub struct EtherReceived {
    /// The ports through which it leaves with the tag of its VLAN.
    pub tagged: PortSet,
    /// The ports through which it leaves without a tag.
    pub untagged: PortSet,
    /// The identifier of its VLAN.
    pub vid: u16,
    /// The number of the kind of the bridge.
    pub kind: u8,
    /// Its priority.
    pub priority: u8,
    /// 1 if it may be dropped first under congestion, else 0.
    pub drop_eligible: u8,
    /// 1 if it is for the bridge itself, else 0.
    pub reserved: u8,
    /// The number of the reason why it is discarded; 0 if it is not.
    pub discarded: u8,
}

// as c/etherpeel.h lays it out
const _: () = assert!(size_of::<EtherReceived>() == 72);

impl EtherReceived {
    /// What a bridge returns for a frame, as a struct of C.
    pub(crate) fn of(answer: &Result<Received, Discarded>) -> EtherReceived {
        match answer {
            Ok(received) => EtherReceived {
                tagged: received.tagged,
                untagged: received.untagged,
                vid: received.vlan.id().value(),
                kind: number_of(received.kind),
                priority: received.priority.value(),
                drop_eligible: u8::from(received.drop_eligible),
                reserved: u8::from(received.reserved),
                discarded: 0,
            },
            Err(reason) => EtherReceived {
                tagged: PortSet::NONE,
                untagged: PortSet::NONE,
                vid: 0,
                kind: 0,
                priority: 0,
                drop_eligible: 0,
                reserved: 0,
                discarded: number_of_reason(*reason),
            },
        }
    }

    /// The frame that was passed, if it is not discarded and its numbers fit their fields.
    pub(crate) fn to_received(&self) -> Option<Received> {
        if self.discarded != 0 {
            return None;
        }
        let Ok(vlan) = Vlan::try_new(self.vid) else {
            return None;
        };
        let Ok(priority) = VlanPcp::try_new(self.priority) else {
            return None;
        };
        let kind = bridge_kind(self.kind)?;
        Some(Received {
            kind,
            vlan,
            priority,
            drop_eligible: self.drop_eligible != 0,
            reserved: self.reserved != 0,
            tagged: self.tagged,
            untagged: self.untagged,
        })
    }
}

/// The number of a kind of bridge.
fn number_of(kind: BridgeKind) -> u8 {
    match kind {
        BridgeKind::Customer => 1,
        BridgeKind::Provider => 2,
    }
}

/// The number of the reason why a frame is discarded.
fn number_of_reason(reason: Discarded) -> u8 {
    match reason {
        Discarded::NoHeader => 1,
        Discarded::CutTag => 2,
        Discarded::ReservedIdentifier => 3,
        Discarded::Source => 4,
        Discarded::FrameType => 5,
        Discarded::SecondTag => 6,
        Discarded::NotAMember => 7,
        Discarded::PortState => 8,
    }
}
