//! Of the switch.
use super::Returned;
use crate::text::Text;
use etherpeel::ether_switch::{
    AcceptableFrames, Bridge, BridgeKind, Discarded, PortConfig, PortSet, PortStates, Received,
    Sighting, StaticEntry, StationBucket, Vlan, VlanConfig, VlanError,
};

fields! {
    StaticEntry { ports, address, vid }
    Bridge<'_> { kind, ageing_time, key, ports, vlans, static_entries, forwarded }
    PortConfig { pvid, frame_types, refuses_second_tag, ingress_filtering, default_priority }
    PortStates { learning, forwarding, isolated, mirrors }
    PortSet { words }
    Received { kind, vlan, priority, drop_eligible, reserved, tagged, untagged }
    Sighting { address, time, port }
    StationBucket { first, second, third, fourth }
    VlanError { 0 }
    VlanConfig { members, untagged, first_bucket, buckets }
}

methods! {
    Vlan { id }
}

variants! {
    Discarded {
        0 NoHeader, 1 CutTag, 2 ReservedIdentifier, 3 Source, 4 FrameType, 5 SecondTag,
        6 NotAMember, 7 PortState,
    }
    BridgeKind { 0 Customer, 1 Provider }
    AcceptableFrames { 0 All, 1 OnlyVlanTagged, 2 OnlyUntaggedAndPriorityTagged, 3 OnlyUntagged }
}
