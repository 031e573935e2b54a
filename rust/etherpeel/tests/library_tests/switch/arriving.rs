//! How a port accepts frames, or why it does not. The expected values follow the standard's clauses.
use crate::checks::equal;
use crate::switch::bridges::{customer_bridge, forwarding, untagged_vlan};
use etherpeel::ether_switch::{
    AcceptableFrames, Bridge, BridgeKind, Discarded, PortConfig, StationBucket, Vlan, VlanConfig,
};
use etherpeel::VlanPcp;
use crate::kit::Abort;
use crate::kit::Fail;

/// A frame that comes in, and its VLAN, its priority and whether it is for the bridge itself, or why it is discarded.
struct Row {
    name: &'static str,
    kind: BridgeKind,
    frame_types: AcceptableFrames,
    refuses_second_tag: bool,
    ingress_filtering: bool,
    frame: &'static [u8],
    wanted: Result<(u16, u8, bool), Discarded>,
}

static ROWS: [Row; 38] = [
    Row {
        name: "without a tag",
        kind: BridgeKind::Customer,
        frame_types: AcceptableFrames::All,
        refuses_second_tag: false,
        ingress_filtering: true,
        frame: b"\x02\x00\x00\x00\x00\x09\x02\x00\x00\x00\x00\x01\x08\x00",
        wanted: Ok((10, 2, false)),
    },
    Row {
        name: "with a priority alone",
        kind: BridgeKind::Customer,
        frame_types: AcceptableFrames::OnlyUntaggedAndPriorityTagged,
        refuses_second_tag: false,
        ingress_filtering: true,
        frame: b"\x02\x00\x00\x00\x00\x09\x02\x00\x00\x00\x00\x01\x81\x00\xA0\x00\x08\x00",
        wanted: Ok((10, 5, false)),
    },
    Row {
        name: "with a tag",
        kind: BridgeKind::Customer,
        frame_types: AcceptableFrames::OnlyVlanTagged,
        refuses_second_tag: false,
        ingress_filtering: true,
        frame: b"\x02\x00\x00\x00\x00\x09\x02\x00\x00\x00\x00\x01\x81\x00\xF0\x14\x08\x00",
        wanted: Ok((20, 7, false)),
    },
    Row {
        name: "with a service tag, which is payload for customers",
        kind: BridgeKind::Customer,
        frame_types: AcceptableFrames::All,
        refuses_second_tag: false,
        ingress_filtering: true,
        frame: b"\x02\x00\x00\x00\x00\x09\x02\x00\x00\x00\x00\x01\x88\xA8\x00\x14\x08\x00",
        wanted: Ok((10, 2, false)),
    },
    Row {
        name: "with a service tag",
        kind: BridgeKind::Provider,
        frame_types: AcceptableFrames::All,
        refuses_second_tag: false,
        ingress_filtering: true,
        frame: b"\x02\x00\x00\x00\x00\x09\x02\x00\x00\x00\x00\x01\x88\xA8\x00\x14\x08\x00",
        wanted: Ok((20, 0, false)),
    },
    Row {
        name: "with a customer tag, which is payload for providers",
        kind: BridgeKind::Provider,
        frame_types: AcceptableFrames::All,
        refuses_second_tag: false,
        ingress_filtering: true,
        frame: b"\x02\x00\x00\x00\x00\x09\x02\x00\x00\x00\x00\x01\x81\x00\x00\x14\x08\x00",
        wanted: Ok((10, 2, false)),
    },
    Row {
        name: "with a tag, where none is taken",
        kind: BridgeKind::Customer,
        frame_types: AcceptableFrames::OnlyUntaggedAndPriorityTagged,
        refuses_second_tag: false,
        ingress_filtering: true,
        frame: b"\x02\x00\x00\x00\x00\x09\x02\x00\x00\x00\x00\x01\x81\x00\xF0\x14\x08\x00",
        wanted: Err(Discarded::FrameType),
    },
    Row {
        name: "with a priority alone, where a VLAN is asked for",
        kind: BridgeKind::Customer,
        frame_types: AcceptableFrames::OnlyVlanTagged,
        refuses_second_tag: false,
        ingress_filtering: true,
        frame: b"\x02\x00\x00\x00\x00\x09\x02\x00\x00\x00\x00\x01\x81\x00\xA0\x00\x08\x00",
        wanted: Err(Discarded::FrameType),
    },
    Row {
        name: "without a tag, where a VLAN is asked for",
        kind: BridgeKind::Customer,
        frame_types: AcceptableFrames::OnlyVlanTagged,
        refuses_second_tag: false,
        ingress_filtering: true,
        frame: b"\x02\x00\x00\x00\x00\x09\x02\x00\x00\x00\x00\x01\x08\x00",
        wanted: Err(Discarded::FrameType),
    },
    Row {
        name: "without a tag, where only that is taken",
        kind: BridgeKind::Customer,
        frame_types: AcceptableFrames::OnlyUntagged,
        refuses_second_tag: false,
        ingress_filtering: true,
        frame: b"\x02\x00\x00\x00\x00\x09\x02\x00\x00\x00\x00\x01\x08\x00",
        wanted: Ok((10, 2, false)),
    },
    Row {
        name: "with a service tag as payload, where no tag is taken",
        kind: BridgeKind::Customer,
        frame_types: AcceptableFrames::OnlyUntagged,
        refuses_second_tag: true,
        ingress_filtering: true,
        frame: b"\x02\x00\x00\x00\x00\x09\x02\x00\x00\x00\x00\x01\x88\xA8\x00\x14\x08\x00",
        wanted: Ok((10, 2, false)),
    },
    Row {
        name: "with a priority alone, where no tag is taken",
        kind: BridgeKind::Customer,
        frame_types: AcceptableFrames::OnlyUntagged,
        refuses_second_tag: false,
        ingress_filtering: true,
        frame: b"\x02\x00\x00\x00\x00\x09\x02\x00\x00\x00\x00\x01\x81\x00\xA0\x00\x08\x00",
        wanted: Err(Discarded::FrameType),
    },
    Row {
        name: "with the tag of the port's own VLAN, where no tag is taken",
        kind: BridgeKind::Customer,
        frame_types: AcceptableFrames::OnlyUntagged,
        refuses_second_tag: false,
        ingress_filtering: true,
        frame: b"\x02\x00\x00\x00\x00\x09\x02\x00\x00\x00\x00\x01\x81\x00\x00\x0A\x08\x00",
        wanted: Err(Discarded::FrameType),
    },
    Row {
        name: "with a second tag, which is taken",
        kind: BridgeKind::Customer,
        frame_types: AcceptableFrames::All,
        refuses_second_tag: false,
        ingress_filtering: true,
        frame: b"\x02\x00\x00\x00\x00\x09\x02\x00\x00\x00\x00\x01\x81\x00\xF0\x14\x81\x00\x00\x0A\x08\x00",
        wanted: Ok((20, 7, false)),
    },
    Row {
        name: "with a second tag, which is refused",
        kind: BridgeKind::Customer,
        frame_types: AcceptableFrames::All,
        refuses_second_tag: true,
        ingress_filtering: true,
        frame: b"\x02\x00\x00\x00\x00\x09\x02\x00\x00\x00\x00\x01\x81\x00\xF0\x14\x81\x00\x00\x0A\x08\x00",
        wanted: Err(Discarded::SecondTag),
    },
    Row {
        name: "with a second tag after a priority alone",
        kind: BridgeKind::Customer,
        frame_types: AcceptableFrames::OnlyUntaggedAndPriorityTagged,
        refuses_second_tag: true,
        ingress_filtering: true,
        frame: b"\x02\x00\x00\x00\x00\x09\x02\x00\x00\x00\x00\x01\x81\x00\xA0\x00\x81\x00\x00\x14\x08\x00",
        wanted: Err(Discarded::SecondTag),
    },
    Row {
        name: "with a second tag that is cut short",
        kind: BridgeKind::Customer,
        frame_types: AcceptableFrames::All,
        refuses_second_tag: true,
        ingress_filtering: true,
        frame: b"\x02\x00\x00\x00\x00\x09\x02\x00\x00\x00\x00\x01\x81\x00\xF0\x14\x81\x00\x00",
        wanted: Err(Discarded::SecondTag),
    },
    Row {
        name: "with a service tag after its own, which is payload",
        kind: BridgeKind::Customer,
        frame_types: AcceptableFrames::All,
        refuses_second_tag: true,
        ingress_filtering: true,
        frame: b"\x02\x00\x00\x00\x00\x09\x02\x00\x00\x00\x00\x01\x81\x00\xF0\x14\x88\xA8\x00\x0A\x08\x00",
        wanted: Ok((20, 7, false)),
    },
    Row {
        name: "with one tag, where a second one is refused",
        kind: BridgeKind::Customer,
        frame_types: AcceptableFrames::All,
        refuses_second_tag: true,
        ingress_filtering: true,
        frame: b"\x02\x00\x00\x00\x00\x09\x02\x00\x00\x00\x00\x01\x81\x00\xF0\x14\x08\x00",
        wanted: Ok((20, 7, false)),
    },
    Row {
        name: "with two service tags",
        kind: BridgeKind::Provider,
        frame_types: AcceptableFrames::All,
        refuses_second_tag: true,
        ingress_filtering: true,
        frame: b"\x02\x00\x00\x00\x00\x09\x02\x00\x00\x00\x00\x01\x88\xA8\x00\x14\x88\xA8\x00\x0A\x08\x00",
        wanted: Err(Discarded::SecondTag),
    },
    Row {
        name: "with a customer tag after its service tag, which is payload",
        kind: BridgeKind::Provider,
        frame_types: AcceptableFrames::All,
        refuses_second_tag: true,
        ingress_filtering: true,
        frame: b"\x02\x00\x00\x00\x00\x09\x02\x00\x00\x00\x00\x01\x88\xA8\x00\x14\x81\x00\x00\x0A\x08\x00",
        wanted: Ok((20, 0, false)),
    },
    Row {
        name: "with two tags, where none is taken",
        kind: BridgeKind::Customer,
        frame_types: AcceptableFrames::OnlyUntagged,
        refuses_second_tag: true,
        ingress_filtering: true,
        frame: b"\x02\x00\x00\x00\x00\x09\x02\x00\x00\x00\x00\x01\x81\x00\x00\x14\x81\x00\x00\x0A\x08\x00",
        wanted: Err(Discarded::FrameType),
    },
    Row {
        name: "with two tags, of a VLAN of other ports",
        kind: BridgeKind::Customer,
        frame_types: AcceptableFrames::All,
        refuses_second_tag: true,
        ingress_filtering: true,
        frame: b"\x02\x00\x00\x00\x00\x09\x02\x00\x00\x00\x00\x01\x81\x00\x00\x1E\x81\x00\x00\x0A\x08\x00",
        wanted: Err(Discarded::SecondTag),
    },
    Row {
        name: "of a VLAN of other ports",
        kind: BridgeKind::Customer,
        frame_types: AcceptableFrames::All,
        refuses_second_tag: false,
        ingress_filtering: true,
        frame: b"\x02\x00\x00\x00\x00\x09\x02\x00\x00\x00\x00\x01\x81\x00\x00\x1E\x08\x00",
        wanted: Err(Discarded::NotAMember),
    },
    Row {
        name: "of a VLAN of other ports, which is taken",
        kind: BridgeKind::Customer,
        frame_types: AcceptableFrames::All,
        refuses_second_tag: false,
        ingress_filtering: false,
        frame: b"\x02\x00\x00\x00\x00\x09\x02\x00\x00\x00\x00\x01\x81\x00\x00\x1E\x08\x00",
        wanted: Ok((30, 0, false)),
    },
    Row {
        name: "of the last VLAN, which has no row",
        kind: BridgeKind::Customer,
        frame_types: AcceptableFrames::All,
        refuses_second_tag: false,
        ingress_filtering: false,
        frame: b"\x02\x00\x00\x00\x00\x09\x02\x00\x00\x00\x00\x01\x81\x00\x0F\xFE\x08\x00",
        wanted: Ok((4094, 0, false)),
    },
    Row {
        name: "with the identifier 4095",
        kind: BridgeKind::Customer,
        frame_types: AcceptableFrames::All,
        refuses_second_tag: false,
        ingress_filtering: true,
        frame: b"\x02\x00\x00\x00\x00\x09\x02\x00\x00\x00\x00\x01\x81\x00\x0F\xFF\x08\x00",
        wanted: Err(Discarded::ReservedIdentifier),
    },
    Row {
        name: "a tag that is cut short",
        kind: BridgeKind::Customer,
        frame_types: AcceptableFrames::All,
        refuses_second_tag: false,
        ingress_filtering: true,
        frame: b"\x02\x00\x00\x00\x00\x09\x02\x00\x00\x00\x00\x01\x81\x00\x00\x14\x08",
        wanted: Err(Discarded::CutTag),
    },
    Row {
        name: "a header that is cut short",
        kind: BridgeKind::Customer,
        frame_types: AcceptableFrames::All,
        refuses_second_tag: false,
        ingress_filtering: true,
        frame: b"\x02\x00\x00\x00\x00\x09\x02\x00\x00\x00\x00\x01\x08",
        wanted: Err(Discarded::NoHeader),
    },
    Row {
        name: "from a group",
        kind: BridgeKind::Customer,
        frame_types: AcceptableFrames::All,
        refuses_second_tag: false,
        ingress_filtering: true,
        frame: b"\x02\x00\x00\x00\x00\x09\x03\x00\x00\x00\x00\x01\x08\x00",
        wanted: Err(Discarded::Source),
    },
    Row {
        name: "from zeros",
        kind: BridgeKind::Customer,
        frame_types: AcceptableFrames::All,
        refuses_second_tag: false,
        ingress_filtering: true,
        frame: b"\x02\x00\x00\x00\x00\x09\x00\x00\x00\x00\x00\x00\x08\x00",
        wanted: Err(Discarded::Source),
    },
    Row {
        name: "with the identifier 4095, from a group",
        kind: BridgeKind::Customer,
        frame_types: AcceptableFrames::All,
        refuses_second_tag: false,
        ingress_filtering: true,
        frame: b"\x02\x00\x00\x00\x00\x09\x03\x00\x00\x00\x00\x01\x81\x00\x0F\xFF\x08\x00",
        wanted: Err(Discarded::ReservedIdentifier),
    },
    Row {
        name: "a bridge protocol data unit of customers",
        kind: BridgeKind::Customer,
        frame_types: AcceptableFrames::All,
        refuses_second_tag: false,
        ingress_filtering: true,
        frame: b"\x01\x80\xC2\x00\x00\x00\x02\x00\x00\x00\x00\x01\x00\x26",
        wanted: Ok((10, 2, true)),
    },
    Row {
        name: "the same at a provider, which forwards it",
        kind: BridgeKind::Provider,
        frame_types: AcceptableFrames::All,
        refuses_second_tag: false,
        ingress_filtering: true,
        frame: b"\x01\x80\xC2\x00\x00\x00\x02\x00\x00\x00\x00\x01\x00\x26",
        wanted: Ok((10, 2, false)),
    },
    Row {
        name: "the same where a VLAN is asked for",
        kind: BridgeKind::Customer,
        frame_types: AcceptableFrames::OnlyVlanTagged,
        refuses_second_tag: false,
        ingress_filtering: true,
        frame: b"\x01\x80\xC2\x00\x00\x00\x02\x00\x00\x00\x00\x01\x00\x26",
        wanted: Ok((10, 2, true)),
    },
    Row {
        name: "the same with two tags, where no tag is taken",
        kind: BridgeKind::Customer,
        frame_types: AcceptableFrames::OnlyUntagged,
        refuses_second_tag: true,
        ingress_filtering: true,
        frame: b"\x01\x80\xC2\x00\x00\x00\x02\x00\x00\x00\x00\x01\x81\x00\xE0\x14\x81\x00\x00\x0A\x00\x26",
        wanted: Ok((20, 7, true)),
    },
    Row {
        name: "the same of a VLAN of other ports",
        kind: BridgeKind::Customer,
        frame_types: AcceptableFrames::All,
        refuses_second_tag: false,
        ingress_filtering: true,
        frame: b"\x01\x80\xC2\x00\x00\x00\x02\x00\x00\x00\x00\x01\x81\x00\x00\x1E\x00\x26",
        wanted: Ok((30, 0, true)),
    },
    Row {
        name: "the same from a group",
        kind: BridgeKind::Customer,
        frame_types: AcceptableFrames::All,
        refuses_second_tag: false,
        ingress_filtering: true,
        frame: b"\x01\x80\xC2\x00\x00\x00\x03\x00\x00\x00\x00\x01\x00\x26",
        wanted: Err(Discarded::Source),
    },
];

/// Fails if the result for the row's frame differs. The port is a member of VLANs 10 and 20.
fn check<R: Abort>(rt: &R, row: &Row, port: &PortConfig) {
    let states = forwarding(&[1]);
    let mut vlans = [VlanConfig::NONE; 21];
    vlans[10] = untagged_vlan(&[1], 0, 2);
    vlans[20] = untagged_vlan(&[1], 2, 2);
    let bridge = Bridge {
        kind: row.kind,
        ..customer_bridge(&states, &vlans)
    };
    let mut table = [StationBucket::EMPTY; 4];
    let found = match bridge.receive(&mut table, 0, 1, port, row.frame) {
        Ok(received) => {
            let vid = received.vlan.id().value();
            Ok((vid, received.priority.value(), received.reserved))
        }
        Err(reason) => Err(reason),
    };
    equal!(rt, row.name; found => row.wanted);
}

#[test]
fn each_form_of_frame_gets_its_vlan_or_is_discarded() -> Result<(), Fail> {
    let rt = crate::kit::HostRuntime;
    for row in &ROWS {
        let port = PortConfig {
            pvid: Vlan::try_new(10)?,
            frame_types: row.frame_types,
            refuses_second_tag: row.refuses_second_tag,
            ingress_filtering: row.ingress_filtering,
            default_priority: VlanPcp::try_new(2)?,
        };
        check(&rt, row, &port);
    }
    Ok(())
}
