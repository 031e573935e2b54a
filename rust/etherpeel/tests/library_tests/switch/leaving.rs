//! The form in which frames leave a bridge.
use crate::checks::{equal, put};
use etherpeel::ether_switch::{BridgeKind, PortSet, Received, Vlan};
use etherpeel::VlanPcp;
use crate::kit::Abort;
use crate::kit::Fail;

/// A frame, and the bytes that leave without a tag and with the tag of VLAN 10, if they can.
struct Row {
    name: &'static str,
    kind: BridgeKind,
    drop_eligible: bool,
    frame: &'static [u8],
    untagged: Option<&'static [u8]>,
    tagged: Option<&'static [u8]>,
}

static ROWS: [Row; 12] = [
    Row {
        name: "without a tag",
        kind: BridgeKind::Customer,
        drop_eligible: false,
        frame: b"\x02\x00\x00\x00\x00\x09\x02\x00\x00\x00\x00\x01\x08\x00\x45\x46",
        untagged: Some(b"\x02\x00\x00\x00\x00\x09\x02\x00\x00\x00\x00\x01\x08\x00\x45\x46"),
        tagged: Some(
            b"\x02\x00\x00\x00\x00\x09\x02\x00\x00\x00\x00\x01\x81\x00\xA0\x0A\x08\x00\x45\x46",
        ),
    },
    Row {
        name: "without a tag, drop eligible",
        kind: BridgeKind::Customer,
        drop_eligible: true,
        frame: b"\x02\x00\x00\x00\x00\x09\x02\x00\x00\x00\x00\x01\x08\x00\x45\x46",
        untagged: Some(b"\x02\x00\x00\x00\x00\x09\x02\x00\x00\x00\x00\x01\x08\x00\x45\x46"),
        tagged: Some(
            b"\x02\x00\x00\x00\x00\x09\x02\x00\x00\x00\x00\x01\x81\x00\xB0\x0A\x08\x00\x45\x46",
        ),
    },
    Row {
        name: "with a tag, which keeps its priority",
        kind: BridgeKind::Customer,
        drop_eligible: false,
        frame: b"\x02\x00\x00\x00\x00\x09\x02\x00\x00\x00\x00\x01\x81\x00\x70\x0A\x08\x00\x45\x46",
        untagged: Some(b"\x02\x00\x00\x00\x00\x09\x02\x00\x00\x00\x00\x01\x08\x00\x45\x46"),
        tagged: Some(
            b"\x02\x00\x00\x00\x00\x09\x02\x00\x00\x00\x00\x01\x81\x00\x70\x0A\x08\x00\x45\x46",
        ),
    },
    Row {
        name: "with a priority alone, which gets the VLAN",
        kind: BridgeKind::Customer,
        drop_eligible: true,
        frame: b"\x02\x00\x00\x00\x00\x09\x02\x00\x00\x00\x00\x01\x81\x00\x70\x00\x08\x00\x45\x46",
        untagged: Some(b"\x02\x00\x00\x00\x00\x09\x02\x00\x00\x00\x00\x01\x08\x00\x45\x46"),
        tagged: Some(
            b"\x02\x00\x00\x00\x00\x09\x02\x00\x00\x00\x00\x01\x81\x00\x70\x0A\x08\x00\x45\x46",
        ),
    },
    Row {
        name: "with two tags, of which the first changes",
        kind: BridgeKind::Customer,
        drop_eligible: false,
        frame: b"\x02\x00\x00\x00\x00\x09\x02\x00\x00\x00\x00\x01\x81\x00\x70\x0A\x81\x00\x00\x14\x08\x00\x45\x46",
        untagged: Some(
            b"\x02\x00\x00\x00\x00\x09\x02\x00\x00\x00\x00\x01\x81\x00\x00\x14\x08\x00\x45\x46",
        ),
        tagged: Some(
            b"\x02\x00\x00\x00\x00\x09\x02\x00\x00\x00\x00\x01\x81\x00\x70\x0A\x81\x00\x00\x14\x08\x00\x45\x46",
        ),
    },
    Row {
        name: "with a service tag, which is payload for customers",
        kind: BridgeKind::Customer,
        drop_eligible: false,
        frame: b"\x02\x00\x00\x00\x00\x09\x02\x00\x00\x00\x00\x01\x88\xA8\x70\x14\x08\x00\x45\x46",
        untagged: Some(
            b"\x02\x00\x00\x00\x00\x09\x02\x00\x00\x00\x00\x01\x88\xA8\x70\x14\x08\x00\x45\x46",
        ),
        tagged: Some(
            b"\x02\x00\x00\x00\x00\x09\x02\x00\x00\x00\x00\x01\x81\x00\xA0\x0A\x88\xA8\x70\x14\x08\x00\x45\x46",
        ),
    },
    Row {
        name: "with a service tag",
        kind: BridgeKind::Provider,
        drop_eligible: false,
        frame: b"\x02\x00\x00\x00\x00\x09\x02\x00\x00\x00\x00\x01\x88\xA8\x70\x0A\x08\x00\x45\x46",
        untagged: Some(b"\x02\x00\x00\x00\x00\x09\x02\x00\x00\x00\x00\x01\x08\x00\x45\x46"),
        tagged: Some(
            b"\x02\x00\x00\x00\x00\x09\x02\x00\x00\x00\x00\x01\x88\xA8\x70\x0A\x08\x00\x45\x46",
        ),
    },
    Row {
        name: "with a customer tag, which is payload for providers",
        kind: BridgeKind::Provider,
        drop_eligible: false,
        frame: b"\x02\x00\x00\x00\x00\x09\x02\x00\x00\x00\x00\x01\x81\x00\x70\x14\x08\x00\x45\x46",
        untagged: Some(
            b"\x02\x00\x00\x00\x00\x09\x02\x00\x00\x00\x00\x01\x81\x00\x70\x14\x08\x00\x45\x46",
        ),
        tagged: Some(
            b"\x02\x00\x00\x00\x00\x09\x02\x00\x00\x00\x00\x01\x88\xA8\xA0\x0A\x81\x00\x70\x14\x08\x00\x45\x46",
        ),
    },
    Row {
        name: "without payload",
        kind: BridgeKind::Customer,
        drop_eligible: false,
        frame: b"\x02\x00\x00\x00\x00\x09\x02\x00\x00\x00\x00\x01\x08\x00",
        untagged: Some(b"\x02\x00\x00\x00\x00\x09\x02\x00\x00\x00\x00\x01\x08\x00"),
        tagged: Some(b"\x02\x00\x00\x00\x00\x09\x02\x00\x00\x00\x00\x01\x81\x00\xA0\x0A\x08\x00"),
    },
    Row {
        name: "a tag that is cut short",
        kind: BridgeKind::Customer,
        drop_eligible: false,
        frame: b"\x02\x00\x00\x00\x00\x09\x02\x00\x00\x00\x00\x01\x81\x00\x00\x0A\x08",
        untagged: None,
        tagged: None,
    },
    Row {
        name: "a header that is cut short",
        kind: BridgeKind::Customer,
        drop_eligible: false,
        frame: b"\x02\x00\x00\x00\x00\x09\x02\x00\x00\x00\x00\x01\x08",
        untagged: None,
        tagged: None,
    },
    Row {
        name: "no byte",
        kind: BridgeKind::Customer,
        drop_eligible: false,
        frame: b"",
        untagged: None,
        tagged: None,
    },
];

/// Fails if the frame does not leave with the row's bytes, or if the buffer of a frame that cannot leave changes.
fn check<R: Abort>(rt: &R, row: &Row, received: &Received) {
    let mut start = [0x5A; 32];
    put(&mut start, 4, row.frame);
    let (mut one, mut other, end) = (start, start, 4 + row.frame.len());
    let untagged = match received.make_untagged(&mut one[..end]) {
        Some(at) => one.get(at..end),
        None => None,
    };
    let tagged = match received.make_tagged(&mut other[..end]) {
        Some(at) => other.get(at..end),
        None => None,
    };
    equal!(rt, row.name;
        untagged => row.untagged,
        tagged => row.tagged,
        untagged.is_some() || one == start => true,
        tagged.is_some() || other == start => true,
    );
}

#[test]
fn a_frame_leaves_with_the_tag_of_its_vlan_or_without() -> Result<(), Fail> {
    let rt = crate::kit::HostRuntime;
    for row in &ROWS {
        let received = Received {
            kind: row.kind,
            vlan: Vlan::try_new(10)?,
            priority: VlanPcp::try_new(5)?,
            drop_eligible: row.drop_eligible,
            reserved: false,
            tagged: PortSet::NONE,
            untagged: PortSet::NONE,
        };
        check(&rt, row, &received);
    }
    Ok(())
}
