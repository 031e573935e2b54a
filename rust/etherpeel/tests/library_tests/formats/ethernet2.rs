//! Ethernet II headers and frames.
use super::{equal, ipv4};
use crate::test_frames::{ARP_REQUEST, FRAME, SPANNING_TREE};
use etherpeel::err::{Layer, SliceWriteSpaceError};
use etherpeel::{
    EtherType, Ethernet2Header, Ethernet2HeaderSlice, Ethernet2Slice, SingleVlanSlice, VlanId,
    ether_type,
};
use crate::kit::Abort;
use crate::kit::Fail;

/// The header of [`FRAME`].
const HEADER: Ethernet2Header = Ethernet2Header {
    source: [2, 0, 0, 0, 0, 1],
    destination: [0xFF; 6],
    ether_type: EtherType::IPV4,
};

const LAYER: Layer = Layer::Ethernet2Header;

#[test]
fn a_frame_is_read_header_by_header() -> Result<(), Fail> {
    let rt = crate::kit::HostRuntime;
    let frame = [
        0xFF, 0xFF, 0xFF, 0xFF, 0xFF, 0xFF, 0x02, 0x00, 0x00, 0x00, 0x00, 0x01, 0x81, 0x00, // Ethernet II
        0xB1, 0x23, 0x08, 0x00, // VLAN
    ];
    let ethernet = Ethernet2Slice::from_slice_without_fcs(&frame)?;
    let vlan = SingleVlanSlice::from_slice(ethernet.payload_slice())?;
    equal!(rt, "a frame, header by header";
        ethernet.ether_type() => ether_type::VLAN_TAGGED_FRAME,
        vlan.vlan_identifier() => VlanId::try_new(0x123)?,
        vlan.ether_type() => ether_type::IPV4,
    );
    Ok(())
}

/// A frame, and its header.
static FRAMES: [(&str, &[u8], Ethernet2Header); 3] = [
    ("the example", &FRAME, HEADER),
    (
        "a captured header",
        &ARP_REQUEST,
        Ethernet2Header {
            source: [0x02, 0x00, 0x5E, 0x10, 0x00, 0x01],
            destination: [0xFF; 6],
            ether_type: EtherType::ARP,
        },
    ),
    (
        "a length in the place of the type",
        &SPANNING_TREE,
        Ethernet2Header {
            source: [0x02, 0x00, 0x5E, 0x10, 0x00, 0x01],
            destination: [0x01, 0x80, 0xC2, 0x00, 0x00, 0x00],
            ether_type: EtherType(38),
        },
    ),
];

#[test]
fn an_ethernet_header_is_read_and_written_alike() {
    let rt = crate::kit::HostRuntime;
    for &(name, frame, header) in &FRAMES {
        let bytes = header.to_bytes();
        let wanted = (header, frame.get(14..).unwrap_or(&[]));
        equal!(rt, name;
            Ethernet2Header::from_slice(frame) => Ok(wanted),
            Ethernet2Header::read_from_slice(frame).ok() => Some(wanted),
            Some(bytes.as_slice()) => frame.get(..14),
            Ethernet2Header::from_bytes(bytes) => header,
        );
    }
    equal!(rt, "lengths and the default";
        HEADER.header_len() => 14,
        Ethernet2Header::LEN => 14,
        Ethernet2Header::SERIALIZED_SIZE => 14,
        Ethernet2Header::default().to_bytes() => [0; 14],
    );
}

#[test]
fn a_cut_ethernet_header_names_the_missing_bytes() {
    let rt = crate::kit::HostRuntime;
    let bytes = &FRAME[..13];
    equal!(rt, "thirteen bytes, and seventeen before a check sequence";
        Ethernet2Header::from_slice(bytes) => Err(cut_short!(14, 13, LAYER)),
        Ethernet2Header::read_from_slice(bytes) => Err(cut_short!(14, 13, LAYER)),
        Ethernet2HeaderSlice::from_slice(bytes).err() => Some(cut_short!(14, 13, LAYER)),
        Ethernet2Slice::from_slice_without_fcs(bytes).err() => Some(cut_short!(14, 13, LAYER)),
        Ethernet2Slice::from_slice_with_crc32_fcs(&FRAME[..17]).err()
            => Some(cut_short!(18, 17, LAYER)),
    );
}

#[test]
fn an_ethernet_header_is_written_to_the_front() -> Result<(), Fail> {
    let rt = crate::kit::HostRuntime;
    let mut target = [0x55; 20];
    let rest = HEADER.write_to_slice(&mut target)?;
    let len = rest.len();
    if let Some(first) = rest.first_mut() {
        *first = 0xAA;
    }
    equal!(rt, "the front, and the rest lent";
        len => 6,
        target.get(..14) => Some(&FRAME[..14]),
        target.get(14..) => Some([0xAA, 0x55, 0x55, 0x55, 0x55, 0x55].as_slice()),
    );
    let mut target = [0x55; 13];
    let refused = SliceWriteSpaceError {
        required_len: 14,
        len: 13,
        layer: LAYER,
        layer_start_offset: 0,
    };
    let error = HEADER.write_to_slice(&mut target).err();
    equal!(rt, "thirteen bytes";
        error => Some(refused),
        target => [0x55; 13],
    );
    Ok(())
}

#[test]
fn an_ethernet_view_shows_both_addresses_and_the_type() -> Result<(), Fail> {
    let rt = crate::kit::HostRuntime;
    let view = Ethernet2HeaderSlice::from_slice(&FRAME)?;
    equal!(rt, "a header";
        view.destination() => [0xFF; 6],
        view.source() => [2, 0, 0, 0, 0, 1],
        view.ether_type() => EtherType::IPV4,
        view.slice() => &FRAME[..14],
        view.to_header() => HEADER,
    );
    Ok(())
}

/// The view of [`FRAME`] with this payload and check sequence.
fn is_frame(
    rt: &impl Abort,
    name: &str,
    view: &Ethernet2Slice<'_>,
    payload: &[u8],
    fcs: Option<[u8; 4]>,
) {
    equal!(rt, name;
        view.slice() => FRAME.as_slice(),
        view.header_slice() => &FRAME[..14],
        view.payload_slice() => payload,
        view.header_len() => 14,
        view.fcs() => fcs,
        view.payload() => ipv4(payload),
        view.destination() => [0xFF; 6],
        view.source() => [2, 0, 0, 0, 0, 1],
        view.ether_type() => EtherType::IPV4,
        view.to_header() => HEADER,
    );
}

#[test]
fn a_check_sequence_is_not_part_of_the_payload() -> Result<(), Fail> {
    let rt = crate::kit::HostRuntime;
    let with = Ethernet2Slice::from_slice_with_crc32_fcs(&FRAME)?;
    let without = Ethernet2Slice::from_slice_without_fcs(&FRAME)?;
    let fcs = Some([0x11, 0x22, 0x33, 0x44]);
    is_frame(&rt, "with a check sequence", &with, &[], fcs);
    is_frame(&rt, "without one", &without, &FRAME[14..], None);
    let payload = Ethernet2Slice::from_slice_without_fcs(&SPANNING_TREE)?.payload();
    equal!(rt, "a length in the place of the type";
        payload.ether_type => EtherType(38),
        payload.payload => &SPANNING_TREE[14..],
    );
    Ok(())
}

#[test]
fn debug_shows_ethernet_frames() -> Result<(), Fail> {
    let rt = crate::kit::HostRuntime;
    let header = Ethernet2HeaderSlice::from_slice(&FRAME)?;
    let with = Ethernet2Slice::from_slice_with_crc32_fcs(&FRAME)?;
    let without = Ethernet2Slice::from_slice_without_fcs(&FRAME)?;
    let shown = format!("{:?}", (HEADER, header, with, without));
    equal!(rt, "a header, its view and two frames";
        shown.as_str()
            => "(Ethernet2Header { source: [2, 0, 0, 0, 0, 1], destination: [255, 255, 255, 255, 255, 255], ether_type: 0x0800 (Internet Protocol version 4 (IPv4)) }, \
Ethernet2HeaderSlice { slice: [255, 255, 255, 255, 255, 255, 2, 0, 0, 0, 0, 1, 8, 0] }, \
Ethernet2Slice { header: Ethernet2Header { source: [2, 0, 0, 0, 0, 1], destination: [255, 255, 255, 255, 255, 255], ether_type: 0x0800 (Internet Protocol version 4 (IPv4)) }, payload: EtherPayloadSlice { ether_type: 0x0800 (Internet Protocol version 4 (IPv4)), len_source: Slice, payload: [] }, fcs: Some([17, 34, 51, 68]) }, \
Ethernet2Slice { header: Ethernet2Header { source: [2, 0, 0, 0, 0, 1], destination: [255, 255, 255, 255, 255, 255], ether_type: 0x0800 (Internet Protocol version 4 (IPv4)) }, payload: EtherPayloadSlice { ether_type: 0x0800 (Internet Protocol version 4 (IPv4)), len_source: Slice, payload: [17, 34, 51, 68] }, fcs: None })",
    );
    Ok(())
}
