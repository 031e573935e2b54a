//! An ARP request as it is on the wire, and a target that is too short.
use crate::checks::{equal, put};
use etherpeel::VlanId;
use etherpeel::err::{Layer, SliceWriteSpaceError};
use crate::example_frames::arp_generator::{REQUEST_LEN, write_arp_request};
use crate::kit::Fail;

/// An ARP request of the Linux kernel as it was captured, without the outer of its two VLAN tags.
const REQUEST: [u8; REQUEST_LEN] = [
    0xFF, 0xFF, 0xFF, 0xFF, 0xFF, 0xFF, 0x02, 0x00, 0x5E, 0x10, 0x00, 0x01, 0x81, 0x00, 0x00, 0x64,
    0x08, 0x06, 0x00, 0x01, 0x08, 0x00, 0x06, 0x04, 0x00, 0x01, 0x02, 0x00, 0x5E, 0x10, 0x00, 0x01,
    0xC0, 0x00, 0x02, 0x01, 0x00, 0x00, 0x00, 0x00, 0x00, 0x00, 0xC0, 0x00, 0x02, 0x02,
];

const TOO_SHORT: SliceWriteSpaceError = SliceWriteSpaceError {
    required_len: 46,
    len: 45,
    layer: Layer::EtherPayload,
    layer_start_offset: 0,
};

/// The length of a target, the result, and the bytes that are written.
static ROWS: [(&str, usize, Result<usize, SliceWriteSpaceError>, &[u8]); 2] = [
    ("48 bytes of room", 48, Ok(46), &REQUEST),
    ("45 bytes of room", 45, Err(TOO_SHORT), &[]),
];

#[test]
fn a_generated_request_fits_or_the_target_is_unchanged() -> Result<(), Fail> {
    let rt = crate::kit::HostRuntime;
    let vlan_id = VlanId::try_new(100)?;
    let sender_mac = [0x02, 0x00, 0x5E, 0x10, 0x00, 0x01];
    for (name, room, wanted, front) in &ROWS {
        let (mut target, mut after) = ([0xAA; 48], [0xAA; 48]);
        let room = &mut target[..48.min(*room)];
        let written = write_arp_request(room, vlan_id, sender_mac, [192, 0, 2, 1], [192, 0, 2, 2]);
        put(&mut after, 0, front);
        equal!(rt, name;
            &written => wanted,
            target => after,
        );
    }
    Ok(())
}
