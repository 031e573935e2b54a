//! Frames of several VLANs, with several protocols.
use super::TAGGED;
use crate::checks::equal;
use etherpeel::VlanId;
use crate::example_frames::vlan_filter::is_ipv4_or_arp_in_vlans;
use crate::kit::Fail;

/// An ARP request of the Linux kernel with a service tag and a customer tag: composed by hand, sent, and captured.
#[rustfmt::skip]
const TWICE: [u8; 50] = [
    0xFF, 0xFF, 0xFF, 0xFF, 0xFF, 0xFF, 0x02, 0x00, 0x5E, 0x10, 0x00, 0x01, 0x88, 0xA8, 0x00, 0x0A,
    0x81, 0x00, 0x00, 0x64, 0x08, 0x06, 0x00, 0x01, 0x08, 0x00, 0x06, 0x04, 0x00, 0x01, 0x02, 0x00,
    0x5E, 0x10, 0x00, 0x01, 0xC0, 0x00, 0x02, 0x01, 0x00, 0x00, 0x00, 0x00, 0x00, 0x00, 0xC0, 0x00,
    0x02, 0x02,
];

/// [`TAGGED`] with IPv6 in place of IPv4, and without its tag.
const IPV6: [u8; 19] = [
    0xFF, 0xFF, 0xFF, 0xFF, 0xFF, 0xFF, 0x02, 0x00, 0x00, 0x00, 0x00, 0x01, 0x81, 0x00, 0xB1, 0x23,
    0x86, 0xDD, 0x45,
];

const UNTAGGED: [u8; 19] = [
    0xFF, 0xFF, 0xFF, 0xFF, 0xFF, 0xFF, 0x02, 0x00, 0x00, 0x00, 0x00, 0x01, 0x08, 0x00, 0xB1, 0x23,
    0x08, 0x00, 0x45,
];

/// A frame, the number of its bytes that are there, the identifier that passes besides 0, and whether the frame
/// passes.
#[rustfmt::skip]
static ROWS: [(&str, &[u8], usize, u16, bool); 8] = [
    ("one of two identifiers", &TAGGED, 19, 0x123, true),
    ("another identifier", &TAGGED, 19, 1, false),
    ("the outer tag", &TWICE, 50, 10, true),
    ("the outer tag before ARP that is cut", &TWICE, 30, 10, true),
    ("the inner tag", &TWICE, 50, 100, false),
    ("IPv6", &IPV6, 19, 0x123, false),
    ("no tag", &UNTAGGED, 19, 0x123, false),
    ("a tag that is cut", &TAGGED, 17, 0x123, false),
];

#[test]
fn only_ipv4_and_arp_in_the_vlans_pass() -> Result<(), Fail> {
    let rt = crate::kit::HostRuntime;
    for &(name, frame, len, number, passes) in &ROWS {
        let vlan_ids = [VlanId::ZERO, VlanId::try_new(number)?];
        let frame = frame.get(..len).unwrap_or(&[]);
        equal!(rt, name; is_ipv4_or_arp_in_vlans(frame, &vlan_ids) => passes);
    }
    Ok(())
}
