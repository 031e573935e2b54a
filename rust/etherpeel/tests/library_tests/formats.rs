//! Worked examples, by the public paths of `etherparse`.
/// The error of a slice that is too short.
macro_rules! cut_short {
    ($required_len:expr, $len:expr, $layer:expr $(,)?) => {
        etherpeel::err::LenError {
            required_len: $required_len,
            len: $len,
            len_source: etherpeel::LenSource::Slice,
            layer: $layer,
            layer_start_offset: 0,
        }
    };
}

mod arp;
mod arp_addresses;
mod ether_types;
mod ethernet2;
mod examples;
mod hardware_types;
mod link;
mod link_ext;
mod linux_sll;
mod linux_sll2;
mod macsec;
mod names;
mod numbers;
mod texts;
mod vlan;
mod write_front;

use crate::checks::equal;
use etherpeel::{
    EtherPayloadSlice, EtherType, LenSource, LinuxNonstandardEtherType, LinuxSllProtocolType,
};

/// A payload of IPv4 up to the end of its slice.
const fn ipv4(payload: &[u8]) -> EtherPayloadSlice<'_> {
    EtherPayloadSlice {
        ether_type: EtherType::IPV4,
        len_source: LenSource::Slice,
        payload,
    }
}

/// The variant of a protocol of cooked captures. A static can't hold a [`LinuxSllProtocolType`].
#[derive(Clone, Copy)]
enum Protocol {
    Ignored,
    Netlink,
    Gre,
    EtherType,
    /// The dummy type for 802.3 frames, whose number is 1.
    Dummy,
    /// The type for 802.2 frames, whose number is 4.
    Llc,
}

fn protocol_type(protocol: Protocol, number: u16) -> LinuxSllProtocolType {
    match protocol {
        Protocol::Ignored => LinuxSllProtocolType::Ignored(number),
        Protocol::Netlink => LinuxSllProtocolType::NetlinkProtocolType(number),
        Protocol::Gre => LinuxSllProtocolType::GenericRoutingEncapsulationProtocolType(number),
        Protocol::EtherType => LinuxSllProtocolType::EtherType(EtherType(number)),
        Protocol::Dummy => {
            LinuxSllProtocolType::LinuxNonstandardEtherType(LinuxNonstandardEtherType::N802_3)
        }
        Protocol::Llc => {
            LinuxSllProtocolType::LinuxNonstandardEtherType(LinuxNonstandardEtherType::N802_2)
        }
    }
}
