//! Values of the crate in the terms of the models, field by field, as public fields and getters give them.

use crate::arp::Arp;
use crate::cooked::{Cooked, Protocol};
use crate::sec_tag::SecTag;
use crate::walk::{self, Next, Window};
use crate::wire::{Breach, Ethernet, Header, Kind, Layer, Shortage, Source, Tag};
use etherpeel::err::{self, LenError};
use etherpeel::ether_peel::{Peel, PeelError, PeelFault, PeelUnit, RestKind, Start, Summary};
use etherpeel::{
    ArpPacket, ArpPacketSlice, Ethernet2Header, Ethernet2Slice, LenSource, LinuxSllHeader, LinuxSllProtocolType,
    LinuxSllSlice, MacsecHeader, MacsecHeaderSlice, MacsecPType, SingleVlanHeader, SingleVlanSlice,
};

pub fn source(source: LenSource) -> Source {
    match source {
        LenSource::Slice => Source::Frame,
        LenSource::MacsecShortLength => Source::ShortLength,
        LenSource::ArpAddrLengths => Source::ArpSizes,
        other => panic!("no source of the link layer: {other:?}"),
    }
}

pub fn layer(layer: err::Layer) -> Layer {
    match layer {
        err::Layer::Ethernet2Header => Layer::Ethernet,
        err::Layer::LinuxSllHeader => Layer::Cooked,
        err::Layer::VlanHeader => Layer::Vlan,
        err::Layer::MacsecHeader => Layer::SecTag,
        err::Layer::MacsecPacket => Layer::SecuredPayload,
        err::Layer::Arp => Layer::Arp,
        other => panic!("no layer of the link: {other:?}"),
    }
}

/// The shortage that a length error describes.
pub fn short(error: &LenError) -> Breach {
    Breach::Short(Shortage {
        required: error.required_len,
        available: error.len,
        source: source(error.len_source),
        layer: layer(error.layer),
        start: error.layer_start_offset,
    })
}

pub fn cooked_content(error: &err::linux_sll::HeaderError) -> Breach {
    use err::linux_sll::HeaderError;
    match error {
        HeaderError::UnsupportedPacketTypeField { packet_type } => Breach::PacketType(*packet_type),
        HeaderError::UnsupportedArpHardwareId { arp_hardware_type } => Breach::HardwareType(arp_hardware_type.0),
    }
}

pub fn sec_tag_content(error: &err::macsec::HeaderError) -> Breach {
    use err::macsec::HeaderError;
    match error {
        HeaderError::UnexpectedVersion => Breach::Version,
        HeaderError::InvalidUnmodifiedShortLen => Breach::ShortLength,
    }
}

pub fn cooked_breach(error: &err::linux_sll::HeaderSliceError) -> Breach {
    match error {
        err::linux_sll::HeaderSliceError::Len(error) => short(error),
        err::linux_sll::HeaderSliceError::Content(error) => cooked_content(error),
    }
}

pub fn sec_tag_breach(error: &err::macsec::HeaderSliceError) -> Breach {
    match error {
        err::macsec::HeaderSliceError::Len(error) => short(error),
        err::macsec::HeaderSliceError::Content(error) => sec_tag_content(error),
    }
}

pub fn breach(error: &PeelError) -> Breach {
    match error {
        PeelError::Len(error) => short(error),
        PeelError::LinuxSll(error) => cooked_content(error),
        PeelError::Macsec(error) => sec_tag_content(error),
    }
}

pub fn ethernet(header: &Ethernet2Header) -> Ethernet {
    Ethernet {
        destination: header.destination.to_vec(),
        source: header.source.to_vec(),
        ether_type: header.ether_type.0,
    }
}

pub fn ethernet_view(slice: &Ethernet2Slice<'_>) -> Ethernet {
    Ethernet {
        destination: slice.destination().to_vec(),
        source: slice.source().to_vec(),
        ether_type: slice.ether_type().0,
    }
}

pub fn tag(header: &SingleVlanHeader) -> Tag {
    Tag {
        pcp: header.pcp.value(),
        dei: header.drop_eligible_indicator,
        vid: header.vlan_id.value(),
        ether_type: header.ether_type.0,
    }
}

pub fn tag_view(slice: &SingleVlanSlice<'_>) -> Tag {
    Tag {
        pcp: slice.priority_code_point().value(),
        dei: slice.drop_eligible_indicator(),
        vid: slice.vlan_identifier().value(),
        ether_type: slice.ether_type().0,
    }
}

pub fn protocol(protocol: LinuxSllProtocolType) -> Protocol {
    match protocol {
        LinuxSllProtocolType::Ignored(number) => Protocol::Ignored(number),
        LinuxSllProtocolType::NetlinkProtocolType(number) => Protocol::Netlink(number),
        LinuxSllProtocolType::GenericRoutingEncapsulationProtocolType(number) => Protocol::Gre(number),
        LinuxSllProtocolType::EtherType(ether_type) => Protocol::EtherType(ether_type.0),
        LinuxSllProtocolType::LinuxNonstandardEtherType(number) => Protocol::Nonstandard(number.into()),
    }
}

pub fn cooked(header: &LinuxSllHeader) -> Cooked {
    Cooked {
        packet_type: header.packet_type.into(),
        hardware_type: header.arp_hrd_type.0,
        address_len: header.sender_address_valid_length,
        address: header.sender_address.to_vec(),
        protocol: header.protocol_type.into(),
    }
}

pub fn cooked_view(slice: &LinuxSllSlice<'_>) -> Cooked {
    Cooked {
        packet_type: slice.packet_type().into(),
        hardware_type: slice.arp_hardware_type().0,
        address_len: slice.sender_address_valid_length(),
        address: slice.sender_address_full().to_vec(),
        protocol: slice.protocol_number(),
    }
}

/// Whether the payload type has the bits E and C, and its ether type.
fn payload_type(payload_type: MacsecPType) -> (bool, bool, Option<u16>) {
    match payload_type {
        MacsecPType::Unmodified(ether_type) => (false, false, Some(ether_type.0)),
        MacsecPType::Modified => (false, true, None),
        MacsecPType::EncryptedUnmodified => (true, false, None),
        MacsecPType::Encrypted => (true, true, None),
    }
}

pub fn sec_tag(header: &MacsecHeader) -> SecTag {
    let (encrypted, changed, ether_type) = payload_type(header.ptype);
    SecTag {
        end_station: header.endstation_id,
        single_copy: header.scb,
        encrypted,
        changed,
        association_number: header.an.value(),
        short_length: header.short_len.value(),
        packet_number: header.packet_nr,
        sci: header.sci,
        ether_type,
    }
}

pub fn sec_tag_view(slice: &MacsecHeaderSlice<'_>) -> SecTag {
    let (encrypted, changed, ether_type) = payload_type(slice.ptype());
    SecTag {
        end_station: slice.endstation_id(),
        single_copy: slice.tci_scb(),
        encrypted,
        changed,
        association_number: slice.an().value(),
        short_length: slice.short_len().value(),
        packet_number: slice.packet_nr(),
        sci: slice.sci(),
        ether_type,
    }
}

pub fn arp(packet: &ArpPacket) -> Arp {
    Arp {
        hardware_type: packet.hw_addr_type.0,
        protocol_type: packet.proto_addr_type.0,
        operation: packet.operation.0,
        sender_hardware: packet.sender_hw_addr().to_vec(),
        sender_protocol: packet.sender_protocol_addr().to_vec(),
        target_hardware: packet.target_hw_addr().to_vec(),
        target_protocol: packet.target_protocol_addr().to_vec(),
    }
}

pub fn arp_view(slice: &ArpPacketSlice<'_>) -> Arp {
    Arp {
        hardware_type: slice.hw_addr_type().0,
        protocol_type: slice.proto_addr_type().0,
        operation: slice.operation().0,
        sender_hardware: slice.sender_hw_addr().to_vec(),
        sender_protocol: slice.sender_protocol_addr().to_vec(),
        target_hardware: slice.target_hw_addr().to_vec(),
        target_protocol: slice.target_protocol_addr().to_vec(),
    }
}

/// The header of a unit. An Ethernet frame with a frame check sequence is a kind of its own.
pub fn header(unit: &PeelUnit<'_>) -> Header {
    match unit {
        PeelUnit::Ethernet2(slice) if slice.fcs().is_some() => Header::EthernetFcs(ethernet_view(slice)),
        PeelUnit::Ethernet2(slice) => Header::Ethernet(ethernet_view(slice)),
        PeelUnit::LinuxSll(slice) => Header::Cooked(cooked_view(slice)),
        PeelUnit::Vlan(slice) => Header::Vlan(tag_view(slice)),
        PeelUnit::Macsec(slice) => Header::SecTag(sec_tag_view(&slice.header)),
        PeelUnit::Arp(slice) => Header::Arp(arp_view(slice)),
    }
}

/// The start of the crate that a start of the model is.
pub fn start(start: walk::Start) -> Start {
    match start {
        walk::Start::Ethernet => Start::Ethernet2,
        walk::Start::EthernetFcs => Start::Ethernet2Fcs,
        walk::Start::Cooked => Start::LinuxSll,
        walk::Start::EtherType(number) => Start::EtherType(number.into()),
    }
}

/// What a window of a walk with this start is announced as.
pub fn next(start: walk::Start, kind: RestKind) -> Next {
    match (kind, start) {
        (RestKind::Start, walk::Start::Ethernet) => Next::First(Kind::Ethernet),
        (RestKind::Start, walk::Start::EthernetFcs) => Next::First(Kind::EthernetFcs),
        (RestKind::Start, walk::Start::Cooked) => Next::First(Kind::Cooked),
        (RestKind::Start, walk::Start::EtherType(_)) => panic!("an ether type is no first header"),
        (RestKind::EtherType(ether_type), _) => Next::EtherType(ether_type.0),
        (RestKind::Sll(protocol_type), _) => Next::Protocol(protocol(protocol_type)),
        (RestKind::Sealed, _) => Next::Sealed,
        (RestKind::AfterArp, _) => Next::AfterArp,
    }
}

/// The window that a walk has left.
pub fn window(peel: &Peel<'_>) -> Window {
    let start = peel.offset();
    Window { start, end: start + peel.rest().len(), closed: peel.closed(), bound: source(peel.bound()) }
}

/// The fault that a walk of the model ends in: where, why, and whether the window is closed.
pub fn fault_of(walk: &walk::Walk) -> Option<(usize, Breach, bool)> {
    walk.breach.map(|breach| (walk.rest.start, breach, walk.rest.closed))
}

/// The same of a fault of the crate.
pub fn fault(fault: &PeelFault) -> (usize, Breach, bool) {
    (fault.offset, breach(&fault.error), fault.closed)
}

/// How many units a walk has, where its rest starts and ends, what that is announced as, and the fault.
pub type Outcome = (usize, usize, usize, Next, Option<(usize, Breach, bool)>);

pub fn outcome_of(walk: &walk::Walk) -> Outcome {
    (walk.units.len(), walk.rest.start, walk.rest.end, walk.next, fault_of(walk))
}

pub fn outcome(start: walk::Start, summary: &Summary) -> Outcome {
    let kind = next(start, summary.kind);
    (summary.units, summary.rest_start, summary.rest_end, kind, summary.fault.as_ref().map(fault))
}
