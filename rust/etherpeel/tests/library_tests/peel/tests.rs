//! Worked examples of walks, by the calls of `Peel` and by the summary.
/// What an ether type announces.
macro_rules! ether_type {
    ($number:expr $(,)?) => {
        crate::peel::plain::PlainKind::EtherType($number)
    };
}

/// The start after an ether type.
macro_rules! with_type {
    ($number:expr $(,)?) => {
        etherpeel::ether_peel::Start::EtherType(etherpeel::EtherType($number))
    };
}

/// The Ethernet II header of the made frames.
macro_rules! broadcast {
    ($ether_type:expr $(,)?) => {
        crate::peel::plain::PlainHeader::Ethernet2 {
            destination: 0xFFFF_FFFF_FFFF,
            source: 0x0200_0000_0001,
            ether_type: $ether_type,
        }
    };
}

macro_rules! vlan {
    ($pcp:expr, $dei:expr, $vid:expr, $ether_type:expr $(,)?) => {
        crate::peel::plain::PlainHeader::Vlan {
            pcp: $pcp,
            dei: $dei,
            vid: $vid,
            ether_type: $ether_type,
        }
    };
}

/// A SecTag with packet number 1, without an SCI, before a payload that can be read.
macro_rules! readable {
    ($short_len:expr, $ether_type:expr $(,)?) => {
        crate::peel::plain::PlainHeader::Macsec {
            end_station: 0,
            single_copy_broadcast: 0,
            encrypted: 0,
            changed: 0,
            association_number: 0,
            short_len: $short_len,
            packet_number: 1,
            sci: None,
            ether_type: Some($ether_type),
        }
    };
}

/// A walk without a limit that ends accepted.
macro_rules! accepted {
    ($name:expr, $start:expr, $frame:expr, $headers:expr, $rest:expr, $kind:expr, $closed:expr $(,)?) => {
        crate::peel::tests::Walk {
            name: $name,
            start: $start,
            limit: None,
            frame: $frame,
            headers: $headers,
            rest: $rest,
            kind: $kind,
            closed: $closed,
            refusal: None,
        }
    };
}

/// A walk without a limit that is refused.
macro_rules! refused {
    ($name:expr, $start:expr, $frame:expr, $headers:expr, $rest:expr, $kind:expr, $closed:expr, $refusal:expr $(,)?) => {
        crate::peel::tests::Walk {
            name: $name,
            start: $start,
            limit: None,
            frame: $frame,
            headers: $headers,
            rest: $rest,
            kind: $kind,
            closed: $closed,
            refusal: Some($refusal),
        }
    };
}

/// A refusal of a length.
macro_rules! too_short {
    ($required:expr, $len:expr, $source:expr, $layer:expr $(,)?) => {
        crate::peel::plain::PlainRefusal::Length {
            required: $required,
            len: $len,
            source: $source,
            layer: $layer,
        }
    };
}

mod captured;
mod completing;
mod cuts;
mod examples;
mod feeding;
mod limited;
mod limits;
mod refusals;
mod texts;
mod units;
mod writing_back;

use crate::checks::equal;
use crate::peel::plain::{PlainHeader, PlainKind, PlainRefusal};
use etherpeel::ether_peel::{Peel, PeelError, PeelFault, PeelUnit, RestKind, Start, Summary, summary};
use etherpeel::err::{Layer, LenError, linux_sll, macsec};
use etherpeel::{
    ArpHardwareId, EtherType, LenSource, LinuxSllProtocolType, LinuxSllSlice, MacsecPayloadSlice,
};
use limited::{summed, walker};
use crate::kit::Abort;

/// Replaces the bytes of a target from a place on, if it has room for these.
fn put(target: &mut [u8], place: usize, bytes: &[u8]) {
    if let Some(to) = target.get_mut(place..place.saturating_add(bytes.len())) {
        to.copy_from_slice(bytes);
    }
}

/// The fault of a unit at `offset` that is too short.
fn cut_short(
    offset: usize,
    closed: bool,
    required_len: usize,
    len: usize,
    len_source: LenSource,
    layer: Layer,
) -> PeelFault {
    PeelFault {
        offset,
        closed,
        error: PeelError::Len(LenError {
            required_len,
            len,
            len_source,
            layer,
            layer_start_offset: offset,
        }),
    }
}

/// A fault at `offset` for the content of the bytes.
fn content(offset: usize, closed: bool, error: PeelError) -> PeelFault {
    PeelFault {
        offset,
        closed,
        error,
    }
}

/// What is left to read: its offset, its bytes, what it is announced as, and whether its window is closed.
type Left<'a> = (usize, &'a [u8], RestKind, bool);

fn left<'a>(peel: &Peel<'a>) -> Left<'a> {
    (peel.offset(), peel.rest(), peel.kind(), peel.closed())
}

/// The next item is a unit with this header. Its payload is left to read.
fn gives(rt: &impl Abort, name: &str, peel: &mut Peel<'_>, header: &PlainHeader<'_>) {
    let Some(Ok(unit)) = peel.next() else {
        panic!("{name}: a unit is missing");
    };
    let rest = peel.rest();
    let payload = payload_of(&unit).unwrap_or(rest);
    equal!(rt, name;
        shown(&unit) => *header,
        payload => rest,
    );
}

/// The walk is at its end, and further calls return nothing.
fn ends(rt: &impl Abort, name: &str, peel: &mut Peel<'_>, wanted: &Left<'_>) {
    for _ in 0..3 {
        equal!(rt, name; left(peel) => *wanted);
        equal!(rt, name; peel.next().is_none() => true);
    }
    equal!(rt, name; left(peel) => *wanted);
}

/// The next item is this fault. It ends the walk, and the window is unchanged.
fn refuses(
    rt: &impl Abort,
    name: &str,
    peel: &mut Peel<'_>,
    fault: PeelFault,
    rest: &[u8],
    kind: PlainKind,
) {
    let wanted = (fault.offset, rest, kind_of(kind), fault.closed);
    equal!(rt, name; left(peel) => wanted);
    equal!(rt, name; peel.next() => Some(Err(fault)));
    ends(rt, name, peel, &wanted);
}

/// By the walker and by `summary`, this fault follows `units` units, in a window `rest` that is announced as `kind`.
fn is_refused(
    rt: &impl Abort,
    name: &str,
    start: Start,
    bytes: &[u8],
    units: usize,
    fault: PeelFault,
    rest: &[u8],
    kind: PlainKind,
) {
    let mut peel = Peel::new(start, bytes);
    let mut count = 0;
    for _ in 0..units {
        if let Some(Ok(_)) = peel.next() {
            count = usize::saturating_add(count, 1);
        }
    }
    let found = summary(start, bytes);
    equal!(rt, name;
        bytes.get(found.rest_start..found.rest_end) => Some(rest),
        [count, found.units, found.rest_start] => [units, units, fault.offset],
        found.kind => kind_of(kind),
        found.fault.as_ref() => Some(&fault),
    );
    refuses(rt, name, &mut peel, fault, rest, kind);
}

/// A walk: its headers, where the rest starts and ends, what it is announced as, whether its window is closed, and why
/// the walk was refused.
struct Walk {
    name: &'static str,
    start: Start,
    limit: Option<usize>,
    frame: &'static [u8],
    headers: &'static [PlainHeader<'static>],
    rest: (usize, usize),
    kind: PlainKind,
    closed: bool,
    refusal: Option<PlainRefusal>,
}

/// What the bytes that are left are announced as.
fn kind_of(kind: PlainKind) -> RestKind {
    match kind {
        PlainKind::Start => RestKind::Start,
        PlainKind::EtherType(number) => RestKind::EtherType(EtherType(number)),
        PlainKind::Gre(number) => RestKind::Sll(
            LinuxSllProtocolType::GenericRoutingEncapsulationProtocolType(number),
        ),
        PlainKind::Netlink(number) => {
            RestKind::Sll(LinuxSllProtocolType::NetlinkProtocolType(number))
        }
        PlainKind::Ignored(number) => RestKind::Sll(LinuxSllProtocolType::Ignored(number)),
        PlainKind::Sealed => RestKind::Sealed,
        PlainKind::AfterArp => RestKind::AfterArp,
    }
}

/// The fault of a unit at `offset` that is refused.
fn fault_at(offset: usize, closed: bool, refusal: PlainRefusal) -> PeelFault {
    let error = match refusal {
        PlainRefusal::Length {
            required,
            len,
            source,
            layer,
        } => return cut_short(offset, closed, required, len, source, layer),
        PlainRefusal::PacketType(packet_type) => {
            PeelError::LinuxSll(linux_sll::HeaderError::UnsupportedPacketTypeField { packet_type })
        }
        PlainRefusal::HardwareType(number) => {
            PeelError::LinuxSll(linux_sll::HeaderError::UnsupportedArpHardwareId {
                arp_hardware_type: ArpHardwareId(number),
            })
        }
        PlainRefusal::Version => PeelError::Macsec(macsec::HeaderError::UnexpectedVersion),
        PlainRefusal::ShortLen => {
            PeelError::Macsec(macsec::HeaderError::InvalidUnmodifiedShortLen)
        }
    };
    content(offset, closed, error)
}

/// Walks through a frame by [`Peel`] and by the summary. After the end or the fault, further calls change nothing.
fn check(rt: &impl Abort, walk: &Walk) {
    let (start, end) = walk.rest;
    let rest = walk.frame.get(start..end).unwrap_or(&[]);
    let mut peel = walker(walk.start, walk.frame, walk.limit);
    for header in walk.headers {
        gives(rt, walk.name, &mut peel, header);
    }
    let fault = walk
        .refusal
        .map(|refusal| fault_at(start, walk.closed, refusal));
    let wanted = Summary {
        units: walk.headers.len(),
        rest_start: start,
        rest_end: end,
        kind: kind_of(walk.kind),
        fault,
    };
    let found = summed(walk.start, walk.frame, walk.limit);
    equal!(rt, walk.name; found => wanted);
    match wanted.fault {
        Some(fault) => refuses(rt, walk.name, &mut peel, fault, rest, walk.kind),
        None => {
            let wanted = (start, rest, kind_of(walk.kind), walk.closed);
            ends(rt, walk.name, &mut peel, &wanted);
        }
    }
}

/// A unit's payload, which an ARP packet doesn't have.
fn payload_of<'a>(unit: &PeelUnit<'a>) -> Option<&'a [u8]> {
    match unit {
        PeelUnit::Ethernet2(frame) => Some(frame.payload_slice()),
        PeelUnit::LinuxSll(packet) => Some(packet.payload_slice()),
        PeelUnit::Vlan(tag) => Some(tag.payload_slice()),
        PeelUnit::Macsec(packet) => Some(match packet.payload {
            MacsecPayloadSlice::Unmodified(payload) => payload.payload,
            MacsecPayloadSlice::Modified(payload) => payload,
        }),
        PeelUnit::Arp(_) => None,
    }
}

/// A unit's header, by the getters of its view.
fn shown<'a>(unit: &'a PeelUnit<'_>) -> PlainHeader<'a> {
    match unit {
        PeelUnit::Ethernet2(frame) => {
            let (destination, source) = (address(frame.destination()), address(frame.source()));
            let ether_type = frame.ether_type().0;
            match frame.fcs() {
                None => PlainHeader::Ethernet2 {
                    destination,
                    source,
                    ether_type,
                },
                Some(fcs) => PlainHeader::Ethernet2Fcs {
                    destination,
                    source,
                    ether_type,
                    check_sequence: u64::from(u32::from_be_bytes(fcs)),
                },
            }
        }
        PeelUnit::LinuxSll(packet) => PlainHeader::LinuxSll {
            packet_type: u16::from(packet.packet_type()),
            hardware_type: packet.arp_hardware_type().0,
            address_len: packet.sender_address_valid_length(),
            address: u64::from_be_bytes(packet.sender_address_full()),
            protocol: protocol_number(packet),
        },
        PeelUnit::Vlan(tag) => PlainHeader::Vlan {
            pcp: u16::from(tag.priority_code_point().value()),
            dei: u16::from(tag.drop_eligible_indicator()),
            vid: tag.vlan_identifier().value(),
            ether_type: tag.ether_type().0,
        },
        PeelUnit::Macsec(packet) => {
            let tag = packet.header;
            PlainHeader::Macsec {
                end_station: u16::from(tag.endstation_id()),
                single_copy_broadcast: u16::from(tag.tci_scb()),
                encrypted: u16::from(tag.encrypted()),
                changed: u16::from(tag.userdata_changed()),
                association_number: u16::from(tag.an().value()),
                short_len: u16::from(tag.short_len().value()),
                packet_number: u64::from(tag.packet_nr()),
                sci: tag.sci(),
                ether_type: tag.next_ether_type().map(|ether_type| ether_type.0),
            }
        }
        PeelUnit::Arp(packet) => PlainHeader::Arp {
            hardware_type: packet.hw_addr_type().0,
            protocol_type: packet.proto_addr_type().0,
            operation: packet.operation().0,
            sender_hardware: packet.sender_hw_addr(),
            sender_protocol: packet.sender_protocol_addr(),
            target_hardware: packet.target_hw_addr(),
            target_protocol: packet.target_protocol_addr(),
        },
    }
}

/// The number of a protocol type. That of a nonstandard ether type is read from the header's bytes.
fn protocol_number(packet: &LinuxSllSlice<'_>) -> u16 {
    match packet.protocol_type() {
        LinuxSllProtocolType::Ignored(number)
        | LinuxSllProtocolType::NetlinkProtocolType(number)
        | LinuxSllProtocolType::GenericRoutingEncapsulationProtocolType(number)
        | LinuxSllProtocolType::EtherType(EtherType(number)) => number,
        LinuxSllProtocolType::LinuxNonstandardEtherType(_) => {
            let [.., high, low] = packet.to_header().to_bytes();
            u16::from_be_bytes([high, low])
        }
    }
}

/// An Ethernet address as a number.
fn address([a, b, c, d, e, f]: [u8; 6]) -> u64 {
    u64::from_be_bytes([0, 0, a, b, c, d, e, f])
}
