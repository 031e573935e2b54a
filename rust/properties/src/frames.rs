//! Draws frames: stacks of headers, stacks with wrong bytes, cuts and extensions of these, and bytes of any kind.

use crate::arp::Arp;
use crate::cooked::{self, Cooked};
use crate::walk::Start;
use crate::wire::{Ethernet, Tag, spelled};
use etherpeel::{LinuxNonstandardEtherType, LinuxSllProtocolType};
use proptest::collection::vec;
use proptest::prelude::{Just, Strategy, any, prop_oneof};

/// Bytes, and what they begin with.
#[derive(Clone, Debug)]
pub struct Frame {
    pub start: Start,
    pub bytes: Vec<u8>,
}

/// A header below the first one.
#[derive(Clone, Debug)]
enum Inner {
    /// The ether type that announces the tag, and the tag control information.
    Vlan(u16, u16),
    SecTag(DrawnSecTag),
    Arp(Arp),
}

/// A SecTag whose length fields are chosen by what follows it.
#[derive(Clone, Debug)]
struct DrawnSecTag {
    control: u8,
    reserved: u8,
    short: Short,
    packet_number: u32,
    sci: u64,
}

/// The short length of a drawn SecTag.
#[derive(Clone, Copy, Debug)]
enum Short {
    /// The number of bytes that follow minus this one, at most 63.
    Fits(usize),
    Any(u8),
}

/// What begins a drawn frame.
#[derive(Clone, Debug)]
enum First {
    Ethernet(Vec<u8>, bool),
    Cooked { packet_type: u16, hardware_type: u16, address_len: u16, address: Vec<u8> },
    Nothing,
}

/// How a stack of headers becomes a frame.
#[derive(Clone, Debug)]
enum Change {
    Nothing,
    /// A byte at a place is replaced.
    Byte(usize, u8),
    /// A part of the bytes is kept, in 256ths.
    Cut(usize),
    Append(Vec<u8>),
}

/// An address, of a group or a station.
pub fn address() -> impl Strategy<Value = Vec<u8>> {
    prop_oneof![4 => vec(any::<u8>(), 6), 1 => Just(vec![0xFF; 6]), 1 => Just(vec![2, 0, 0, 0, 0, 1])]
}

/// The number of an ether type, which often announces a header.
pub fn ether_type() -> impl Strategy<Value = u16> {
    let named = proptest::sample::select(vec![0x0800, 0x86DD, 0x0806, 0x8100, 0x88A8, 0x9100, 0x88E5, 0x0001, 0x8101]);
    prop_oneof![6 => named, 1 => any::<u16>()]
}

/// The number of an ether type that announces a VLAN tag.
pub fn tpid() -> impl Strategy<Value = u16> {
    proptest::sample::select(vec![0x8100, 0x88A8, 0x9100])
}

/// The two octets before the ether type of a tag; few identifiers, so that some are equal.
pub fn tag_control() -> impl Strategy<Value = u16> {
    prop_oneof![any::<u16>(), (0..8u16, 0..6u16).prop_map(|(pcp, vid)| pcp * 0x2000 + vid)]
}

/// An ARP packet; the sizes of its addresses are often those of Ethernet and IPv4.
pub fn arp() -> impl Strategy<Value = Arp> {
    let sizes = prop_oneof![4 => Just((6, 4)), 4 => (0..9usize, 0..9usize), 1 => (250..256usize, 0..3usize)];
    let types = prop_oneof![Just((1, 0x0800)), (any::<u16>(), ether_type())];
    (sizes, types, any::<u16>()).prop_flat_map(|((hardware, protocol), (hardware_type, protocol_type), operation)| {
        let addresses = (vec(any::<u8>(), 2 * hardware), vec(any::<u8>(), 2 * protocol));
        addresses.prop_map(move |(hardwares, protocols)| Arp {
            hardware_type,
            protocol_type,
            operation,
            sender_hardware: hardwares[..hardware].to_vec(),
            sender_protocol: protocols[..protocol].to_vec(),
            target_hardware: hardwares[hardware..].to_vec(),
            target_protocol: protocols[protocol..].to_vec(),
        })
    })
}

/// A hardware type of a cooked capture, mostly a supported one.
pub fn hardware_type() -> impl Strategy<Value = u16> {
    let others = vec![cooked::FRAME_RELAY, cooked::IP_GRE, cooked::RADIOTAP, cooked::NETLINK, 772, 0, 769, 825];
    prop_oneof![4 => Just(cooked::ETHER), 3 => proptest::sample::select(others), 1 => any::<u16>()]
}

/// The protocol number of a cooked capture.
pub fn protocol() -> impl Strategy<Value = u16> {
    prop_oneof![3 => ether_type(), 1 => proptest::sample::select(cooked::NONSTANDARD.to_vec()), 1 => 0..0x100u16]
}

/// A protocol type of a cooked capture, of any kind with a number that it may have.
pub fn protocol_type() -> impl Strategy<Value = LinuxSllProtocolType> {
    let nonstandard = proptest::sample::select(cooked::NONSTANDARD.to_vec()).prop_map(|number| {
        let number = LinuxNonstandardEtherType::try_from(number).expect("it is in the list");
        LinuxSllProtocolType::LinuxNonstandardEtherType(number)
    });
    prop_oneof![
        protocol().prop_map(LinuxSllProtocolType::Ignored),
        protocol().prop_map(LinuxSllProtocolType::NetlinkProtocolType),
        protocol().prop_map(LinuxSllProtocolType::GenericRoutingEncapsulationProtocolType),
        protocol().prop_map(|number| LinuxSllProtocolType::EtherType(number.into())),
        nonstandard,
    ]
}

/// A header of a cooked capture, which may be refused.
pub fn cooked() -> impl Strategy<Value = Cooked> {
    let packet_type = prop_oneof![8 => 0..9u16, 1 => any::<u16>()];
    let address_len = prop_oneof![0..10u16, any::<u16>()];
    let parts = (packet_type, hardware_type(), address_len, vec(any::<u8>(), 8), protocol());
    parts.prop_map(|(packet_type, hardware_type, address_len, address, protocol)| Cooked {
        packet_type,
        hardware_type,
        address_len,
        address,
        protocol,
    })
}

fn drawn_sec_tag() -> impl Strategy<Value = DrawnSecTag> {
    // a version of 1 is rare, and so are encrypted or changed user data, which end a walk
    let control = prop_oneof![6 => any::<u8>().prop_map(|octet| octet & 0x73), 2 => any::<u8>()];
    let short = prop_oneof![
        3 => (0..4usize).prop_map(Short::Fits),
        2 => Just(Short::Any(0)),
        2 => (0..64u8).prop_map(Short::Any),
    ];
    (control, 0..4u8, short, any::<u32>(), any::<u64>()).prop_map(|(control, reserved, short, packet_number, sci)| {
        DrawnSecTag { control, reserved, short, packet_number, sci }
    })
}

/// The octets of a SecTag, which may be refused, with the bytes of a payload that follow it.
pub fn sec_tagged() -> impl Strategy<Value = Vec<u8>> {
    (drawn_sec_tag(), ether_type(), vec(any::<u8>(), 0..40))
        .prop_map(|(tag, ether_type, rest)| tag.bytes(ether_type, &rest))
}

impl DrawnSecTag {
    /// The tag, and the ether type if its control octet has one, before these bytes.
    fn bytes(&self, ether_type: u16, rest: &[u8]) -> Vec<u8> {
        let ether_type = if self.control & 0x0C == 0 { spelled(ether_type.into(), 2) } else { Vec::new() };
        let short = match self.short {
            Short::Fits(less) => (ether_type.len() + rest.len()).saturating_sub(less).min(63) as u8,
            Short::Any(short) => short,
        };
        let sci = if self.control & 0x20 == 0 { Vec::new() } else { spelled(self.sci, 8) };
        let front = vec![self.control, self.reserved * 64 + short];
        [front, spelled(self.packet_number.into(), 4), sci, ether_type, rest.to_vec()].concat()
    }
}

fn inner() -> impl Strategy<Value = Inner> {
    prop_oneof![
        5 => (tpid(), tag_control()).prop_map(|(tpid, control)| Inner::Vlan(tpid, control)),
        3 => drawn_sec_tag().prop_map(Inner::SecTag),
        1 => arp().prop_map(Inner::Arp),
    ]
}

/// The ether type that announces these headers, and their bytes, before a payload that an ether type announces.
fn stacked(inners: &[Inner], ether_type: u16, payload: &[u8]) -> (u16, Vec<u8>) {
    inners.iter().rfold((ether_type, payload.to_vec()), |(next, bytes), inner| match inner {
        Inner::Vlan(tpid, control) => (*tpid, [spelled((*control).into(), 2), spelled(next.into(), 2), bytes].concat()),
        Inner::SecTag(tag) => (0x88E5, tag.bytes(next, &bytes)),
        Inner::Arp(packet) => (0x0806, [packet.bytes(), bytes].concat()),
    })
}

fn first() -> impl Strategy<Value = First> {
    let ethernet = (address(), address(), any::<bool>());
    let cooked = (0..8u16, hardware_type(), 0..10u16, vec(any::<u8>(), 8));
    prop_oneof![
        4 => ethernet.prop_map(|(to, from, with_fcs)| First::Ethernet([to, from].concat(), with_fcs)),
        2 => cooked.prop_map(|(packet_type, hardware_type, address_len, address)| First::Cooked {
            packet_type,
            hardware_type,
            address_len,
            address,
        }),
        1 => Just(First::Nothing),
    ]
}

/// The frame with this first header.
fn framed(first: First, protocol: u16, rest: Vec<u8>) -> Frame {
    match first {
        First::Ethernet(addresses, with_fcs) => {
            let start = if with_fcs { Start::EthernetFcs } else { Start::Ethernet };
            Frame { start, bytes: [addresses, spelled(protocol.into(), 2), rest].concat() }
        }
        First::Cooked { packet_type, hardware_type, address_len, address } => {
            let header = Cooked { packet_type, hardware_type, address_len, address, protocol };
            Frame { start: Start::Cooked, bytes: [header.bytes(), rest].concat() }
        }
        First::Nothing => Frame { start: Start::EtherType(protocol), bytes: rest },
    }
}

fn change() -> impl Strategy<Value = Change> {
    prop_oneof![
        4 => Just(Change::Nothing),
        2 => (any::<usize>(), any::<u8>()).prop_map(|(place, byte)| Change::Byte(place, byte)),
        3 => (0..256usize).prop_map(Change::Cut),
        1 => vec(any::<u8>(), 0..12).prop_map(Change::Append),
    ]
}

fn changed(mut frame: Frame, change: Change) -> Frame {
    let len = frame.bytes.len();
    match change {
        Change::Nothing => {}
        Change::Byte(place, byte) if len > 0 => frame.bytes[place % len] = byte,
        Change::Byte(..) => {}
        Change::Cut(part) => frame.bytes.truncate(len * part / 256),
        Change::Append(more) => frame.bytes.extend(more),
    }
    frame
}

/// Starts of every kind.
pub fn start() -> impl Strategy<Value = Start> {
    prop_oneof![
        Just(Start::Ethernet),
        Just(Start::EthernetFcs),
        Just(Start::Cooked),
        ether_type().prop_map(Start::EtherType)
    ]
}

/// Frames of every kind.
pub fn frame() -> impl Strategy<Value = Frame> {
    let payload = vec(any::<u8>(), 0..24);
    let stack = (first(), vec(inner(), 0..6), ether_type(), payload, change());
    let stack = stack.prop_map(|(first, inners, ether_type, payload, change)| {
        let (protocol, rest) = stacked(&inners, ether_type, &payload);
        changed(framed(first, protocol, rest), change)
    });
    let any_bytes = (start(), vec(any::<u8>(), 0..60)).prop_map(|(start, bytes)| Frame { start, bytes });
    prop_oneof![9 => stack, 1 => any_bytes]
}

/// Frames without a frame check sequence.
pub fn frame_without_fcs() -> impl Strategy<Value = Frame> {
    frame().prop_map(|frame| match frame.start {
        Start::EthernetFcs => Frame { start: Start::Ethernet, ..frame },
        _ => frame,
    })
}

/// No limit, or one on VLAN tags and SecTags.
pub fn limit() -> impl Strategy<Value = Option<usize>> {
    prop_oneof![2 => Just(None), 2 => (0..6usize).prop_map(Some), 1 => (0..60usize).prop_map(Some)]
}

/// The bytes of an Ethernet header with these fields, a VLAN tag if there is one, and more.
pub fn ethernet_bytes(destination: &[u8], source: &[u8], tag: Option<(u16, Tag)>, ether_type: u16) -> Vec<u8> {
    let header = Ethernet { destination: destination.to_vec(), source: source.to_vec(), ether_type };
    match tag {
        None => header.bytes(),
        Some((tpid, tag)) => [Ethernet { ether_type: tpid, ..header }.bytes(), tag.bytes()].concat(),
    }
}

/// Bytes that may be cut short.
pub fn cut(bytes: impl Strategy<Value = Vec<u8>>) -> impl Strategy<Value = Vec<u8>> {
    (bytes, prop_oneof![Just(256), 0..256usize]).prop_map(|(mut bytes, part)| {
        bytes.truncate(bytes.len() * part / 256);
        bytes
    })
}

/// The bytes of a header of a cooked capture with a payload, perhaps cut.
pub fn cooked_bytes() -> impl Strategy<Value = Vec<u8>> {
    cut((cooked(), vec(any::<u8>(), 0..12)).prop_map(|(header, rest)| [header.bytes(), rest].concat()))
}

/// The bytes of an ARP packet with what follows it, perhaps cut.
pub fn arp_bytes() -> impl Strategy<Value = Vec<u8>> {
    cut((arp(), vec(any::<u8>(), 0..12)).prop_map(|(packet, rest)| [packet.bytes(), rest].concat()))
}

/// The bytes of a SecTag with a payload, perhaps cut.
pub fn sec_tag_bytes() -> impl Strategy<Value = Vec<u8>> {
    cut(sec_tagged())
}

/// Bytes, and the same with one byte replaced, or added at the end, or none.
pub fn twins(bytes: impl Strategy<Value = Vec<u8>>) -> impl Strategy<Value = (Vec<u8>, Vec<u8>)> {
    (bytes, any::<usize>(), prop_oneof![1 => Just(0), 4 => any::<u8>()]).prop_map(|(bytes, place, change)| {
        let mut twin = bytes.clone();
        match twin.get_mut(place % (bytes.len() + 1)) {
            Some(byte) => *byte ^= change,
            None => twin.push(change),
        }
        (bytes, twin)
    })
}
