//! Which traits each public type implements, and which not. All implement `Debug`, `Send`, `Sync` and `Unpin`; of the
//! traits in `implements::NAMES` those that stand before it. `rust/test.py` checks that no public type is missing.
#![allow(dead_code)]

#[cfg(feature = "pcap")]
use arrayvec::ArrayVec;
use etherpeel::*;

/// The traits that a type may have, one bit for each.
#[allow(non_upper_case_globals)]
mod implements {
    pub const Clone: u8 = 1;
    pub const Copy: u8 = 2;
    pub const PartialEq: u8 = 4;
    pub const Eq: u8 = 8;
    pub const Hash: u8 = 16;
    pub const Error: u8 = 32;
    pub const Iterator: u8 = 64;
    pub const FusedIterator: u8 = 128;
}

/// The bit of a trait if a type implements it: the constant of `Of` hides that of `Not` only then.
macro_rules! bit {
    ($type:ty, $($path:ident)::+, $name:ident) => {{
        trait Not {
            const BIT: u8 = 0;
        }
        impl<T> Not for T {}
        struct Of<T>(T);
        impl<T: $($path)::+> Of<T> {
            const BIT: u8 = implements::$name;
        }
        <Of<$type>>::BIT
    }};
}

const fn in_all<T: core::fmt::Debug + Send + Sync + Unpin>() {}

macro_rules! table {
    ($([$($name:ident)*] $($type:ty),+;)+) => {
        $(table!(@row ($($name)*) $($type),+);)+
    };
    (@row $names:tt $($type:ty),+) => {
        $(
            const _: () = in_all::<$type>();
            const _: () = assert!(
                table!(@said $names)
                    == bit!($type, Clone, Clone) | bit!($type, Copy, Copy)
                        | bit!($type, PartialEq, PartialEq) | bit!($type, Eq, Eq)
                        | bit!($type, core::hash::Hash, Hash) | bit!($type, core::error::Error, Error)
                        | bit!($type, Iterator, Iterator) | bit!($type, core::iter::FusedIterator, FusedIterator),
                concat!(stringify!($type), " implements other traits than ", stringify!($names)),
            );
        )+
    };
    (@said ($($name:ident)*)) => { 0 $(| implements::$name)* };
}

table! {
    [Clone Copy PartialEq Eq Hash]
        ArpEthIpv4Packet, ArpHardwareId, ArpOperation, DoubleVlanHeader, EtherPayloadSlice<'static>, EtherType,
        Ethernet2Header,
        LenSource, LinkExtHeader, LinkHeader, LinuxNonstandardEtherType, LinuxSllHeader, LinuxSllPacketType,
        LinuxSllPayloadSlice<'static>, LinuxSllProtocolType, MacsecAn, MacsecHeader, MacsecPType, MacsecShortLen,
        SingleVlanHeader, VlanHeader, VlanId, VlanPcp, err::Layer, err::ValueType, ether_type::EtherType;
    [Clone Copy PartialEq Eq] MacsecHeaderSlice<'static>, MacsecPayloadSlice<'static>;
    [Clone PartialEq Eq Hash] ArpPacket;
    [Clone PartialEq Eq]
        ArpPacketSlice<'static>, DoubleVlanSlice<'static>, Ethernet2HeaderSlice<'static>, Ethernet2Slice<'static>,
        LinkExtSlice<'static>, LinkSlice<'static>, LinuxSllHeaderSlice<'static>, LinuxSllSlice<'static>,
        MacsecSlice<'static>,
        SingleVlanHeaderSlice<'static>, SingleVlanSlice<'static>, VlanSlice<'static>;
    [Clone Copy PartialEq Eq Hash Error]
        err::LenError, err::SliceWriteSpaceError, err::arp::ArpEthIpv4FromError, err::arp::ArpHwAddrError,
        err::arp::ArpNewError, err::arp::ArpProtoAddrError, err::linux_sll::HeaderError,
        err::linux_sll::HeaderSliceError,
        err::macsec::HeaderError, err::macsec::HeaderSliceError, err::ValueTooBigError<u8>;
}

table! {
    [Clone Copy PartialEq Eq Hash] ether_peel::RestKind, ether_peel::Start, ether_peel::Feed, ether_peel::Summary;
    [Clone Copy PartialEq Eq Hash Error] ether_peel::PeelError, ether_peel::PeelFault;
    [Clone PartialEq Eq] ether_peel::PeelUnit<'static>;
    [Clone Iterator FusedIterator] ether_peel::Peel<'static>;
}

table! {
    [Clone Copy PartialEq Eq Hash] ether_sll2::LinuxSll2Header;
    [Clone Copy PartialEq Eq Hash Error] ether_sll2::LinuxSll2Error;
    [Clone PartialEq Eq] ether_sll2::LinuxSll2HeaderSlice<'static>, ether_sll2::LinuxSll2Slice<'static>;
}

table! {
    [Clone Copy PartialEq Eq Hash] ether_packet::Difference, ether_packet::EthernetFront;
    [Clone Copy PartialEq Eq Hash Error] ether_packet::BuildError, ether_packet::ReplaceError,
    ether_packet::TagError;
    [Clone PartialEq Eq]
        ether_packet::PacketBuilder<'static, 'static>, ether_packet::PacketContent<'static>,
        ether_packet::PacketExt<'static>,
        ether_packet::PacketParts<'static>, ether_packet::PacketSlice<'static>;
}

#[cfg(feature = "filter")]
table! {
    [Clone Copy PartialEq Eq Hash]
        ether_filter::Decision, ether_filter::FilterErrorKind, ether_filter::Instruction, ether_filter::Node,
        ether_filter::FieldTest, ether_filter::Operator, ether_filter::PacketTime, ether_filter::Primitive,
        ether_filter::Relation;
    [Clone Copy PartialEq Eq Hash Error] ether_filter::FilterError;
    [Clone Copy PartialEq Eq] ether_filter::Packet<'static>;
    [Clone PartialEq Eq Hash] ether_filter::Filter;
}

#[cfg(feature = "pcap")]
table! {
    [Clone Copy PartialEq Eq Hash]
        ether_pcap::ByteOrder, ether_pcap::LinkType, ether_pcap::capture::CaptureInterface,
        ether_pcap::capture::CopyMode, ether_pcap::capture::Direction, ether_pcap::capture::ReaderState,
        ether_pcap::capture::Timestamp,
        ether_pcap::classic::FileHeader, ether_pcap::classic::TimestampResolution;
    [Clone Copy PartialEq Eq Hash Error]
        ether_pcap::capture::CaptureError, ether_pcap::capture::CaptureFault, ether_pcap::classic::FileHeaderError,
        ether_pcap::classic::RecordError, ether_pcap::classic::RecordFault, ether_pcap::pcapng::BlockError,
        ether_pcap::pcapng::BodyError, ether_pcap::pcapng::SectionError;
    [Clone Copy PartialEq Eq]
        ether_pcap::capture::CaptureUnit<'static>, ether_pcap::capture::CapturedPacket<'static>,
        ether_pcap::capture::CopiedUnit<'static>, ether_pcap::capture::EditedUnit<'static>,
        ether_pcap::capture::ReadUnit<'static>, ether_pcap::capture::UnitContent<'static>,
        ether_pcap::classic::PcapRecord<'static>, ether_pcap::pcapng::EnhancedPacket<'static>,
        ether_pcap::pcapng::InterfaceDescription<'static>, ether_pcap::pcapng::PcapngBlock<'static>,
        ether_pcap::pcapng::PcapngOption<'static>, ether_pcap::pcapng::SectionHeader<'static>,
        ether_pcap::pcapng::SimplePacket<'static>;
    [Clone Copy] ether_pcap::capture::InterfaceSlice<'static>;
    [Clone] ether_pcap::capture::CaptureReader<ArrayVec<ether_pcap::capture::CaptureInterface, 16>>;
    [Clone Iterator FusedIterator]
        ether_pcap::capture::CapturePackets<'static>, ether_pcap::classic::PcapRecords<'static>,
        ether_pcap::pcapng::PcapngOptions<'static>;
}

#[cfg(feature = "content")]
table! {
    [Clone Copy PartialEq Eq Hash]
        ether_content::CookedHeader, ether_content::EditedPacket, ether_content::PacketEdit;
    [Clone Copy PartialEq Eq Hash Error] ether_content::NoRoom;
    [Clone Copy PartialEq Eq] ether_content::Content<'static>;
}

#[cfg(feature = "format")]
table! {
    [Clone Copy PartialEq Eq Hash]
        ether_fields::Extent, ether_fields::Field, ether_fields::FieldPlace, ether_fields::Kind, ether_fields::Part,
        ether_fields::Section, ether_fields::Sizes, ether_format::Columns, ether_format::Format,
        ether_format::Moment;
    [Clone Copy PartialEq Eq] ether_format::Origin<'static>;
    [Clone Copy PartialEq Eq Hash Error] ether_output::OutputFault;
    [] ether_output::OutputBuffer<'static, u8>;
}

#[cfg(feature = "switch")]
table! {
    [Clone Copy PartialEq Eq Hash]
        ether_switch::AcceptableFrames, ether_switch::BridgeKind, ether_switch::Forgotten, ether_switch::PortConfig,
        ether_switch::PortSet, ether_switch::PortStates, ether_switch::Received, ether_switch::Sighting,
        ether_switch::StaticEntry, ether_switch::StationBucket, ether_switch::Vlan, ether_switch::VlanConfig;
    [Clone Copy PartialEq Eq Hash Error] ether_switch::Discarded, ether_switch::VlanError;
    [Clone Copy PartialEq Eq] ether_switch::Bridge<'static>;
}

#[cfg(feature = "compat")]
table! {
    [Clone Copy PartialEq Eq] compat::PacketBuilder;
    [Clone] compat::PacketBuilderStep<compat::PacketBuilder>;
    [Clone PartialEq Eq Hash] compat::NetHeaders, compat::TransportHeader;
    [Clone PartialEq Eq Hash Error] compat::err::FromSliceError, compat::err::packet::SliceError;
    [Clone PartialEq Eq]
        compat::LaxEtherPayloadSlice<'static>, compat::LaxLinkExtSlice<'static>,
        compat::LaxMacsecPayloadSlice<'static>,
        compat::LaxMacsecSlice<'static>, compat::LaxNetSlice<'static>, compat::LaxPacketHeaders<'static>,
        compat::LaxPayloadSlice<'static>, compat::LaxSlicedPacket<'static>, compat::NetSlice<'static>,
        compat::PacketHeaders<'static>, compat::PayloadSlice<'static>, compat::SlicedPacket<'static>,
        compat::TransportSlice<'static>;
    [Error] compat::err::ReadError, compat::err::macsec::HeaderReadError, compat::err::packet::BuildWriteError;
}

/// Asserts that an iterator returns this many items and a fault, and then `None` for ever.
fn assert_fused<T, E>(mut items: impl Iterator<Item = Result<T, E>>, wanted: (usize, usize)) {
    let (mut read, mut faults) = (0, 0);
    for item in items.by_ref() {
        (read, faults) = (read + usize::from(item.is_ok()), faults + usize::from(item.is_err()));
    }
    assert_eq!((read, faults), wanted);
    assert!((0..9).all(|_| items.next().is_none()));
}

#[test]
fn iterators_end_for_ever() {
    let mut frame = [0xFF; 20];
    (frame[12], frame[13], frame[16], frame[17]) = (0x81, 0x00, 0x81, 0x00);
    assert_fused(ether_peel::Peel::new(ether_peel::Start::Ethernet2, &frame), (2, 1));
    (frame[16], frame[17]) = (0x08, 0x00);
    assert_fused(ether_peel::Peel::new(ether_peel::Start::Ethernet2, &frame), (2, 0));
}

#[cfg(feature = "pcap")]
#[test]
fn iterators_over_captures_end_for_ever() {
    let mut file = [0; 41];
    (file[0], file[1], file[2], file[3], file[5], file[7]) = (0xA1, 0xB2, 0xC3, 0xD4, 2, 4);
    (file[18], file[19], file[23], file[35], file[39]) = (0xFF, 0xFF, 1, 1, 1);
    for (len, wanted) in [(24, (0, 0)), (40, (0, 1)), (41, (1, 0))] {
        assert_fused(ether_pcap::PcapRecords::from_slice(&file[..len]).unwrap(), wanted);
        assert_fused(ether_pcap::CapturePackets::from_slice(&file[..len]), wanted);
    }
    assert_fused(ether_pcap::CapturePackets::from_slice(&[]), (0, 1));
}

/// A walk has at most one unit for each four bytes, and a fault; nothing follows the fault.
#[test]
fn a_walk_bounds_its_items() {
    let mut walk = ether_peel::Peel::new(ether_peel::Start::Ethernet2, &[0; 13]);
    assert_eq!(walk.size_hint(), (0, Some(4)));
    assert!(walk.next().is_some_and(|it| it.is_err()));
    assert_eq!(walk.size_hint(), (0, Some(0)));
}

/// A capture has at most one packet for each byte, a classic one a record for each 16 bytes, and a fault.
#[cfg(feature = "pcap")]
#[test]
fn captures_bound_their_items() {
    let mut packets = ether_pcap::CapturePackets::from_slice(&[0; 4]);
    assert_eq!(packets.size_hint(), (0, Some(5)));
    assert!(packets.next().is_some_and(|it| it.is_err()));
    assert_eq!(packets.size_hint(), (0, Some(0)));
    let mut file = [0; 41];
    file[..8].copy_from_slice(&[0xA1, 0xB2, 0xC3, 0xD4, 0, 2, 0, 4]);
    file[23] = 1;
    let records = ether_pcap::PcapRecords::from_slice(&file).unwrap();
    assert_eq!(records.size_hint(), (0, Some(2)));
}

/// A block has at most one option for each four bytes; none follows one that is cut.
#[cfg(feature = "pcap")]
#[test]
fn options_bound_their_items_and_end_for_ever() {
    let bytes = [0, 1, 0, 1, 0x41, 0, 0, 0, 0, 2, 0, 9];
    let mut options = ether_pcap::PcapngOptions::from_slice(ether_pcap::ByteOrder::BigEndian, &bytes);
    assert_eq!(options.size_hint(), (0, Some(3)));
    assert_eq!(options.next().map(|it| (it.code, it.value)), Some((1, &b"A"[..])));
    assert_eq!(options.size_hint(), (0, Some(1)));
    assert!((0..9).all(|_| options.next().is_none()));
}
