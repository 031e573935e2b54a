//! The texts of errors, letter by letter, and of numbers.
use super::equal;
use etherpeel::err::arp::{ArpEthIpv4FromError, ArpHwAddrError, ArpNewError, ArpProtoAddrError};
use etherpeel::err::{
    Layer, LenError, SliceWriteSpaceError, ValueTooBigError, ValueType, linux_sll, macsec,
};
use etherpeel::{
    ArpHardwareId, ArpOperation, EtherType, LenSource, MacsecAn, MacsecShortLen, VlanId, VlanPcp,
};
use crate::kit::{AllocError, AllocGlobal};
use std::error::Error;
use std::fmt;
use std::hash::Hash;
use crate::kit::Abort;
use crate::kit::Fail;

const SHORT: LenError = LenError {
    required_len: 4,
    len: 2,
    len_source: LenSource::Slice,
    layer: Layer::VlanHeader,
    layer_start_offset: 18,
};

/// The text of an error, by `Display`.
fn reads(
    rt: &(impl Abort + AllocGlobal),
    error: &impl fmt::Display,
    text: &str,
) -> Result<(), AllocError> {
    let shown = format!("{error}");
    equal!(rt, text; shown.as_str() => text);
    Ok(())
}

static LENGTHS: [(LenError, &str); 2] = [
    (
        SHORT,
        "VLAN Header Error: Not enough data to decode 'VLAN header'. 4 byte(s) would be required, but only 2 byte(s) are available based on the slice length ('VLAN header' starts at overall parsed byte 18).",
    ),
    (
        LenError {
            required_len: 5,
            len: 5,
            len_source: LenSource::ArpAddrLengths,
            layer: Layer::Arp,
            layer_start_offset: 0,
        },
        "Address Resolution Protocol Packet Error: Length of 5 byte(s) is too big for an 'Address Resolution Protocol packet' (maximum is 5 bytes). The length calculated from the ARP 'hw_addr_size' & 'proto_addr_size' fields was used to determine the length.",
    ),
];

#[test]
fn a_length_error_names_the_layer_and_both_lengths() -> Result<(), Fail> {
    let rt = crate::kit::HostRuntime;
    for (error, text) in &LENGTHS {
        reads(&rt, error, text)?;
    }
    let early = LenError {
        layer_start_offset: 4,
        ..SHORT
    };
    let moved = early.add_offset(14);
    let shown = format!("{moved:?}");
    equal!(rt, "an offset moves the start alone";
        moved => SHORT,
        shown.as_str()
            => "LenError { required_len: 4, len: 2, len_source: Slice, layer: VlanHeader, layer_start_offset: 18 }",
    );
    Ok(())
}

const TARGET: SliceWriteSpaceError = SliceWriteSpaceError {
    required_len: 14,
    len: 13,
    layer: Layer::Ethernet2Header,
    layer_start_offset: 0,
};

static TARGETS: [(SliceWriteSpaceError, &str); 2] = [
    (
        TARGET,
        "Not enough space to write Ethernet 2 header to slice. Needed 14 byte(s), but only 13 byte(s) were available.",
    ),
    (
        SliceWriteSpaceError {
            layer_start_offset: 5,
            ..TARGET
        },
        "Not enough space to write Ethernet 2 header to slice. Needed 14 byte(s), but only 13 byte(s) were available (start offset of Ethernet 2 header write was 5 byte(s)).",
    ),
];

#[test]
fn a_write_error_names_the_room_that_is_needed() -> Result<(), Fail> {
    let rt = crate::kit::HostRuntime;
    for (error, text) in &TARGETS {
        reads(&rt, error, text)?;
    }
    Ok(())
}

/// A header that begins at offset 6 and is cut short.
const EARLY: LenError = LenError {
    required_len: 6,
    len: 3,
    len_source: LenSource::Slice,
    layer: Layer::MacsecHeader,
    layer_start_offset: 6,
};

const PACKET_TYPE: linux_sll::HeaderSliceError = linux_sll::HeaderSliceError::Content(
    linux_sll::HeaderError::UnsupportedPacketTypeField { packet_type: 8 },
);

const VERSION: macsec::HeaderSliceError = macsec::HeaderSliceError::Content(
    macsec::HeaderError::UnexpectedVersion,
);

/// An error, the number of bytes that precede the header, and the text after the move: length errors move, content
/// errors are unchanged.
static CAPTURES: [(linux_sll::HeaderSliceError, usize, &str); 3] = [
    (
        linux_sll::HeaderSliceError::Len(LenError {
            required_len: 16,
            layer: Layer::LinuxSllHeader,
            ..EARLY
        }),
        14,
        "Linux Cooked Capture v1 Error: Not enough data to decode 'Linux Cooked Capture v1 header'. 16 byte(s) would be required, but only 3 byte(s) are available based on the slice length ('Linux Cooked Capture v1 header' starts at overall parsed byte 20).",
    ),
    (
        PACKET_TYPE,
        14,
        "Linux cooked capture v1 (SLL) Header Error: Encountered '8' as the packet type, but its not supported.",
    ),
    (
        linux_sll::HeaderSliceError::Content(linux_sll::HeaderError::UnsupportedArpHardwareId {
            arp_hardware_type: ArpHardwareId::CSLIP,
        }),
        0,
        "Linux cooked capture v1 (SLL)  Header Error:  Encountered '257 (CSLIP)' as the ARP harware type, but its not supported.",
    ),
];

#[test]
fn a_cooked_capture_error_names_the_cause() -> Result<(), Fail> {
    let rt = crate::kit::HostRuntime;
    for (error, offset, text) in &CAPTURES {
        reads(&rt, &error.clone().add_slice_offset(*offset), text)?;
    }
    Ok(())
}

static SEC_TAGS: [(macsec::HeaderSliceError, usize, &str); 3] = [
    (
        macsec::HeaderSliceError::Len(EARLY),
        14,
        "MACsec Header Error: Not enough data to decode 'MACsec header'. 6 byte(s) would be required, but only 3 byte(s) are available based on the slice length ('MACsec header' starts at overall parsed byte 20).",
    ),
    (
        VERSION,
        14,
        "MACsec Header Error: \
            Encountered '1' as MACsec version in the MACsec SecTag header (must be '0').",
    ),
    (
        macsec::HeaderSliceError::Content(macsec::HeaderError::InvalidUnmodifiedShortLen),
        0,
        "MACsec Header Error: \
            Encountered '1' as MACsec short len in an unmodified packet (must be '0' or '2' or greater).",
    ),
];

#[test]
fn a_sec_tag_error_names_the_cause() -> Result<(), Fail> {
    let rt = crate::kit::HostRuntime;
    for (error, offset, text) in &SEC_TAGS {
        reads(&rt, &error.clone().add_slice_offset(*offset), text)?;
    }
    Ok(())
}

static NEW_PACKETS: [(ArpNewError, &str); 4] = [
    (
        ArpNewError::HwAddr(ArpHwAddrError::LenTooBig(256)),
        "ARP Hardware Address Error: Given hardware address has a length of 256 which is greater then the maximum of 255.",
    ),
    (
        ArpNewError::HwAddr(ArpHwAddrError::LenNonMatching(5, 6)),
        "ARP Hardware Address Error: Given sender & target hardware addresses have differing lengths of 5 & 6 (must be matching).",
    ),
    (
        ArpNewError::ProtoAddr(ArpProtoAddrError::LenTooBig(256)),
        "ARP Protocol Address Error: Given protocol address has a length of 256 which is greater then the maximum of 255.",
    ),
    (
        ArpNewError::ProtoAddr(ArpProtoAddrError::LenNonMatching(5, 6)),
        "ARP Protocol Address Error: Given sender & target protocol addresses have differing lengths of 5 & 6 (must be matching).",
    ),
];

/// An error of an address has the same text as the error of the packet that has it.
#[test]
fn an_address_error_reads_as_that_of_its_packet() -> Result<(), Fail> {
    let rt = crate::kit::HostRuntime;
    for (error, text) in &NEW_PACKETS {
        reads(&rt, error, text)?;
        match error {
            ArpNewError::HwAddr(error) => reads(&rt, error, text)?,
            ArpNewError::ProtoAddr(error) => reads(&rt, error, text)?,
        }
    }
    Ok(())
}

static OTHER_PACKETS: [(ArpEthIpv4FromError, &str); 4] = [
    (
        ArpEthIpv4FromError::NonMatchingHwType(ArpHardwareId::IEEE802),
        "Hardware address type is expected to have the type '1 (Ethernet)' but is '6 (IEEE 802.2 Ethernet/TR/TB)'",
    ),
    (
        ArpEthIpv4FromError::NonMatchingProtocolType(EtherType::WAKE_ON_LAN),
        "Protocol address type is expected to have the type '0x0800 (Internet Protocol version 4 (IPv4))' but is '0x0842 (Wake on LAN)'",
    ),
    (
        ArpEthIpv4FromError::NonMatchingHwAddrSize(8),
        "Hardware address size is expected to be 6 but is 8",
    ),
    (
        ArpEthIpv4FromError::NonMatchingProtoAddrSize(16),
        "Protocol address size is expected to be 4 but is 16",
    ),
];

#[test]
fn a_conversion_error_names_what_does_not_match() -> Result<(), Fail> {
    let rt = crate::kit::HostRuntime;
    for (error, text) in &OTHER_PACKETS {
        reads(&rt, error, text)?;
    }
    Ok(())
}

#[test]
fn display_and_debug_show_numbers() -> Result<(), Fail> {
    let rt = crate::kit::HostRuntime;
    let (id, pcp) = (VlanId::try_new(2)?, VlanPcp::try_new(2)?);
    let (an, len) = (MacsecAn::try_new(2)?, MacsecShortLen::try_from_u8(2)?);
    let refused: ValueTooBigError<u16> = ValueTooBigError {
        actual: 4096,
        max_allowed: 4095,
        value_type: ValueType::VlanId,
    };
    let shown = format!("{id} {refused}");
    let numbers = (id, pcp, an, len, ArpOperation::REPLY, VERSION, PACKET_TYPE);
    let debug = format!("{numbers:?}");
    equal!(rt, "by Display and by Debug";
        shown.as_str()
            => "2 Error '4096' is too big to be a 'VLAN ID' (maximum allowed value is '4095')",
        debug.as_str()
            => "(VlanId(2), VlanPcp(2), MacsecAn(2), MacsecShortLen(2), ArpOperation(2), Content(UnexpectedVersion), Content(UnsupportedPacketTypeField { packet_type: 8 }))",
        refused.clone() => refused,
    );
    Ok(())
}

/// Clones, compares, hashes and shows an error of any kind. True if the clone is equal.
fn same<E: Error + Clone + Eq + Hash>(error: E) -> Result<bool, AllocError> {
    Ok(error.clone() == error)
}

#[test]
fn errors_equal_their_clones() {
    let rt = crate::kit::HostRuntime;
    let too_big = ValueTooBigError {
        actual: 8,
        max_allowed: 7,
        value_type: ValueType::VlanPcp,
    };
    let version = macsec::HeaderError::UnexpectedVersion;
    let packet_type = linux_sll::HeaderError::UnsupportedPacketTypeField { packet_type: 8 };
    let same = [
        same::<ValueTooBigError<u8>>(too_big),
        same(SHORT),
        same(TARGET),
        same(version),
        same(VERSION),
        same(packet_type),
        same(PACKET_TYPE),
        same(ArpHwAddrError::LenTooBig(256)),
        same(ArpProtoAddrError::LenTooBig(256)),
        same(ArpNewError::HwAddr(ArpHwAddrError::LenTooBig(256))),
        same(ArpEthIpv4FromError::NonMatchingHwAddrSize(8)),
    ];
    equal!(rt, "clones"; same => [Ok(true); 11]);
}
