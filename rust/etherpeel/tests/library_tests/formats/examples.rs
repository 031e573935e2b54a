//! The examples of the documentation that are in no other table.
use super::{equal, ipv4};
use crate::test_frames::TAG;
use etherpeel::ether_base::number_text::HexNumber;
use etherpeel::err::{Layer, LenError, linux_sll, macsec};
use etherpeel::{
    DoubleVlanHeader, DoubleVlanSlice, EtherPayloadSlice, EtherType, Ethernet2HeaderSlice,
    Ethernet2Slice, LenSource, MacsecHeader, MacsecPType, MacsecSlice, SingleVlanHeader,
    SingleVlanSlice, VlanHeader, VlanSlice,
};
use crate::kit::Fail;

#[test]
fn an_offset_moves_length_errors_alone() -> Result<(), Fail> {
    let rt = crate::kit::HostRuntime;
    let short = LenError {
        required_len: 4,
        len: 2,
        len_source: LenSource::Slice,
        layer: Layer::VlanHeader,
        layer_start_offset: 0,
    };
    let version = macsec::HeaderError::UnexpectedVersion;
    let packet_type = linux_sll::HeaderError::UnsupportedPacketTypeField { packet_type: 8 };
    let shown = format!("{version}\n{}", HexNumber(0x01AB));
    let sec_tag = macsec::HeaderSliceError::Content(version);
    let capture = linux_sll::HeaderSliceError::Content(packet_type);
    equal!(rt, "a length moves, contents stay";
        short.add_offset(14).layer_start_offset => 14,
        sec_tag.clone().add_slice_offset(14) == sec_tag => true,
        capture.clone().add_slice_offset(14) == capture => true,
        shown.as_str()
            => "MACsec Header Error: Encountered '1' as MACsec version in the MACsec SecTag header (must be '0').\n\
0x01AB",
    );
    Ok(())
}

#[test]
fn an_untagged_frame_shows_its_fields() -> Result<(), Fail> {
    let rt = crate::kit::HostRuntime;
    let bytes = [
        255, 255, 255, 255, 255, 255, 2, 0, 0, 0, 0, 1, 0x08, 0x00, 0x45,
    ];
    let header = Ethernet2HeaderSlice::from_slice(&bytes)?;
    let frame = Ethernet2Slice::from_slice_without_fcs(&bytes)?;
    equal!(rt, "a frame";
        header.destination() => [0xFF; 6],
        header.source() => [2, 0, 0, 0, 0, 1],
        header.ether_type() => EtherType::IPV4,
        header.slice() => &bytes[..14],
        frame.ether_type() => EtherType::IPV4,
        frame.payload_slice() => [0x45].as_slice(),
        frame.fcs() => None,
    );
    Ok(())
}

#[test]
fn one_tag_and_two_show_identifiers_and_payloads() -> Result<(), Fail> {
    let rt = crate::kit::HostRuntime;
    let tag = SingleVlanSlice::from_slice(&TAG)?;
    let payload = tag.payload();
    let tags = VlanSlice::SingleVlan(tag);
    equal!(rt, "one tag";
        payload => ipv4(&[0x45]),
        tags.to_header().next_header() => EtherType::IPV4,
        tags.payload().payload => [0x45].as_slice(),
    );
    let bytes = [0x00, 0x0A, 0x81, 0x00, 0x00, 0x64, 0x08, 0x00, 0x45];
    let outer = SingleVlanSlice::from_slice(&bytes)?;
    let inner = SingleVlanSlice::from_slice(outer.payload_slice())?;
    let tags = DoubleVlanSlice { outer, inner };
    let outer = SingleVlanHeader::from_bytes([0x00, 0x0A, 0x81, 0x00]);
    let inner = SingleVlanHeader::from_bytes([0x00, 0x64, 0x08, 0x00]);
    let headers = VlanHeader::Double(DoubleVlanHeader { outer, inner });
    equal!(rt, "two tags";
        tags.outer.vlan_identifier().value() => 10,
        tags.inner.vlan_identifier().value() => 100,
        tags.payload_slice() => [0x45].as_slice(),
        VlanHeader::VLAN_ETHER_TYPES.contains(&outer.ether_type) => true,
        headers.next_header() => EtherType::IPV4,
    );
    Ok(())
}

#[test]
fn sec_tags_show_the_types_of_their_payloads() -> Result<(), Fail> {
    let rt = crate::kit::HostRuntime;
    let readable = MacsecHeader::from_slice(&[0x00, 0x00, 0, 0, 0, 1, 0x08, 0x00])?;
    let encrypted = MacsecHeader::from_slice(&[0x0C, 0x00, 0, 0, 0, 1])?;
    let packet = MacsecSlice::from_slice(&[0x00, 0x03, 0, 0, 0, 1, 0x08, 0x00, 0x45, 0xEE])?;
    let payload = EtherPayloadSlice {
        ether_type: EtherType::IPV4,
        len_source: LenSource::MacsecShortLength,
        payload: &[0x45],
    };
    equal!(rt, "payload types, and a packet";
        readable.ptype => MacsecPType::Unmodified(EtherType::IPV4),
        encrypted.ptype => MacsecPType::Encrypted,
        packet.header.packet_nr() => 1,
        packet.ether_payload() => Some(payload),
    );
    Ok(())
}
