//! Headers as values, at the root of the crate. ARP packets are in `arp.rs`, numbers in `numbers.rs`.

use etherpeel::err::{self, Layer, SliceWriteSpaceError};
use etherpeel::{
    DoubleVlanHeader, Ethernet2Header, LinkExtHeader, LinkHeader, LinuxSllHeader, LinuxSllPacketType, MacsecAn,
    MacsecHeader, MacsecPType, MacsecShortLen, SingleVlanHeader, VlanHeader, VlanId, VlanPcp,
};
use properties::cases::{Checked, agreed, check};
use properties::cooked::{Cooked, Protocol};
use properties::frames::{cooked_bytes, ether_type, hardware_type, protocol_type, sec_tag_bytes};
use properties::observed;
use properties::sec_tag::SecTag;
use properties::wire::{Ethernet, Header, Kind, Source, Tag};
use proptest::collection::vec;
use proptest::prelude::{Just, Strategy, any, prop_assert, prop_assert_eq, prop_oneof};

fn bytes(most: usize) -> impl Strategy<Value = Vec<u8>> {
    vec(any::<u8>(), 0..=most)
}

fn ethernet_header() -> impl Strategy<Value = Ethernet2Header> {
    let parts = (any::<[u8; 6]>(), any::<[u8; 6]>(), ether_type());
    parts.prop_map(|(source, destination, number)| Ethernet2Header { source, destination, ether_type: number.into() })
}

fn tag_header() -> impl Strategy<Value = SingleVlanHeader> {
    (0..8u8, any::<bool>(), 0..4096u16, ether_type()).prop_map(|(pcp, drop_eligible_indicator, vid, number)| {
        SingleVlanHeader {
            pcp: VlanPcp::try_new(pcp).expect("three bits"),
            drop_eligible_indicator,
            vlan_id: VlanId::try_new(vid).expect("twelve bits"),
            ether_type: number.into(),
        }
    })
}

fn payload_type() -> impl Strategy<Value = MacsecPType> {
    prop_oneof![
        2 => ether_type().prop_map(|number| MacsecPType::Unmodified(number.into())),
        1 => Just(MacsecPType::Modified),
        1 => Just(MacsecPType::Encrypted),
        1 => Just(MacsecPType::EncryptedUnmodified),
    ]
}

fn sec_tag_header() -> impl Strategy<Value = MacsecHeader> {
    let short_len = prop_oneof![1 => 0..4u8, 2 => 0..64u8];
    let parts = (payload_type(), any::<[bool; 2]>(), 0..4u8, short_len, any::<u32>(), any::<Option<u64>>());
    parts.prop_map(|(ptype, [endstation_id, scb], an, short_len, packet_nr, sci)| MacsecHeader {
        ptype,
        endstation_id,
        scb,
        an: MacsecAn::try_new(an).expect("two bits"),
        short_len: MacsecShortLen::try_from_u8(short_len).expect("six bits"),
        packet_nr,
        sci,
    })
}

fn cooked_header() -> impl Strategy<Value = LinuxSllHeader> {
    let parts = (0..8u16, hardware_type(), any::<u16>(), any::<[u8; 8]>(), protocol_type());
    parts.prop_map(|(packet_type, hardware_type, sender_address_valid_length, sender_address, protocol_type)| {
        LinuxSllHeader {
            packet_type: LinuxSllPacketType::try_from(packet_type).expect("up to seven"),
            arp_hrd_type: hardware_type.into(),
            sender_address_valid_length,
            sender_address,
            protocol_type,
        }
    })
}

/// The byte with which the rest of a target is filled when it is lent.
const LENT: u8 = 0xA5;

/// What a rest has that is lent. It is then filled.
fn filled(rest: &mut [u8]) -> Vec<u8> {
    let old = rest.to_vec();
    rest.fill(LENT);
    old
}

/// A header is written to the front of a target with room for it, and the rest of that is lent; a shorter target is
/// refused with all fields of the error, and unchanged.
fn is_written(
    target: &[u8],
    header: &[u8],
    layer: Layer,
    write: impl Fn(&mut [u8]) -> Result<Vec<u8>, SliceWriteSpaceError>,
) -> Checked {
    let mut written = target.to_vec();
    let answer = write(&mut written);
    if target.len() < header.len() {
        let (required_len, len) = (header.len(), target.len());
        prop_assert_eq!(answer, Err(SliceWriteSpaceError { required_len, len, layer, layer_start_offset: 0 }));
        prop_assert_eq!(written, target);
        return Ok(());
    }
    let rest = &target[header.len()..];
    prop_assert_eq!(answer, Ok(rest.to_vec()));
    prop_assert_eq!(written, [header, &vec![LENT; rest.len()]].concat());
    Ok(())
}

/// An Ethernet header is read from fourteen bytes or more, and what follows it is returned.
///
/// Holds: `Ethernet2Header::from_slice`, `Ethernet2Header::read_from_slice`, `Ethernet2Header::from_bytes`,
/// `Ethernet2Header::header_len`, `Ethernet2Header::to_bytes`
#[test]
fn ethernet_headers_are_read() {
    check(bytes(20), |bytes| {
        prop_assert_eq!(Ethernet2Header::read_from_slice(&bytes), Ethernet2Header::from_slice(&bytes));
        let wanted = Header::read(Kind::Ethernet, &bytes, Source::Frame);
        let Some(((header, rest), wanted)) = agreed(Ethernet2Header::from_slice(&bytes), wanted, observed::short)?
        else {
            return Ok(());
        };
        prop_assert_eq!(&Header::Ethernet(observed::ethernet(&header)), &wanted);
        prop_assert_eq!(rest, &bytes[Ethernet::LEN..]);
        let front: [u8; 14] = bytes[..Ethernet::LEN].try_into().expect("fourteen bytes");
        prop_assert_eq!(Ethernet2Header::from_bytes(front), header);
        prop_assert_eq!((header.to_bytes(), header.header_len()), (front, Ethernet::LEN));
        Ok(())
    });
}

/// An Ethernet header is written as its fourteen bytes, and read back from them, whatever follows.
///
/// Holds: `Ethernet2Header::to_bytes`, `Ethernet2Header::write_to_slice`, `Ethernet2Header::from_slice`,
/// `Ethernet2Header::from_bytes`
#[test]
fn ethernet_headers_are_written() {
    check((ethernet_header(), bytes(20)), |(header, target)| {
        let written = header.to_bytes();
        prop_assert_eq!(written.to_vec(), observed::ethernet(&header).bytes());
        prop_assert_eq!(Ethernet2Header::from_bytes(written), header);
        let longer = [written.as_slice(), &target].concat();
        prop_assert_eq!(Ethernet2Header::from_slice(&longer), Ok((header, target.as_slice())));
        let write = |target: &mut [u8]| header.write_to_slice(target).map(filled);
        is_written(&target, &written, Layer::Ethernet2Header, write)
    });
}

/// A VLAN tag is read from four bytes or more, and what follows it is returned.
///
/// Holds: `SingleVlanHeader::from_slice`, `SingleVlanHeader::read_from_slice`, `SingleVlanHeader::from_bytes`,
/// `SingleVlanHeader::to_bytes`
#[test]
fn tags_are_read() {
    check(bytes(8), |bytes| {
        prop_assert_eq!(SingleVlanHeader::read_from_slice(&bytes), SingleVlanHeader::from_slice(&bytes));
        let wanted = Header::read(Kind::Vlan, &bytes, Source::Frame);
        let Some(((header, rest), wanted)) = agreed(SingleVlanHeader::from_slice(&bytes), wanted, observed::short)?
        else {
            return Ok(());
        };
        prop_assert_eq!(&Header::Vlan(observed::tag(&header)), &wanted);
        prop_assert_eq!(rest, &bytes[Tag::LEN..]);
        let front: [u8; 4] = bytes[..Tag::LEN].try_into().expect("four bytes");
        prop_assert_eq!(SingleVlanHeader::from_bytes(front), header);
        prop_assert_eq!(header.to_bytes(), front);
        Ok(())
    });
}

/// A VLAN tag is written as its four bytes, and read back from them, whatever follows. The ether type after one tag or
/// two is that of the last one.
///
/// Holds: `SingleVlanHeader::to_bytes`, `SingleVlanHeader::header_len`, `SingleVlanHeader::from_slice`,
/// `LinkExtHeader::header_len`, `VlanHeader::next_header`
#[test]
fn tags_are_written() {
    check((tag_header(), tag_header(), bytes(6)), |(header, inner, more)| {
        let written = header.to_bytes();
        prop_assert_eq!(written.to_vec(), observed::tag(&header).bytes());
        prop_assert_eq!(header.header_len(), Tag::LEN);
        prop_assert_eq!(LinkExtHeader::Vlan(header).header_len(), Tag::LEN);
        let longer = [written.as_slice(), &more].concat();
        prop_assert_eq!(SingleVlanHeader::from_slice(&longer), Ok((header, more.as_slice())));
        prop_assert_eq!(VlanHeader::Single(header).next_header(), header.ether_type);
        let double = VlanHeader::Double(DoubleVlanHeader { outer: header, inner });
        prop_assert_eq!(double.next_header(), inner.ether_type);
        Ok(())
    });
}

/// A SecTag is read exactly from bytes that begin with one, whatever payload follows.
///
/// Holds: `MacsecHeader::from_slice`
#[test]
fn sec_tags_are_read() {
    check(sec_tag_bytes(), |bytes| {
        let wanted = SecTag::read(&bytes, Source::Frame);
        let found = MacsecHeader::from_slice(&bytes);
        let Some((header, wanted)) = agreed(found, wanted, observed::sec_tag_breach)? else { return Ok(()) };
        prop_assert_eq!(observed::sec_tag(&header), wanted);
        Ok(())
    });
}

/// A SecTag is written with version and reserved bits 0, and read back whatever follows; but a short length that does
/// not cover the ether type after the tag is refused.
///
/// Holds: `MacsecHeader::to_bytes`, `MacsecHeader::header_len`, `MacsecHeader::encrypted`,
/// `MacsecHeader::userdata_changed`, `MacsecHeader::next_ether_type`, `MacsecHeader::expected_payload_len`,
/// `MacsecHeader::from_slice`, `LinkExtHeader::header_len`
#[test]
fn sec_tags_are_written() {
    check((sec_tag_header(), bytes(6)), |(header, more)| {
        let tag = observed::sec_tag(&header);
        let written = header.to_bytes().to_vec();
        prop_assert_eq!(&written, &tag.bytes());
        prop_assert_eq!(
            (header.header_len(), LinkExtHeader::Macsec(header).header_len()),
            (tag.tag_len(), tag.tag_len())
        );
        prop_assert_eq!((header.encrypted(), header.userdata_changed()), (tag.encrypted, tag.changed));
        prop_assert_eq!(header.next_ether_type().map(u16::from), tag.ether_type);
        prop_assert_eq!(header.expected_payload_len(), tag.named_payload());
        let content = err::macsec::HeaderError::InvalidUnmodifiedShortLen;
        let read_back = match (tag.short_length, tag.ether_type) {
            (1, Some(_)) => Err(err::macsec::HeaderSliceError::Content(content)),
            _ => Ok(header),
        };
        prop_assert_eq!(MacsecHeader::from_slice(&[written, more].concat()), read_back);
        Ok(())
    });
}

/// The length of a payload is set as the short length that names it, or 0 if none does; nothing else changes.
///
/// Holds: `MacsecHeader::set_payload_len`, `MacsecHeader::expected_payload_len`
#[test]
fn payload_lengths_are_set() {
    check((sec_tag_header(), prop_oneof![0..70usize, any::<usize>()]), |(header, len)| {
        let counted = if header.next_ether_type().is_some() { 2 } else { 0 };
        let short_len = len.checked_add(counted).filter(|&short| short < 64).unwrap_or(0);
        let mut set = header;
        set.set_payload_len(len);
        let short_len = MacsecShortLen::try_from_u8(short_len as u8).expect("six bits");
        prop_assert_eq!(set, MacsecHeader { short_len, ..header });
        let named = (short_len.value() != 0).then_some(len);
        prop_assert_eq!(set.expected_payload_len(), named);
        Ok(())
    });
}

/// A header of cooked capture is read from sixteen bytes or more, and what follows it is returned; an unsupported
/// packet type or hardware type is refused with its number.
///
/// Holds: `LinuxSllHeader::from_slice`, `LinuxSllHeader::from_bytes`, `LinuxSllHeader::to_bytes`
#[test]
fn cooked_headers_are_read() {
    check(cooked_bytes(), |bytes| {
        let wanted = Cooked::read(&bytes, Source::Frame);
        let found = LinuxSllHeader::from_slice(&bytes);
        if let Ok(front) = <[u8; 16]>::try_from(&bytes[..bytes.len().min(Cooked::LEN)]) {
            let header = LinuxSllHeader::from_bytes(front);
            let wanted = wanted.as_ref().map_err(|&breach| breach);
            prop_assert_eq!(header.as_ref().map_err(observed::cooked_content).map(observed::cooked), wanted.cloned());
            prop_assert!(header.is_err() || header.map(|header| header.to_bytes()) == Ok(front));
        }
        let Some(((header, rest), wanted)) = agreed(found, wanted, observed::cooked_breach)? else { return Ok(()) };
        prop_assert_eq!(observed::protocol(header.protocol_type), wanted.meaning());
        prop_assert_eq!(observed::cooked(&header), wanted);
        prop_assert_eq!(rest, &bytes[Cooked::LEN..]);
        Ok(())
    });
}

/// A header of cooked capture is written as its sixteen bytes. It is read back as the same exactly if its protocol type
/// is what the hardware type makes of the number.
///
/// Holds: `LinuxSllHeader::to_bytes`, `LinuxSllHeader::header_len`, `LinuxSllHeader::write_to_slice`,
/// `LinuxSllHeader::from_slice`, `LinuxSllHeader::from_bytes`
#[test]
fn cooked_headers_are_written() {
    check((cooked_header(), bytes(24)), |(header, target)| {
        let written = header.to_bytes();
        prop_assert_eq!(written.to_vec(), observed::cooked(&header).bytes());
        prop_assert_eq!(header.header_len(), Cooked::LEN);
        let protocol = observed::protocol(header.protocol_type);
        let is_own = Protocol::of(header.arp_hrd_type.0, protocol.number()) == Some(protocol);
        prop_assert_eq!(LinuxSllHeader::from_bytes(written) == Ok(header), is_own);
        let longer = [written.as_slice(), &target].concat();
        prop_assert_eq!(LinuxSllHeader::from_slice(&longer) == Ok((header, target.as_slice())), is_own);
        let write = |target: &mut [u8]| header.write_to_slice(target).map(filled);
        is_written(&target, &written, Layer::LinuxSllHeader, write)
    });
}

/// The header of a link is returned, or lent to be changed, as the kind that it has; the other kind is not there.
///
/// Holds: `LinkHeader::ethernet2`, `LinkHeader::mut_ethernet2`, `LinkHeader::linux_sll`, `LinkHeader::mut_linux_sll`,
/// `LinkHeader::header_len`
#[test]
fn links_have_one_header() {
    check(
        (ethernet_header(), ethernet_header(), cooked_header(), cooked_header()),
        |(ethernet, other, cooked, late)| {
            let mut link = LinkHeader::Ethernet2(ethernet);
            prop_assert_eq!((link.header_len(), link.ethernet2(), link.linux_sll()), (14, Some(ethernet), None));
            prop_assert!(link.mut_linux_sll().is_none());
            *link.mut_ethernet2().expect("it is one of Ethernet") = other;
            prop_assert_eq!(link, LinkHeader::Ethernet2(other));

            let mut link = LinkHeader::LinuxSll(cooked);
            prop_assert_eq!((link.header_len(), link.ethernet2(), link.linux_sll()), (16, None, Some(cooked)));
            prop_assert!(link.mut_ethernet2().is_none());
            *link.mut_linux_sll().expect("it is one of cooked capture") = late;
            prop_assert_eq!(link, LinkHeader::LinuxSll(late));
            Ok(())
        },
    );
}
