//! Numbers with a range, errors, and bytes at the front of a slice: `ether_base`, mostly at the root of the crate.

use etherpeel::err::{self, Layer, LenError, SliceWriteSpaceError, ValueTooBigError, ValueType};
use etherpeel::ether_base::{big_endian, slice_len};
use etherpeel::write_front::{put, rest_from};
use etherpeel::{
    EtherType, LenSource, LinuxNonstandardEtherType, LinuxSllPacketType, LinuxSllProtocolType, MacsecAn,
    MacsecShortLen, VlanId, VlanPcp,
};
use properties::cases::check;
use properties::cooked::{Cooked, NONSTANDARD, Protocol};
use properties::frames::{ether_type, hardware_type, protocol, protocol_type};
use properties::observed;
use properties::wire::{Breach, announces_vlan, number, spelled};
use proptest::collection::vec;
use proptest::prelude::{Strategy, any, prop_assert_eq, prop_oneof};

fn bytes(most: usize) -> impl Strategy<Value = Vec<u8>> {
    vec(any::<u8>(), 0..=most)
}

/// The numbers of fields with fewer bits than a byte or two are accepted exactly up to the greatest one; the error has
/// the number, the greatest one and the field.
///
/// Holds: `MacsecAn::try_new`, `MacsecAn::value`, `MacsecShortLen::try_from_u8`, `MacsecShortLen::value`,
/// `VlanPcp::try_new`, `VlanPcp::value`, `VlanId::try_new`, `VlanId::value`
#[test]
fn bounded_numbers_have_their_bits() {
    fn bounded<T: Copy + PartialOrd + std::fmt::Display + std::fmt::Debug + Eq + std::hash::Hash>(
        actual: T,
        max_allowed: T,
        value_type: ValueType,
    ) -> Result<T, ValueTooBigError<T>> {
        if actual > max_allowed { Err(ValueTooBigError { actual, max_allowed, value_type }) } else { Ok(actual) }
    }
    check((prop_oneof![0..80u8, any::<u8>()], prop_oneof![4090..4100u16, any::<u16>()]), |(byte, number)| {
        let (an, pcp, short_len) = (ValueType::MacsecAn, ValueType::VlanPcp, ValueType::MacsecShortLen);
        prop_assert_eq!(MacsecAn::try_new(byte).map(MacsecAn::value), bounded(byte, 3, an));
        prop_assert_eq!(VlanPcp::try_new(byte).map(VlanPcp::value), bounded(byte, 7, pcp));
        let short = MacsecShortLen::try_from_u8(byte).map(MacsecShortLen::value);
        prop_assert_eq!(short, bounded(byte, 63, short_len));
        let id = bounded(number, 4095, ValueType::VlanId);
        prop_assert_eq!(VlanId::try_new(number).map(VlanId::value), id);
        prop_assert_eq!(MacsecAn::try_from(byte).map(u8::from), bounded(byte, 3, ValueType::MacsecAn));
        prop_assert_eq!(VlanPcp::try_from(byte).map(u8::from), bounded(byte, 7, ValueType::VlanPcp));
        prop_assert_eq!(MacsecShortLen::try_from(byte).map(u8::from), bounded(byte, 63, ValueType::MacsecShortLen));
        prop_assert_eq!(VlanId::try_from(number).map(u16::from), id);
        Ok(())
    });
}

/// A length is a short length up to 63; from 64 on it is 0.
///
/// Holds: `MacsecShortLen::from_len`
#[test]
fn short_lengths_are_made_of_lengths() {
    check(prop_oneof![0..70usize, any::<usize>()], |len| {
        let wanted = if len < 64 { len } else { 0 };
        prop_assert_eq!(usize::from(MacsecShortLen::from_len(len).value()), wanted);
        Ok(())
    });
}

/// The numbers of cooked captures are accepted exactly if the lists of Linux have them. A protocol type has what the
/// hardware type makes of a number, and keeps its kind if the number is replaced.
///
/// Holds: `LinuxSllProtocolType::change_value`
#[test]
fn numbers_of_cooked_captures_are_listed() {
    check((hardware_type(), protocol(), protocol_type(), 0..20u16), |(hardware_type, number, old, small)| {
        let wanted = Protocol::of(hardware_type, number).ok_or(Breach::HardwareType(hardware_type));
        let found = LinuxSllProtocolType::try_from((hardware_type.into(), number));
        prop_assert_eq!(found.map(observed::protocol).map_err(|error| observed::cooked_content(&error)), wanted);
        let nonstandard = LinuxNonstandardEtherType::try_from(number).map(u16::from).ok();
        prop_assert_eq!(nonstandard, NONSTANDARD.contains(&number).then_some(number));
        let packet_type = LinuxSllPacketType::try_from(small).map(u16::from);
        let wanted = if small <= Cooked::GREATEST_PACKET_TYPE { Ok(small) } else { Err(Breach::PacketType(small)) };
        prop_assert_eq!(packet_type.map_err(|error| observed::cooked_content(&error)), wanted);

        let mut new = old;
        new.change_value(number);
        let wanted = match observed::protocol(old) {
            Protocol::Ignored(_) => Some(Protocol::Ignored(number)),
            Protocol::Netlink(_) => Some(Protocol::Netlink(number)),
            Protocol::Gre(_) => Some(Protocol::Gre(number)),
            Protocol::EtherType(_) | Protocol::Nonstandard(_) => Protocol::of(1, number),
        };
        prop_assert_eq!(Some(observed::protocol(new)), wanted);
        prop_assert_eq!(u16::from(new), number);
        Ok(())
    });
}

/// An ether type announces a VLAN tag exactly if IEEE 802.1Q lists it, or if it is 0x9100.
///
/// Holds: `EtherType::announces_vlan`
#[test]
fn ether_types_announce_tags() {
    check(ether_type(), |number| {
        prop_assert_eq!(EtherType(number).announces_vlan(), announces_vlan(number));
        Ok(())
    });
}

/// The offset of an error is moved, and no other field; an error of contents has none. An error for a slice that is too
/// short has the fields given.
///
/// Holds: `LenError::add_offset`, `HeaderSliceError::add_slice_offset`, `slice_len::too_short`
#[test]
fn offsets_of_errors_are_moved() {
    check((0..90usize, 0..90usize, 0..90usize, 0..90usize), |(required_len, len, start, offset)| {
        let (len_source, layer) = (LenSource::MacsecShortLength, Layer::MacsecPacket);
        let error = LenError { required_len, len, len_source, layer, layer_start_offset: start };
        let moved = LenError { layer_start_offset: start + offset, ..error };
        prop_assert_eq!(error.add_offset(offset), moved);
        let (of_len, of_content) = (err::macsec::HeaderSliceError::Len, err::macsec::HeaderSliceError::Content);
        prop_assert_eq!(of_len(error).add_slice_offset(offset), of_len(moved));
        let content = of_content(err::macsec::HeaderError::UnexpectedVersion);
        prop_assert_eq!(content.add_slice_offset(offset), content);
        let made = slice_len::too_short(required_len, len, len_source, layer);
        prop_assert_eq!(made, LenError { layer_start_offset: 0, ..error });
        Ok(())
    });
}

/// Bytes that fit are written to the front of a slice, others nowhere. The rest of a slice is lent, or the slice is
/// refused with all fields of the error.
///
/// Holds: `write_front::put`, `write_front::rest_from`
#[test]
fn fronts_are_written() {
    check((any::<[u8; 5]>(), bytes(9), 0..12usize), |(front, target, required_len)| {
        let mut written = target.clone();
        let lent = put(front, &mut written).to_vec();
        let wanted = if target.len() < 5 { target.clone() } else { [front.as_slice(), &target[5..]].concat() };
        prop_assert_eq!((&lent, &written), (&wanted, &wanted));
        let (layer, len) = (Layer::VlanHeader, target.len());
        let error = SliceWriteSpaceError { required_len, len, layer, layer_start_offset: 0 };
        let rest = target.get(required_len..).map(<[u8]>::to_vec).ok_or(error);
        let mut slice = target.clone();
        let lent = rest_from(&mut slice, required_len, layer).map(|rest| {
            let old = rest.to_vec();
            rest.fill(7);
            old
        });
        prop_assert_eq!(lent, rest);
        let mut wanted = target;
        wanted.iter_mut().skip(required_len).for_each(|byte| *byte = 7);
        prop_assert_eq!(slice, wanted);
        Ok(())
    });
}

/// Numbers are read in network order: of arrays, of the front of a field, and at a place that is there; and they are
/// written so.
///
/// Holds: `big_endian::u16_of`, `big_endian::u32_of`, `big_endian::u64_of`, `big_endian::u16_in`,
/// `big_endian::u32_in`, `big_endian::u64_in`, `big_endian::u16_at`, `big_endian::u32_at`, `big_endian::u64_at`,
/// `big_endian::array_at`, `big_endian::bytes_of_u16`, `big_endian::bytes_of_u32`, `big_endian::bytes_of_u64`
#[test]
fn numbers_are_in_network_order() {
    check((bytes(12), any::<[u8; 8]>(), 0..8usize), |(field, array, at)| {
        let [a, b, c, d, ..] = array;
        let front = |len: usize| number(&field[..field.len().min(len)]);
        let placed = [vec![7; at], array.to_vec()].concat();
        prop_assert_eq!(u64::from(big_endian::u16_of([a, b])), number(&[a, b]));
        prop_assert_eq!(u64::from(big_endian::u32_of([a, b, c, d])), number(&[a, b, c, d]));
        prop_assert_eq!(big_endian::u64_of(array), number(&array));
        prop_assert_eq!(u64::from(big_endian::u16_in(&field)), front(2));
        prop_assert_eq!(u64::from(big_endian::u32_in(&field)), front(4));
        prop_assert_eq!(big_endian::u64_in(&field), front(8));
        prop_assert_eq!(u64::from(big_endian::u16_at(&placed, at)), number(&[a, b]));
        prop_assert_eq!(u64::from(big_endian::u32_at(&placed, at)), number(&[a, b, c, d]));
        prop_assert_eq!(big_endian::u64_at(&placed, at), number(&array));
        let found = big_endian::array_at::<4>(&field, at).map(|found| found.to_vec());
        prop_assert_eq!(found, field.get(at..at + 4).map(<[u8]>::to_vec));
        let number = number(&array);
        prop_assert_eq!(big_endian::bytes_of_u16(number as u16).to_vec(), spelled(number, 2));
        prop_assert_eq!(big_endian::bytes_of_u32(number as u32).to_vec(), spelled(number, 4));
        prop_assert_eq!(big_endian::bytes_of_u64(number).to_vec(), spelled(number, 8));
        Ok(())
    });
}
