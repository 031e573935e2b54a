//! What a test of a field asks about, and the values that it takes.

use crate::ether_filter::byte_text::{place_of, slice_of};
use crate::ether_filter::field_test::{FieldTest, Relation};
use crate::ether_filter::primitive::Primitive;
use crate::ether_base::big_endian::u64_in;
use crate::ether_fields::{Extent, Field, Kind, Section};

/// Which values a field takes.
#[derive(Clone, Copy)]
pub(in crate::ether_filter) enum Takes {
    /// Numbers up to this one.
    Number(u32),
    /// This number of bytes.
    Bytes(u8),
    /// Any number of bytes.
    AnyBytes,
    /// Times.
    Time,
    /// The names of headers.
    Header,
}

/// A field, or a part of its bytes.
#[derive(Clone, Copy)]
pub(in crate::ether_filter) struct Subject {
    /// The number of the field.
    pub field: u8,
    /// The offset in bytes of the part.
    pub first: u8,
    /// The number of bytes in the part, or 0 for all.
    pub count: u8,
    pub takes: Takes,
}

/// What a field is compared with.
#[derive(Clone, Copy)]
pub(in crate::ether_filter) struct Literal {
    /// The number of bytes, or 0 for a number or a time.
    pub len: u8,
    pub number: u64,
}

/// The sections whose fields can be tested.
static SECTIONS: [Section; 5] = [
    Section::Eth,
    Section::Sll,
    Section::Vlan,
    Section::Macsec,
    Section::Arp,
];

impl Subject {
    /// The test that it has the value.
    #[inline]
    pub(in crate::ether_filter) fn test(self, mask: u64, relation: Relation, value: Literal) -> FieldTest {
        FieldTest {
            field: self.field,
            first: self.first,
            count: self.count,
            relation,
            mask,
            len: value.len,
            value: value.number,
        }
    }
}

/// The primitive of a test of a field: some have words of their own, as `vlan.vid == 5`, which is `vlan 5`.
#[inline]
pub(in crate::ether_filter) fn tested(test: FieldTest) -> Primitive {
    if test.field >= 253 {
        return Primitive::Frame(test);
    }
    match test.relation {
        Relation::Exists if test.field == 11 => Primitive::Vlan,
        Relation::Equal if test.count == 0 && test.mask == u64::MAX => match test.field {
            11 => Primitive::VlanId((test.value % (1 << 16)) as u16),
            1 => Primitive::Destination(test.value),
            2 => Primitive::Source(test.value),
            _ => Primitive::Field(test),
        },
        _ => Primitive::Field(test),
    }
}

impl Takes {
    /// The value that a number is, if the field takes it.
    #[inline]
    pub(in crate::ether_filter) fn number(self, number: u64) -> Option<Literal> {
        match self {
            Takes::Number(most) if number <= u64::from(most) => Some(Literal { len: 0, number }),
            Takes::Bytes(len) if number <= greatest_of(len) => Some(Literal { len, number }),
            _ => None,
        }
    }

    /// The value that bytes are, if the field takes them.
    #[inline]
    pub(in crate::ether_filter) fn bytes(self, bytes: Literal) -> Option<Literal> {
        match self {
            Takes::Bytes(len) if len == bytes.len => Some(bytes),
            Takes::AnyBytes => Some(bytes),
            _ => None,
        }
    }

    /// The value that the name of a header is, if the field takes it.
    #[inline]
    pub(in crate::ether_filter) fn name(self, name: &[u8]) -> Option<Literal> {
        match self {
            Takes::Header => Some(Literal {
                len: name.len() as u8,
                number: u64_in(name),
            }),
            _ => None,
        }
    }

    /// The value that a time is, if the field takes it.
    #[inline]
    pub(in crate::ether_filter) fn time(self, time: u64) -> Option<Literal> {
        match self {
            Takes::Time => Some(Literal {
                len: 0,
                number: time,
            }),
            _ => None,
        }
    }
}

/// The greatest number in so many bytes, up to eight.
#[inline]
fn greatest_of(len: u8) -> u64 {
    match len {
        0 => 0,
        1 => 0xFF,
        2 => 0xFFFF,
        3 => 0xFF_FFFF,
        4 => 0xFFFF_FFFF,
        5 => 0xFF_FFFF_FFFF,
        6 => 0xFFFF_FFFF_FFFF,
        7 => 0xFF_FFFF_FFFF_FFFF,
        _ => u64::MAX,
    }
}

/// The field with this name, or the slice of its bytes, as `eth.src[0:3]`.
#[inline]
pub(in crate::ether_filter) fn subject_of(word: &[u8]) -> Option<Subject> {
    match place_of(word, b'[') {
        Some(at) => sliced(name_of(&word[..at])?, slice_of(&word[at..])?),
        None => match unnumbered_subject(word) {
            Some(subject) => Some(subject),
            None => name_of(word),
        },
    }
}

/// The names of headers, or what a capture says of a packet, with this name as a column.
#[inline]
fn unnumbered_subject(name: &[u8]) -> Option<Subject> {
    if name == b"headers.header".as_slice() {
        return Some(whole_subject(252, Takes::Header));
    }
    if name == b"frame.time".as_slice() {
        return Some(whole_subject(253, Takes::Time));
    }
    if name == b"frame.captured".as_slice() {
        return Some(whole_subject(254, Takes::Number(u32::MAX)));
    }
    if name == b"frame.original".as_slice() {
        return Some(whole_subject(255, Takes::Number(u32::MAX)));
    }
    None
}

/// The whole of the field with this number.
#[inline]
fn whole_subject(field: u8, takes: Takes) -> Subject {
    Subject {
        field,
        first: 0,
        count: 0,
        takes,
    }
}

/// The field with this name.
#[inline]
fn name_of(word: &[u8]) -> Option<Subject> {
    whole(field_named(word)?)
}

/// A slice of a field's bytes: its first offset and its length, up to eight.
#[inline]
fn sliced(subject: Subject, slice: (u8, u8)) -> Option<Subject> {
    let (first, count) = slice;
    if count == 0 || count > 8 || !has_slice(subject.takes, first, count) {
        return None;
    }
    Some(Subject {
        field: subject.field,
        first,
        count,
        takes: Takes::Bytes(count),
    })
}

/// Whether the bytes of a field can have this slice.
#[inline]
fn has_slice(takes: Takes, first: u8, count: u8) -> bool {
    match takes {
        Takes::Number(_) => false,
        Takes::Bytes(len) => u16::from(first) + u16::from(count) <= u16::from(len),
        Takes::AnyBytes => true,
        Takes::Time | Takes::Header => false,
    }
}

/// The whole of a field, if it has bits.
#[inline]
fn whole(field: &Field) -> Option<Subject> {
    let takes = takes_of(field)?;
    if field.number >= 256 {
        return None;
    }
    Some(Subject {
        field: field.number as u8,
        first: 0,
        count: 0,
        takes,
    })
}

/// The field with this name as a column.
#[inline]
fn field_named(name: &[u8]) -> Option<&'static Field> {
    named_among(name, &SECTIONS)
}

/// .. in these sections.
#[inline]
fn named_among(name: &[u8], sections: &[Section]) -> Option<&'static Field> {
    for section in sections {
        if let Some(field) = in_section(name, *section) {
            return Some(field);
        }
    }
    None
}

/// .. in this section.
#[inline]
fn in_section(name: &[u8], section: Section) -> Option<&'static Field> {
    named(name, section.fields())
}

/// .. among these fields.
#[inline]
fn named(name: &[u8], fields: &'static [Field]) -> Option<&'static Field> {
    fields.iter().find(|field| field.column.as_bytes() == name)
}

/// Which values a field takes, if it has bits.
#[inline]
fn takes_of(field: &Field) -> Option<Takes> {
    if !field.is_member {
        return None;
    }
    match field.extent {
        Extent::Bits(len) => match field.kind {
            Kind::Bytes => Some(Takes::Bytes(len / 8)),
            _ => greatest(len).map(Takes::Number),
        },
        Extent::HardwareAddress | Extent::ProtocolAddress => Some(Takes::AnyBytes),
        Extent::SecureChannel => Some(Takes::Bytes(8)),
        Extent::PayloadType => Some(Takes::Number(0xFFFF)),
        Extent::Computed | Extent::CheckSequence => None,
    }
}

/// The greatest number in so many bits, up to 32.
#[inline]
fn greatest(bits: u8) -> Option<u32> {
    match bits {
        1 => Some(1),
        2 => Some(3),
        3 => Some(7),
        6 => Some(63),
        8 => Some(255),
        12 => Some(4095),
        16 => Some(65535),
        32 => Some(u32::MAX),
        _ => None,
    }
}
