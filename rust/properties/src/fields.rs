//! The fields of headers that expressions name, and the values that headers give them.

use crate::arp::Arp;
use crate::cooked::Cooked;
use crate::sec_tag::SecTag;
use crate::walk::Walk;
use crate::wire::{Ethernet, Header, Tag};
use etherpeel::ether_filter::{FieldTest, FilterErrorKind, Primitive, Relation};

/// What a header gives a field.
#[derive(Clone, PartialEq, Eq, Debug)]
pub enum Value {
    Number(u64),
    Bytes(Vec<u8>),
}

/// Which values may be compared with a field.
#[derive(Clone, Copy, PartialEq, Eq, Debug)]
pub enum Takes {
    /// Numbers up to this one.
    Number(u32),
    /// So many bytes, or a number that fits in them.
    Bytes(u8),
    /// Any number of bytes.
    AnyBytes,
}

/// A field, by its name as a column and its number in the crate's table of fields.
pub struct Column {
    pub name: &'static str,
    pub number: u8,
    pub takes: Takes,
    value: fn(&Header) -> Option<Value>,
}

fn ethernet(header: &Header) -> Option<&Ethernet> {
    match header {
        Header::Ethernet(it) | Header::EthernetFcs(it) => Some(it),
        _ => None,
    }
}

fn cooked(header: &Header) -> Option<&Cooked> {
    match header {
        Header::Cooked(it) => Some(it),
        _ => None,
    }
}

fn tag(header: &Header) -> Option<&Tag> {
    match header {
        Header::Vlan(it) => Some(it),
        _ => None,
    }
}

fn sec_tag(header: &Header) -> Option<&SecTag> {
    match header {
        Header::SecTag(it) => Some(it),
        _ => None,
    }
}

fn arp(header: &Header) -> Option<&Arp> {
    match header {
        Header::Arp(it) => Some(it),
        _ => None,
    }
}

fn number(number: impl Into<u64>) -> Value {
    Value::Number(number.into())
}

fn bytes(bytes: &[u8]) -> Value {
    Value::Bytes(bytes.to_vec())
}

const fn column(name: &'static str, number: u8, takes: Takes, value: fn(&Header) -> Option<Value>) -> Column {
    Column { name, number, takes, value }
}

pub const CAPTURED: u8 = 254;
pub const ORIGINAL: u8 = 255;
const BIT: Takes = Takes::Number(1);
const TYPE: Takes = Takes::Number(0xFFFF);

/// The fields, with the names of the standards' abbreviations. No header gives the last two: they are the lengths of the
/// packet.
pub static COLUMNS: [Column; 32] = [
    column("eth.dst", 1, Takes::Bytes(6), |it| Some(bytes(&ethernet(it)?.destination))),
    column("eth.src", 2, Takes::Bytes(6), |it| Some(bytes(&ethernet(it)?.source))),
    column("eth.type", 3, TYPE, |it| Some(number(ethernet(it)?.ether_type))),
    column("sll.packet_type", 4, TYPE, |it| Some(number(cooked(it)?.packet_type))),
    column("sll.hw_type", 5, TYPE, |it| Some(number(cooked(it)?.hardware_type))),
    column("sll.addr_len", 6, TYPE, |it| Some(number(cooked(it)?.address_len))),
    column("sll.addr", 7, Takes::Bytes(8), |it| Some(bytes(&cooked(it)?.address))),
    column("sll.protocol", 8, TYPE, |it| Some(number(cooked(it)?.protocol))),
    column("vlan.pcp", 9, Takes::Number(7), |it| Some(number(tag(it)?.pcp))),
    column("vlan.dei", 10, BIT, |it| Some(number(tag(it)?.dei))),
    column("vlan.vid", 11, Takes::Number(4095), |it| Some(number(tag(it)?.vid))),
    column("vlan.type", 12, TYPE, |it| Some(number(tag(it)?.ether_type))),
    column("macsec.es", 14, BIT, |it| Some(number(sec_tag(it)?.end_station))),
    column("macsec.scb", 16, BIT, |it| Some(number(sec_tag(it)?.single_copy))),
    column("macsec.e", 17, BIT, |it| Some(number(sec_tag(it)?.encrypted))),
    column("macsec.c", 18, BIT, |it| Some(number(sec_tag(it)?.changed))),
    column("macsec.an", 19, Takes::Number(3), |it| Some(number(sec_tag(it)?.association_number))),
    column("macsec.sl", 21, Takes::Number(63), |it| Some(number(sec_tag(it)?.short_length))),
    column("macsec.pn", 22, Takes::Number(u32::MAX), |it| Some(number(sec_tag(it)?.packet_number))),
    column("macsec.sci", 23, Takes::Bytes(8), |it| Some(bytes(&sec_tag(it)?.sci?.to_be_bytes()))),
    column("macsec.type", 24, TYPE, |it| Some(number(sec_tag(it)?.ether_type?))),
    column("arp.hrd", 25, TYPE, |it| Some(number(arp(it)?.hardware_type))),
    column("arp.pro", 26, TYPE, |it| Some(number(arp(it)?.protocol_type))),
    column("arp.hln", 27, Takes::Number(255), |it| Some(number(arp(it)?.sender_hardware.len() as u64))),
    column("arp.pln", 28, Takes::Number(255), |it| Some(number(arp(it)?.sender_protocol.len() as u64))),
    column("arp.op", 29, TYPE, |it| Some(number(arp(it)?.operation))),
    column("arp.sha", 30, Takes::AnyBytes, |it| Some(bytes(&arp(it)?.sender_hardware))),
    column("arp.spa", 31, Takes::AnyBytes, |it| Some(bytes(&arp(it)?.sender_protocol))),
    column("arp.tha", 32, Takes::AnyBytes, |it| Some(bytes(&arp(it)?.target_hardware))),
    column("arp.tpa", 33, Takes::AnyBytes, |it| Some(bytes(&arp(it)?.target_protocol))),
    column("frame.captured", CAPTURED, Takes::Number(u32::MAX), |_| None),
    column("frame.original", ORIGINAL, Takes::Number(u32::MAX), |_| None),
];

impl Takes {
    /// The error for a word that is no such value.
    pub fn error(self) -> FilterErrorKind {
        match self {
            Takes::Number(most) => FilterErrorKind::ExpectedNumber(most),
            Takes::Bytes(len) => FilterErrorKind::ExpectedBytes(len),
            Takes::AnyBytes => FilterErrorKind::ExpectedAnyBytes,
        }
    }
}

/// A field or a slice of it.
#[derive(Clone, Copy, Debug)]
pub struct Subject {
    pub column: u8,
    pub first: u8,
    pub count: u8,
    pub takes: Takes,
}

impl Subject {
    pub fn test(self, mask: u64, relation: Relation, (len, value): (u8, u64)) -> FieldTest {
        FieldTest { field: self.column, first: self.first, count: self.count, relation, mask, len, value }
    }
}

/// The primitive of a test. Some have words of their own: `vlan.vid == 5` is `vlan 5`.
pub fn primitive(test: FieldTest) -> Primitive {
    let is_whole = test.count == 0 && test.mask == u64::MAX;
    match (test.field, test.relation) {
        (11, Relation::Exists) => Primitive::Vlan,
        (11, Relation::Equal) if is_whole => Primitive::VlanId(test.value as u16),
        (1, Relation::Equal) if is_whole => Primitive::Destination(test.value),
        (2, Relation::Equal) if is_whole => Primitive::Source(test.value),
        (CAPTURED | ORIGINAL, _) => Primitive::Frame(test),
        _ => Primitive::Field(test),
    }
}

/// The field with this number.
pub fn numbered(number: u8) -> Option<&'static Column> {
    COLUMNS.iter().find(|column| column.number == number)
}

/// The values of a field, by the headers that have it.
pub fn values(column: &Column, walk: &Walk) -> Vec<Value> {
    walk.headers().filter_map(column.value).collect()
}

/// The number of up to eight bytes, the first one the most significant.
pub fn number_of(bytes: &[u8]) -> u64 {
    bytes.iter().fold(0, |number, &byte| number * 256 + u64::from(byte))
}

/// The tested part of a value.
fn part(test: &FieldTest, value: Value) -> Option<Value> {
    let (first, count) = (usize::from(test.first), usize::from(test.count));
    match value {
        Value::Bytes(bytes) if count > 0 => bytes.get(first..first + count).map(|it| Value::Bytes(it.to_vec())),
        whole => Some(whole),
    }
}

/// Whether a value has the tested relation; for `!=`, whether it is equal.
fn is_related(test: &FieldTest, value: &Value) -> bool {
    let number = match value {
        Value::Number(number) => *number,
        Value::Bytes(bytes) if bytes.len() == usize::from(test.len) && bytes.len() <= 8 => number_of(bytes),
        Value::Bytes(_) => return false,
    };
    let number = number & test.mask;
    match test.relation {
        Relation::Exists => true,
        Relation::Equal | Relation::NotEqual => number == test.value,
        Relation::Less => number < test.value,
        Relation::AtMost => number <= test.value,
        Relation::Greater => number > test.value,
        Relation::AtLeast => number >= test.value,
    }
}

/// Whether a test holds where this number is the only value.
pub fn matches_number(test: &FieldTest, number: u64) -> bool {
    let is_related = is_related(test, &Value::Number(number));
    if test.relation == Relation::NotEqual { !is_related } else { is_related }
}

/// Whether a test holds of a packet with this walk.
pub fn matches(test: &FieldTest, walk: &Walk) -> bool {
    let column = numbered(test.field);
    let values = column.map_or(Vec::new(), |column| values(column, walk));
    let parts: Vec<Value> = values.into_iter().filter_map(|value| part(test, value)).collect();
    let any = parts.iter().any(|value| is_related(test, value));
    match test.relation {
        Relation::Exists => !parts.is_empty(),
        Relation::NotEqual => !parts.is_empty() && !any,
        _ => any,
    }
}
