//! Draws packets, expressions about them, and texts of expressions.

use crate::fields::{self, Column, Subject, Takes, Value};
use crate::filter::{Captured, Expression, addresses, ether_types, vlan_ids};
use crate::frames::frame;
use crate::walk::Walk;
use etherpeel::ether_filter::{FieldTest, Operator, Primitive, Relation};
use proptest::collection::vec;
use proptest::prelude::{Just, Strategy, any, prop_oneof};
use proptest::sample::select;

/// What is captured of a packet. Parts are 256ths of its frame.
#[derive(Clone, Copy, Debug)]
enum Capture {
    Whole,
    /// A part. The packet had the other bytes, and some more.
    Cut(usize, usize),
    /// A part, and a number that is taken for the length of the packet.
    Other(usize, u32),
}

fn capture() -> impl Strategy<Value = Capture> {
    let more = prop_oneof![3 => 0..40usize, 1 => 0..2000usize];
    prop_oneof![
        2 => Just(Capture::Whole),
        4 => (0..=256usize, more).prop_map(|(part, more)| Capture::Cut(part, more)),
        1 => (0..=256usize, any::<u32>()).prop_map(|(part, original)| Capture::Other(part, original)),
    ]
}

/// A packet, which may have been cut. The capture may have a header of its own before the frame.
pub fn captured() -> impl Strategy<Value = Captured> {
    (frame(), capture(), 0..3usize).prop_map(|(mut frame, capture, before)| {
        let whole = frame.bytes.len();
        let (len, original_len) = match capture {
            Capture::Whole => (whole, (before + whole) as u32),
            Capture::Cut(part, more) => (whole * part / 256, (before + whole + more) as u32),
            Capture::Other(part, original) => (whole * part / 256, original),
        };
        frame.bytes.truncate(len);
        Captured { frame, captured_len: before + len, original_len }
    })
}

/// What primitives about a packet may name.
#[derive(Clone, Debug)]
struct Pool {
    ids: Vec<u16>,
    types: Vec<u16>,
    addresses: Vec<u64>,
    lengths: Vec<u32>,
    fields: Vec<FieldTest>,
}

const RELATIONS: [Relation; 6] =
    [Relation::Equal, Relation::NotEqual, Relation::Less, Relation::AtMost, Relation::Greater, Relation::AtLeast];

/// Tests of a field: that there is a value, and comparisons with a value of the packet, if there is one, or with 1.
fn field_tests(column: &Column, packet: &Captured, walk: &Walk) -> Vec<FieldTest> {
    let subject = Subject { column: column.number, first: 0, count: 0, takes: column.takes };
    let value = match column.number {
        fields::CAPTURED => Some(Value::Number(packet.captured_len as u64)),
        fields::ORIGINAL => Some(Value::Number(packet.original_len.into())),
        _ => fields::values(column, walk).pop(),
    };
    let (len, number) = match (value, column.takes) {
        (Some(Value::Number(number)), _) => (0, number),
        (Some(Value::Bytes(bytes)), _) if (2..=8).contains(&bytes.len()) => {
            (bytes.len() as u8, fields::number_of(&bytes))
        }
        (_, Takes::Number(_)) => (0, 1),
        (_, Takes::Bytes(len)) => (len, 1),
        (_, Takes::AnyBytes) => (4, 1),
    };
    let compared = RELATIONS.map(|relation| subject.test(u64::MAX, relation, (len, number)));
    let other = subject.test(u64::MAX, Relation::Equal, (len, number & !1));
    let masked = subject.test(1, Relation::Equal, (len, number & 1));
    let mut tests = vec![subject.test(u64::MAX, Relation::Exists, (0, 0)), other, masked];
    tests.extend(compared);
    if !matches!(column.takes, Takes::Number(_)) {
        let slice = Subject { first: 1, count: 3, ..subject };
        tests.push(slice.test(u64::MAX, Relation::NotEqual, (3, number >> 8 & 0xFF_FFFF)));
    }
    tests
}

impl Pool {
    fn of(packet: &Captured) -> Pool {
        let walk = packet.walk();
        let (to, from) = addresses(&walk).unwrap_or((2, 3));
        let original = packet.original_len;
        Pool {
            ids: [vlan_ids(&walk), vec![0, 5, 4095]].concat(),
            types: [ether_types(packet.frame.start, &walk), vec![0x0800, 0x86DD, 0x0806, 0x8100, 0x88A8, 0]].concat(),
            addresses: vec![to, from, 0x0200_0000_0001, to ^ 1],
            lengths: vec![original.saturating_sub(1), original, original.saturating_add(1), 64],
            fields: fields::COLUMNS.iter().flat_map(|column| field_tests(column, packet, &walk)).collect(),
        }
    }

    fn primitives(&self) -> Vec<Primitive> {
        let of_ids = [Primitive::VlanId, Primitive::OuterVlan, Primitive::InnerVlan];
        let of_addresses = [Primitive::Source, Primitive::Destination, Primitive::Host];
        let of_lengths = [Primitive::Less, Primitive::Greater];
        let alone = [
            Primitive::Vlan,
            Primitive::Macsec,
            Primitive::Broadcast,
            Primitive::Multicast,
            Primitive::Refused,
            Primitive::Cut,
        ];
        let ids = self.ids.iter().flat_map(|&id| of_ids.map(|primitive| primitive(id)));
        let types = self.types.iter().map(|&number| Primitive::EtherType(number));
        let addresses = self.addresses.iter().flat_map(|&address| of_addresses.map(|primitive| primitive(address)));
        let lengths = self.lengths.iter().flat_map(|&len| of_lengths.map(|primitive| primitive(len)));
        let fields = self.fields.iter().copied().map(fields::primitive);
        alone.into_iter().chain(ids).chain(types).chain(addresses).chain(lengths).chain(fields).collect()
    }
}

/// Primitives about a packet: those of its own tags, ether types, addresses and lengths, and a few others.
pub fn primitives(packet: &Captured) -> Vec<Primitive> {
    Pool::of(packet).primitives()
}

fn expression_of(primitives: Vec<Primitive>) -> impl Strategy<Value = Expression> {
    select(primitives).prop_map(Expression::Test).prop_recursive(5, 24, 2, |inner| {
        let join = (select(vec![Operator::And, Operator::Or]), inner.clone(), inner.clone());
        prop_oneof![
            1 => inner.prop_map(|inner| Expression::Not(Box::new(inner))),
            3 => join.prop_map(|(operator, left, right)| Expression::Join(operator, Box::new(left), Box::new(right))),
        ]
    })
}

/// A packet and an expression about it.
pub fn questions() -> impl Strategy<Value = (Captured, Expression)> {
    captured().prop_flat_map(|packet| {
        let expression = expression_of(primitives(&packet));
        (Just(packet), expression)
    })
}

/// Choices among the ways to write an expression.
#[derive(Clone, Debug)]
pub struct Style {
    choices: Vec<u8>,
    made: usize,
}

pub fn style() -> impl Strategy<Value = Style> {
    vec(any::<u8>(), 16).prop_map(|choices| Style { choices, made: 0 })
}

impl Style {
    fn choose<T: Clone>(&mut self, among: &[T]) -> T {
        let choice = self.choices[self.made % self.choices.len()].wrapping_add((self.made / 16) as u8);
        self.made += 1;
        among[usize::from(choice) % among.len()].clone()
    }

    fn number(&mut self, number: u64) -> String {
        self.choose(&[format!("{number}"), format!("0x{number:x}"), format!("0x{number:04X}")])
    }

    fn address(&mut self, address: u64) -> String {
        let plain = format!("{address:012x}");
        let pairs: Vec<&str> = (0..6).map(|i| &plain[2 * i..2 * i + 2]).collect();
        self.choose(&[plain.to_uppercase(), pairs.join(":"), plain.clone()])
    }

    /// A value of a field: a number, or bytes.
    fn value(&mut self, len: u8, value: u64) -> String {
        let bytes: Vec<String> = value.to_be_bytes().iter().map(|byte| format!("{byte:02x}")).collect();
        match len {
            0 | 1 => self.number(value),
            4 => {
                let [.., a, b, c, d] = value.to_be_bytes();
                self.choose(&[format!("{a}.{b}.{c}.{d}"), bytes[4..].join(":")])
            }
            _ => bytes[8 - usize::from(len)..].join(":"),
        }
    }

    /// The words of a test of a field.
    fn field(&mut self, test: &FieldTest) -> String {
        let name = fields::numbered(test.field).map_or("", |column| column.name);
        let slice = if test.count > 0 { format!("[{}:{}]", test.first, test.count) } else { String::new() };
        let mask = if test.mask < u64::MAX { format!(" & {}", self.value(test.len, test.mask)) } else { String::new() };
        let relation = match test.relation {
            Relation::Exists => return format!("{name}{slice}"),
            Relation::Equal => "==",
            Relation::NotEqual => "!=",
            Relation::Less => "<",
            Relation::AtMost => "<=",
            Relation::Greater => ">",
            Relation::AtLeast => ">=",
        };
        let value = self.value(test.len, test.value);
        let blank = self.choose(&["", " "]);
        format!("{name}{slice}{mask}{blank}{relation}{blank}{value}")
    }

    /// The words of a primitive.
    fn primitive(&mut self, primitive: Primitive) -> String {
        match primitive {
            Primitive::Vlan => self.choose(&["vlan", "vlan.vid"]).into(),
            Primitive::VlanId(id) => format!("{} {}", self.choose(&["vlan", "vlan.vid =="]), self.number(id.into())),
            Primitive::OuterVlan(id) => format!("outer vlan {}", self.number(id.into())),
            Primitive::InnerVlan(id) => format!("inner vlan {}", self.number(id.into())),
            Primitive::Macsec => "macsec".into(),
            Primitive::EtherType(0x0806) => self.choose(&["arp", "ether proto 0x0806"]).into(),
            Primitive::EtherType(0x0800) => self.choose(&["ip", "ether proto 2048"]).into(),
            Primitive::EtherType(0x86DD) => self.choose(&["ip6", "ether proto 0x86dd"]).into(),
            Primitive::EtherType(number) => format!("ether proto {}", self.number(number.into())),
            Primitive::Source(address) => {
                format!("{} {}", self.choose(&["ether src", "eth.src =="]), self.address(address))
            }
            Primitive::Destination(address) => {
                format!("{} {}", self.choose(&["ether dst", "eth.dst =="]), self.address(address))
            }
            Primitive::Host(address) => format!("ether host {}", self.address(address)),
            Primitive::Broadcast => "ether broadcast".into(),
            Primitive::Multicast => "ether multicast".into(),
            Primitive::Refused => "refused".into(),
            Primitive::Cut => "cut".into(),
            Primitive::Less(len) => format!("less {}", self.number(len.into())),
            Primitive::Greater(len) => format!("greater {}", self.number(len.into())),
            Primitive::Field(test) | Primitive::Frame(test) => self.field(&test),
        }
    }

    fn grouped(&mut self, text: &str) -> String {
        let blank = self.choose(&["", " ", "\t"]);
        format!("({blank}{text}{blank})")
    }

    /// The text of an expression where it is an operand: a chain is in parentheses, and others may be.
    fn operand(&mut self, expression: &Expression) -> String {
        let text = self.text(expression);
        let must = matches!(expression, Expression::Join(..));
        if must || self.choose(&[false, false, false, true]) { self.grouped(&text) } else { text }
    }

    /// The text of an expression.
    pub fn text(&mut self, expression: &Expression) -> String {
        match expression {
            Expression::Test(primitive) => self.primitive(*primitive),
            Expression::Not(inner) => {
                let not = self.choose(&["!", "not ", "! "]);
                format!("{not}{}", self.operand(inner))
            }
            Expression::Join(operator, left, right) => {
                let goes_on = matches!(&**left, Expression::Join(other, ..) if other == operator);
                let left = if goes_on { self.text(left) } else { self.operand(left) };
                let right = self.operand(right);
                let words = if *operator == Operator::And { [" and ", "&&", "\n&& "] } else { [" or ", "||", " ||\r"] };
                format!("{left}{}{right}", self.choose(&words))
            }
        }
    }
}

/// Words of expressions, and some that no expression has.
const WORDS: [&str; 73] = [
    "==",
    "!=",
    "<",
    "<=",
    ">=",
    "&",
    "in",
    "{",
    "}",
    ",",
    "{1,2}",
    "vlan.vid",
    "vlan.vid==5",
    "eth.src[0:3]",
    "eth.src[4:3]",
    "arp.spa",
    "macsec.sci",
    "arp.op",
    "10.0.0.1",
    "10.0.0.256",
    "02:00:00",
    "1:2",
    "0x1ffffffffffffffff",
    "vlan.start",
    "(",
    ")",
    "not",
    "!",
    "and",
    "&&",
    "or",
    "||",
    "vlan",
    "outer",
    "inner",
    "macsec",
    "arp",
    "ip",
    "ip6",
    "ether",
    "proto",
    "src",
    "dst",
    "host",
    "broadcast",
    "multicast",
    "refused",
    "cut",
    "less",
    "greater",
    "5",
    "0",
    "4095",
    "4096",
    "65535",
    "65536",
    "4294967295",
    "4294967296",
    "0x10",
    "0xFFF",
    "0x",
    "07",
    "0X1",
    "&",
    "|||",
    "tcp",
    "VLAN",
    "02:00:00:00:00:01",
    "0200000000Fe",
    "123456789012",
    "2:0:0:0:0:1",
    "02-00-00-00-00-01",
    "vlan5",
];

/// Texts of words in any order, which are mostly refused somewhere in the middle.
pub fn word_text() -> impl Strategy<Value = Vec<u8>> {
    let starts = [
        "vlan 5 and",
        "not (arp or",
        "ether",
        "ether src",
        "outer",
        "",
        "(vlan",
        "less",
        "vlan or ip and",
        "(",
        "vlan.vid",
        "arp.op in {1,",
        "eth.src ==",
        "arp.spa & 10.0.0.0",
        "vlan.vid &",
    ];
    let words = vec(select(WORDS.to_vec()), 0..7);
    (select(starts.to_vec()), words).prop_map(|(start, words)| format!("{start} {}", words.join(" ")).into_bytes())
}

/// Texts of an expression in which a word is put in, taken out or replaced.
pub fn changed_text() -> impl Strategy<Value = Vec<u8>> {
    let changes = (any::<usize>(), 0..3u8, select(WORDS.to_vec()));
    (questions(), style(), changes).prop_map(|((_, expression), mut style, (place, change, word))| {
        let text = style.text(&expression);
        let mut words: Vec<&str> = text.split(' ').collect();
        let place = place % words.len();
        match change {
            0 => words.insert(place, word),
            1 => words[place] = word,
            _ => drop(words.remove(place)),
        }
        words.join(" ").into_bytes()
    })
}

/// Texts of any characters of words.
pub fn letter_text() -> impl Strategy<Value = Vec<u8>> {
    prop_oneof![vec(select(b"vlan 5()!&|\t\nip60x:=<>{},.vid[]".to_vec()), 0..20), vec(any::<u8>(), 0..12)]
}

/// Texts of about as many words as an expression may have.
pub fn long_text() -> impl Strategy<Value = Vec<u8>> {
    let units = select(vec!["not ", "vlan and ", "(", "vlan 5 or ", "!(", "arp && "]);
    let ends = select(vec!["vlan", "vlan 5", "", ")", "vlan)", "cut and", "vlan 5000", "5"]);
    (units, 60..200usize, ends, 0..130usize, 0..3usize).prop_map(|(unit, count, end, closings, spare)| {
        let words = unit.split_whitespace().count().max(1);
        let count = if spare == 0 { count } else { 192 / words + 2 - spare };
        [unit.repeat(count), end.into(), ")".repeat(closings)].concat().into_bytes()
    })
}

/// Words that look like numbers.
pub fn numeral() -> impl Strategy<Value = Vec<u8>> {
    let digits = vec(select(b"0123456789abcdefABCDEFxX".to_vec()), 0..14);
    let near = (4294967290u64..4294967300).prop_map(|number| number.to_string().into_bytes());
    let decimal = any::<u64>().prop_map(|number| number.to_string().into_bytes());
    let hexadecimal =
        (any::<u64>(), 0..64u32).prop_map(|(number, less)| format!("0x{:X}", number >> less).into_bytes());
    prop_oneof![digits, near, decimal, hexadecimal, select(WORDS.to_vec()).prop_map(|word| word.as_bytes().to_vec())]
}
