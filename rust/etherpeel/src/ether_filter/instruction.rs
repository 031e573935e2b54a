//! The instructions of a filter, which consist of numbers only.

use crate::ether_filter::field_test::{FieldTest, Relation};
use crate::ether_filter::jumps::Jump;
use crate::ether_filter::node::{Node, Operator};
use crate::ether_filter::primitive::Primitive;
use crate::ether_filter::seen::{Seen, is_vlan_id};

/// An instruction of a filter: a node of its expression, and where the evaluation goes on after it.
///
/// It consists of numbers only, so a filter can be kept in any memory.
/// [`Filter::instructions`](crate::ether_filter::Filter::instructions) returns the instructions of a filter, and the module
/// [`filter_program`](crate::ether_filter::filter_program) runs them on packets. Each bit pattern is a value. What the numbers mean
/// may change with the version.
#[repr(C)]
#[derive(Clone, Copy, PartialEq, Eq, Hash, Debug, Default)]
pub struct Instruction {
    /// The number or the address in a primitive.
    pub(in crate::ether_filter) operand: u64,
    /// The mask of a test of a field.
    mask: u64,
    /// The number of the node's kind.
    pub(in crate::ether_filter) kind: u8,
    /// The number of a tested field.
    field: u8,
    /// The offset in bytes of the tested part of a field.
    first: u8,
    /// The number of bytes in that part, or 0 for all.
    count: u8,
    /// The number of bytes that a field is compared with.
    len: u8,
    pub(in crate::ether_filter) jump: Jump,
    /// The index at which the evaluation goes on if the packet has no VLAN tags.
    pub(in crate::ether_filter) past_tags: u8,
}

impl Instruction {
    /// The instruction of a node.
    #[inline]
    pub(in crate::ether_filter) fn of(node: Node, jump: Jump, past_tags: u8) -> Instruction {
        let node = match node {
            Node::Test(primitive) => of_primitive(primitive),
            Node::Not => plain(15, 0),
            Node::Join(Operator::And) => plain(16, 0),
            Node::Join(Operator::Or) => plain(17, 0),
        };
        Instruction {
            jump,
            past_tags,
            ..node
        }
    }

    /// The primitive that the instruction tests, unless it tests a field; `None` for an operator.
    #[inline]
    fn plain_primitive(&self) -> Option<Primitive> {
        let operand = self.operand;
        Some(match self.kind {
            0 => Primitive::Vlan,
            1 => Primitive::VlanId((operand % (1 << 16)) as u16),
            2 => Primitive::OuterVlan((operand % (1 << 16)) as u16),
            3 => Primitive::InnerVlan((operand % (1 << 16)) as u16),
            4 => Primitive::Macsec,
            5 => Primitive::EtherType((operand % (1 << 16)) as u16),
            6 => Primitive::Source(operand),
            7 => Primitive::Destination(operand),
            8 => Primitive::Host(operand),
            9 => Primitive::Broadcast,
            10 => Primitive::Multicast,
            11 => Primitive::Refused,
            12 => Primitive::Cut,
            13 => Primitive::Less((operand % (1 << 32)) as u32),
            14 => Primitive::Greater((operand % (1 << 32)) as u32),
            _ => return None,
        })
    }

    /// The test of a field.
    #[inline(always)]
    pub(in crate::ether_filter) fn field_test(&self) -> Option<FieldTest> {
        match relation(self.kind) {
            Some(relation) => Some(self.field_test_with(relation)),
            None => None,
        }
    }

    /// The test of what the capture says of a packet.
    #[inline(always)]
    pub(in crate::ether_filter) fn frame_test(&self) -> Option<FieldTest> {
        match frame_relation(self.kind) {
            Some(relation) => Some(self.field_test_with(relation)),
            None => None,
        }
    }

    /// .. as a primitive.
    #[inline]
    fn frame_primitive(&self) -> Option<Primitive> {
        match frame_relation(self.kind) {
            Some(relation) => Some(Primitive::Frame(self.field_test_with(relation))),
            None => None,
        }
    }

    /// The primitive that the instruction tests; `None` for an operator.
    #[inline]
    pub(in crate::ether_filter) fn primitive(&self) -> Option<Primitive> {
        match self.plain_primitive() {
            Some(primitive) => Some(primitive),
            None => match self.field_test() {
                Some(test) => Some(Primitive::Field(test)),
                None => self.frame_primitive(),
            },
        }
    }

    /// The test of a field with this relation.
    #[inline]
    fn field_test_with(&self, relation: Relation) -> FieldTest {
        FieldTest {
            field: self.field,
            first: self.first,
            count: self.count,
            relation,
            mask: self.mask,
            len: self.len,
            value: self.operand,
        }
    }

    /// Whether it tests for VLAN tags.
    #[inline(always)]
    pub(in crate::ether_filter) fn asks_tags(&self) -> bool {
        self.kind < 4
    }

    /// Whether it tests for a VLAN tag with another identifier than this.
    #[inline(always)]
    pub(in crate::ether_filter) fn asks_other_id(&self, id: u16) -> bool {
        self.kind == 1 && (self.operand % (1 << 16)) as u16 != id
    }

    /// Whether it tests for a VLAN tag with an identifier that was not seen.
    #[inline(always)]
    pub(in crate::ether_filter) fn asks_unseen_id(&self, seen: &Seen, ids: &[u64]) -> bool {
        self.kind == 1 && !is_vlan_id((self.operand % (1 << 16)) as u16, seen, ids)
    }

    /// Whether it tests for more bytes than these.
    #[inline(always)]
    pub(in crate::ether_filter) fn asks_more(&self, len: u32) -> bool {
        self.kind == 14 && (self.operand % (1 << 32)) as u32 > len
    }

    /// The node of the expression. Each instruction that a filter returns has one.
    ///
    /// <details><summary>Contract</summary>
    ///
    /// ```text
    /// ensures { result ≡ node_of self.now }
    /// ```
    ///
    /// Words: [`node_of`](crate::definitions::ether_filter#def.node_of). [Notation](crate::definitions::notation)
    ///
    /// </details>
    #[must_use]
    #[inline]
    pub fn node(&self) -> Option<Node> {
        match self.primitive() {
            Some(primitive) => Some(Node::Test(primitive)),
            None => operator(self.kind),
        }
    }
}

/// The instruction of a node that tests no field, without its jumps.
#[inline]
fn plain(kind: u8, operand: u64) -> Instruction {
    Instruction {
        operand,
        kind,
        ..Instruction::default()
    }
}

/// The instruction of a primitive, without its jumps.
#[inline]
pub(in crate::ether_filter) fn of_primitive(primitive: Primitive) -> Instruction {
    match primitive {
        Primitive::Vlan => plain(0, 0),
        Primitive::VlanId(id) => plain(1, u64::from(id)),
        Primitive::OuterVlan(id) => plain(2, u64::from(id)),
        Primitive::InnerVlan(id) => plain(3, u64::from(id)),
        Primitive::Macsec => plain(4, 0),
        Primitive::EtherType(number) => plain(5, u64::from(number)),
        Primitive::Source(address) => plain(6, address),
        Primitive::Destination(address) => plain(7, address),
        Primitive::Host(address) => plain(8, address),
        Primitive::Broadcast => plain(9, 0),
        Primitive::Multicast => plain(10, 0),
        Primitive::Refused => plain(11, 0),
        Primitive::Cut => plain(12, 0),
        Primitive::Less(len) => plain(13, u64::from(len)),
        Primitive::Greater(len) => plain(14, u64::from(len)),
        Primitive::Field(test) => of_field_test(test),
        Primitive::Frame(test) => of_frame_test(test),
    }
}

/// .. of a test of a field.
#[inline]
fn of_field_test(test: FieldTest) -> Instruction {
    of_test(relation_number(test.relation), test)
}

/// .. of a test of what the capture says of a packet.
#[inline]
fn of_frame_test(test: FieldTest) -> Instruction {
    of_test(frame_relation_number(test.relation), test)
}

/// .. of a test with this kind.
#[inline]
fn of_test(kind: u8, test: FieldTest) -> Instruction {
    Instruction {
        operand: test.value,
        mask: test.mask,
        kind,
        field: test.field,
        first: test.first,
        count: test.count,
        len: test.len,
        ..Instruction::default()
    }
}

/// The number of the kind of a test with this relation.
#[inline]
fn relation_number(relation: Relation) -> u8 {
    match relation {
        Relation::Exists => 18,
        Relation::Equal => 19,
        Relation::NotEqual => 20,
        Relation::Less => 21,
        Relation::AtMost => 22,
        Relation::Greater => 23,
        Relation::AtLeast => 24,
    }
}

/// .. if it tests what the capture says of a packet.
#[inline]
fn frame_relation_number(relation: Relation) -> u8 {
    match relation {
        Relation::Exists => 25,
        Relation::Equal => 26,
        Relation::NotEqual => 27,
        Relation::Less => 28,
        Relation::AtMost => 29,
        Relation::Greater => 30,
        Relation::AtLeast => 31,
    }
}

/// The kinds that ask about headers by a word have numbers below this one.
pub(in crate::ether_filter) const LENGTH_KINDS: u8 = 12;

/// The kinds of tests of what the capture says of a packet have numbers from this one on.
pub(in crate::ether_filter) const FRAME_KINDS: u8 = 25;

/// The relation of the tests of what the capture says of a packet whose kind has this number.
#[inline(always)]
fn frame_relation(kind: u8) -> Option<Relation> {
    relation(kind.saturating_sub(7))
}

/// The relation of the tests whose kind has this number.
#[inline]
fn relation(kind: u8) -> Option<Relation> {
    match kind {
        18 => Some(Relation::Exists),
        19 => Some(Relation::Equal),
        20 => Some(Relation::NotEqual),
        21 => Some(Relation::Less),
        22 => Some(Relation::AtMost),
        23 => Some(Relation::Greater),
        24 => Some(Relation::AtLeast),
        _ => None,
    }
}

/// The operator whose kind has this number.
#[inline]
fn operator(kind: u8) -> Option<Node> {
    match kind {
        15 => Some(Node::Not),
        16 => Some(Node::Join(Operator::And)),
        17 => Some(Node::Join(Operator::Or)),
        _ => None,
    }
}
