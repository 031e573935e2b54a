//! Expressions of pcap-filter(7), and the packets that match them.
//!
//! Each primitive is about the whole packet: all headers of its walk, the end of the walk, and its two lengths. The
//! crate documents this; in pcap-filter(7) `vlan` changes where later words look.

use crate::completions;
use crate::fields;
use crate::frames::Frame;
use crate::walk::{Start, Walk};
use crate::wire::{Header, Layer, number};
use etherpeel::ether_filter::{Decision, FieldTest, Node, Operator, Packet, Primitive, Relation};

/// An expression as a tree.
#[derive(Clone, PartialEq, Eq, Debug)]
pub enum Expression {
    Test(Primitive),
    Not(Box<Expression>),
    Join(Operator, Box<Expression>, Box<Expression>),
}

/// A packet of a capture.
#[derive(Clone, Debug)]
pub struct Captured {
    pub frame: Frame,
    pub captured_len: usize,
    pub original_len: u32,
}

impl Captured {
    /// How many bytes of the packet were not captured.
    pub fn lost(&self) -> usize {
        (self.original_len as usize).saturating_sub(self.captured_len)
    }

    /// The packet with more bytes after its frame. `captured` of them count as captured.
    pub fn longer(&self, more: &[u8], captured: usize) -> Captured {
        let bytes = [self.frame.bytes.as_slice(), more].concat();
        let frame = Frame { bytes, ..self.frame };
        Captured { frame, captured_len: self.captured_len + captured, ..*self }
    }

    /// The packet as a value of the crate.
    pub fn packet(&self) -> Packet<'_> {
        Packet {
            start: crate::observed::start(self.frame.start),
            frame: &self.frame.bytes,
            captured_len: self.captured_len,
            original_len: self.original_len,
            time: None,
        }
    }

    pub fn walk(&self) -> Walk {
        Walk::of(self.frame.start, None, &self.frame.bytes)
    }
}

/// The identifiers of the VLAN tags, outermost first.
pub fn vlan_ids(walk: &Walk) -> Vec<u16> {
    let id = |header: &Header| match header {
        Header::Vlan(tag) => Some(tag.vid),
        _ => None,
    };
    walk.headers().filter_map(id).collect()
}

/// The ether types that are announced at the start and by the headers.
pub fn ether_types(start: Start, walk: &Walk) -> Vec<u16> {
    let first = match start {
        Start::EtherType(number) => Some(number),
        _ => None,
    };
    first.into_iter().chain(walk.units.iter().filter_map(|unit| unit.next.ether_type())).collect()
}

/// The destination and the source of the Ethernet header, if there is one.
pub fn addresses(walk: &Walk) -> Option<(u64, u64)> {
    match walk.headers().next() {
        Some(Header::Ethernet(header) | Header::EthernetFcs(header)) => {
            Some((number(&header.destination), number(&header.source)))
        }
        _ => None,
    }
}

/// Whether a primitive is true of a packet with this walk.
pub fn matches(primitive: Primitive, packet: &Captured, walk: &Walk) -> bool {
    let ids = vlan_ids(walk);
    let is_to = |test: &dyn Fn(u64) -> bool| addresses(walk).is_some_and(|(to, _)| test(to));
    let is_from = |address: u64| addresses(walk).is_some_and(|(_, from)| from == address);
    match primitive {
        Primitive::Vlan => !ids.is_empty(),
        Primitive::VlanId(id) => ids.contains(&id),
        Primitive::OuterVlan(id) => ids.first() == Some(&id),
        Primitive::InnerVlan(id) => ids.len() > 1 && ids.last() == Some(&id),
        Primitive::Macsec => walk.headers().any(|header| matches!(header, Header::SecTag(_))),
        Primitive::EtherType(number) => ether_types(packet.frame.start, walk).contains(&number),
        Primitive::Source(address) => is_from(address),
        Primitive::Destination(address) => is_to(&|to| to == address),
        Primitive::Host(address) => is_from(address) || is_to(&|to| to == address),
        Primitive::Broadcast => is_to(&|to| to == 0xFFFF_FFFF_FFFF),
        Primitive::Multicast => is_to(&|to| to >> 40 & 1 == 1), // the group bit (IEEE 802.3, 3.2.3)
        Primitive::Refused => walk.breach.is_some(),
        Primitive::Cut => packet.captured_len < packet.original_len as usize,
        Primitive::Less(len) => packet.original_len <= len,
        Primitive::Greater(len) => packet.original_len >= len,
        Primitive::Field(test) => fields::matches(&test, walk),
        Primitive::Frame(test) if test.field == fields::CAPTURED => {
            fields::matches_number(&test, packet.captured_len as u64)
        }
        Primitive::Frame(test) => fields::matches_number(&test, packet.original_len.into()),
    }
}

/// The length of the frame with which the packet might have further headers, and the layer of the header that is cut.
/// Only the whole frame shows where its check sequence is.
fn opening(packet: &Captured, walk: &Walk) -> Option<(Option<Layer>, usize)> {
    let whole = packet.frame.bytes.len() + packet.lost();
    if packet.lost() == 0 {
        return None;
    }
    if packet.frame.start == Start::EthernetFcs {
        return Some((None, whole));
    }
    let (layer, named) = walk.demand()?;
    (named <= whole).then_some((Some(layer), named))
}

/// Whether headers from this one on can make a test of a field true or false. Fields up to 3 are of an Ethernet header.
fn can_tell(layer: Layer, test: &FieldTest) -> bool {
    layer == Layer::Ethernet || test.field > 3
}

/// What is known of a test of a field if bytes are missing.
fn known_field(test: &FieldTest, packet: &Captured, walk: &Walk) -> Option<bool> {
    let holds = fields::matches(test, walk);
    let truth = Some(holds);
    match opening(packet, walk) {
        None => truth,
        Some((None, _)) => None,
        Some((Some(layer), _)) if can_tell(layer, test) && !(holds && test.relation != Relation::NotEqual) => None,
        Some(_) => truth,
    }
}

/// The decision on a primitive. It needs bytes if some completed packet matches and some does not.
fn decision_on(primitive: Primitive, packet: &Captured, walk: &Walk) -> Decision {
    let of_lengths =
        matches!(primitive, Primitive::Cut | Primitive::Less(_) | Primitive::Greater(_) | Primitive::Frame(_));
    let value = match primitive {
        Primitive::Field(test) => known_field(&test, packet, walk),
        _ if of_lengths => Some(matches(primitive, packet, walk)),
        _ => completions::known(packet, primitive),
    };
    match (value, primitive) {
        (Some(true), _) => Decision::Matches,
        (Some(false), _) => Decision::Fails,
        (None, Primitive::Field(_)) => Decision::Needs(opening(packet, walk).expect("a header can follow").1),
        (None, _) => Decision::Needs(completions::needed(packet, primitive)),
    }
}

impl Expression {
    /// Whether the expression holds of the captured bytes.
    pub fn holds(&self, packet: &Captured) -> bool {
        match self {
            Expression::Test(primitive) => matches(*primitive, packet, &packet.walk()),
            Expression::Not(inner) => !inner.holds(packet),
            Expression::Join(Operator::And, left, right) => left.holds(packet) && right.holds(packet),
            Expression::Join(Operator::Or, left, right) => left.holds(packet) || right.holds(packet),
        }
    }

    /// The decision on a packet that may lack bytes: `and` is the least and `or` the greatest of false, unknown, true
    /// (Kleene, "Introduction to Metamathematics", section 64). Of what unknown operands need it is the least.
    pub fn decision(&self, packet: &Captured) -> Decision {
        self.decision_by(packet, &packet.walk())
    }

    fn decision_by(&self, packet: &Captured, walk: &Walk) -> Decision {
        let rank = |decision: Decision| match decision {
            Decision::Fails => (0, 0),
            Decision::Needs(needed) => (1, needed),
            Decision::Matches => (2, 0),
        };
        match self {
            Expression::Test(primitive) => decision_on(*primitive, packet, walk),
            Expression::Not(inner) => match inner.decision_by(packet, walk) {
                Decision::Matches => Decision::Fails,
                Decision::Fails => Decision::Matches,
                needs => needs,
            },
            Expression::Join(operator, left, right) => {
                let both = [left.decision_by(packet, walk), right.decision_by(packet, walk)];
                let least = both.into_iter().min_by_key(|&it| rank(it));
                let greatest = both.into_iter().max_by_key(|&it| (rank(it).0, usize::MAX - rank(it).1));
                if *operator == Operator::And { least } else { greatest }.expect("one of two")
            }
        }
    }

    /// Whether the expression asks for the captured length, which is another number if more bytes are captured.
    pub fn asks_captured(&self) -> bool {
        match self {
            Expression::Test(primitive) => {
                matches!(primitive, Primitive::Frame(test) if test.field == fields::CAPTURED)
            }
            Expression::Not(inner) => inner.asks_captured(),
            Expression::Join(_, left, right) => left.asks_captured() || right.asks_captured(),
        }
    }

    /// The nodes of the expression: each operator follows its operands.
    pub fn postfix(&self) -> Vec<Node> {
        match self {
            Expression::Test(primitive) => vec![Node::Test(*primitive)],
            Expression::Not(inner) => [inner.postfix(), vec![Node::Not]].concat(),
            Expression::Join(operator, left, right) => {
                [left.postfix(), right.postfix(), vec![Node::Join(*operator)]].concat()
            }
        }
    }
}
