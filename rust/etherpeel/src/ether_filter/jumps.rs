//! Where the evaluation of an expression goes on after each primitive.

use crate::ether_filter::filter::MAX_WORDS;
use crate::ether_filter::node::{Node, Operator};
use crate::ether_filter::primitive::Primitive;

/// The end of an evaluation: the expression holds.
pub(in crate::ether_filter) const HOLDS: u8 = 255;

/// The end of an evaluation: the expression does not hold.
const FAILS: u8 = 254;

/// Where the evaluation goes on after a primitive: the index of a node, or an end.
#[repr(C)]
#[derive(Clone, Copy, PartialEq, Eq, Hash, Debug, Default)]
pub struct Jump {
    if_true: u8,
    if_false: u8,
}

impl Jump {
    /// Where it goes on if the primitive matches, or if it does not.
    #[inline]
    pub(in crate::ether_filter) fn after(self, matches: bool) -> usize {
        usize::from(if matches { self.if_true } else { self.if_false })
    }
}

/// The jumps after the primitives of an expression, each at the index of its node.
#[inline]
pub(in crate::ether_filter) fn jumps_of(nodes: &[Node]) -> [Jump; MAX_WORDS] {
    let jump = Jump {
        if_true: HOLDS,
        if_false: FAILS,
    };
    let mut jumps = [jump; MAX_WORDS];
    fill(&mut jumps, nodes, nodes.len(), jump);
    jumps
}

/// Where the evaluation of a packet without VLAN tags goes on after each primitive that asks for VLAN tags: past all
/// those that directly follow it.
#[inline]
pub(in crate::ether_filter) fn past_tags(nodes: &[Node], jumps: &[Jump; MAX_WORDS]) -> [u8; MAX_WORDS] {
    let mut past = [0; MAX_WORDS];
    let mut at = nodes.len();
    while at > 0 {
        at -= 1;
        past[at] = past_next(nodes, &past, at, jumps[at].if_false);
    }
    past
}

/// .. after the primitive at the index `at`, if it does not match and goes on at `next`.
#[inline]
fn past_next(nodes: &[Node], past: &[u8; MAX_WORDS], at: usize, next: u8) -> u8 {
    let index = usize::from(next);
    if at < index && index < nodes.len() && asks_tags(nodes[index]) {
        return past[index];
    }
    next
}

/// Whether a node asks for VLAN tags.
#[inline]
fn asks_tags(node: Node) -> bool {
    match node {
        Node::Test(primitive) => is_of_tags(&primitive),
        _ => false,
    }
}

/// Whether a primitive asks for VLAN tags.
#[inline]
pub(in crate::ether_filter) fn is_of_tags(primitive: &Primitive) -> bool {
    matches!(
        primitive,
        Primitive::Vlan | Primitive::VlanId(_) | Primitive::OuterVlan(_) | Primitive::InnerVlan(_)
    )
}

/// Fills in the jumps of the expression whose nodes end before the index `end`, and returns the index at which they
/// begin.
#[inline]
fn fill(jumps: &mut [Jump; MAX_WORDS], nodes: &[Node], end: usize, jump: Jump) -> usize {
    if end == 0 {
        return 0;
    }
    let last = end - 1;
    match nodes[last] {
        Node::Test(_) => {
            jumps[last] = jump;
            last
        }
        Node::Not => fill(jumps, nodes, last, negated(jump)),
        Node::Join(operator) => {
            let middle = fill(jumps, nodes, last, jump);
            fill(jumps, nodes, middle, before(operator, middle as u8, jump))
        }
    }
}

/// The jump of the operand of a `not` that has this jump.
#[inline]
fn negated(jump: Jump) -> Jump {
    Jump {
        if_true: jump.if_false,
        if_false: jump.if_true,
    }
}

/// The jump of a left operand, if the right one begins at `right` and both together have this jump.
#[inline]
fn before(operator: Operator, right: u8, jump: Jump) -> Jump {
    match operator {
        Operator::And => Jump {
            if_true: right,
            ..jump
        },
        Operator::Or => Jump {
            if_false: right,
            ..jump
        },
    }
}
