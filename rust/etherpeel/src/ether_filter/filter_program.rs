//! Runs the instructions of a filter on packets: for filters that are kept in memory of the caller.

use crate::ether_filter::certain::{Certain, decide_test, find_certain};
use crate::ether_filter::deciding::{Opening, find_opening, joined_decision, negated_decision};
use crate::ether_filter::decision::Decision;
use crate::ether_filter::filter::MAX_WORDS;
use crate::ether_filter::instruction::Instruction;
use crate::ether_filter::jumps::{HOLDS, jumps_of, past_tags};
use crate::ether_filter::matching::{matches_capture, matches_instruction};
use crate::ether_filter::node::Node;
use crate::ether_filter::packet::Packet;
use crate::ether_filter::seen::{Seen, Tags, look, tags_seen};
use crate::ether_filter::tag_marks::WORDS;
use arrayvec::ArrayVec;

/// Returns `true` if a packet matches the filter of these instructions, as [`Filter::matches`](crate::ether_filter::Filter::matches)
/// says.
///
/// If the instructions are not those of a filter, nothing is claimed of the result.
///
/// ```
/// use etherpeel::ether_peel::Start;
/// use etherpeel::ether_filter::{Filter, Packet, filter_program};
///
/// # fn main() -> Result<(), Box<dyn std::error::Error>> {
/// let frame = [
///     0xFF, 0xFF, 0xFF, 0xFF, 0xFF, 0xFF, 0x02, 0x00, 0x00, 0x00, 0x00, 0x01, 0x81, 0x00, // Ethernet II
///     0x00, 0x05, 0x08, 0x06, // VLAN
/// ];
/// let packet = Packet {
///     start: Start::Ethernet2,
///     frame: &frame,
///     captured_len: 18,
///     original_len: 64,
///     time: None,
/// };
/// let filter = Filter::parse(b"vlan 5 and not ip")?;
/// assert!(filter_program::matches(filter.instructions(), &packet));
/// # Ok(())
/// # }
/// ```
///
/// <details><summary>Contract</summary>
///
/// ```text
/// ensures { (x : Expression) → IsProgramOf instructions.now x → (hs : List Header) (e : Ending)
///     → Walk (start_of packet.now.start) packet.now.frame.now hs e → IsTrue result
///     ↔ Holds x (walked packet.now hs e) }
/// ```
///
/// Words: [`Expression`](crate::definitions::ether_filter#def.Expression),
/// [`IsProgramOf`](crate::definitions::ether_filter#def.IsProgramOf),
/// [`Header`](crate::definitions::ether_base#def.Header), [`Ending`](crate::definitions::ether_peel#def.Ending),
/// [`Walk`](crate::definitions::ether_peel#def.Walk), [`start_of`](crate::definitions::ether_peel#def.start_of),
/// [`Holds`](crate::definitions::ether_filter#def.Holds),
/// [`walked`](crate::definitions::ether_filter#def.walked). [Notation](crate::definitions::notation)
///
/// </details>
#[must_use]
#[inline(always)]
pub fn matches(instructions: &[Instruction], packet: &Packet<'_>) -> bool {
    if let Some(matches) = matches_by_lengths(instructions, packet) {
        return matches;
    }
    let mut ids = [];
    let mut seen = Seen::new();
    look(packet.start, packet.frame, &mut seen, &mut ids);
    if seen.has_more {
        return matches_by_ids(instructions, *packet);
    }
    matches_seen(instructions, packet, &seen, &ids)
}

/// Whether a packet matches, if what the capture says of it decides this.
#[inline(always)]
fn matches_by_lengths(instructions: &[Instruction], packet: &Packet<'_>) -> Option<bool> {
    let [first, ..] = instructions else {
        return None;
    };
    matches_capture(first, packet)?;
    jumps_by_lengths(instructions, *packet)
}

/// .. by the primitives from left to right, up to the first one that asks about headers.
#[inline(never)]
fn jumps_by_lengths(instructions: &[Instruction], packet: Packet<'_>) -> Option<bool> {
    let mut at = 0;
    while at < instructions.len() {
        let instruction = &instructions[at];
        let next = instruction
            .jump
            .after(matches_capture(instruction, &packet)?);
        if next <= at {
            return None; // not reached: each jump leads forward
        }
        at = past_more(instructions, next, packet.original_len);
    }
    Some(at == usize::from(HOLDS))
}

/// Where the evaluation goes on from the index `begin`, past primitives that ask for more bytes than these.
#[inline]
fn past_more(instructions: &[Instruction], begin: usize, len: u32) -> usize {
    let mut at = begin;
    while at < instructions.len() && instructions[at].asks_more(len) {
        let next = instructions[at].jump.after(false);
        if next <= at {
            return at; // not reached: each jump leads forward
        }
        at = next;
    }
    at
}

/// Whether a packet matches, however many VLAN tags it has.
#[cold]
#[inline(never)]
fn matches_by_ids(instructions: &[Instruction], packet: Packet<'_>) -> bool {
    let mut ids = [0; WORDS];
    let mut seen = Seen::new();
    look(packet.start, packet.frame, &mut seen, &mut ids);
    matches_seen(instructions, &packet, &seen, &ids)
}

/// Whether a packet matches in which this was seen.
#[inline(always)]
fn matches_seen(instructions: &[Instruction], packet: &Packet<'_>, seen: &Seen, ids: &[u64]) -> bool {
    if let [instruction] = instructions {
        if let Some(matches) = matches_instruction(instruction, packet, seen, ids) {
            return matches;
        }
    }
    matches_by_jumps(instructions, packet, seen, ids)
}

/// .. by the primitives from left to right that decide this.
#[inline(always)]
fn matches_by_jumps(
    instructions: &[Instruction],
    packet: &Packet<'_>,
    seen: &Seen,
    ids: &[u64],
) -> bool {
    let mut at = 0;
    while at < instructions.len() {
        let instruction = &instructions[at];
        let Some(matches) = matches_instruction(instruction, packet, seen, ids) else {
            return false; // not reached: each jump leads to a primitive
        };
        let next = instruction.jump.after(matches);
        if next <= at {
            return false; // not reached: each jump leads forward
        }
        at = past_misses(instructions, next, seen, ids);
    }
    at == usize::from(HOLDS)
}

/// Where the evaluation goes on from the index `begin`, past primitives that the VLAN tags that were seen don't match.
#[inline]
fn past_misses(instructions: &[Instruction], begin: usize, seen: &Seen, ids: &[u64]) -> usize {
    match tags_seen(seen) {
        Tags::Untagged => past_all(instructions, begin),
        Tags::One(id) => past_others(instructions, begin, id),
        Tags::Many => past_unseen(instructions, begin, seen, ids),
    }
}

/// .. past primitives that ask for VLAN tags, if there are none.
#[inline(never)]
fn past_all(instructions: &[Instruction], begin: usize) -> usize {
    let mut at = begin;
    while at < instructions.len() && instructions[at].asks_tags() {
        let next = usize::from(instructions[at].past_tags);
        if next <= at {
            return at; // not reached: each jump leads forward
        }
        at = next;
    }
    at
}

/// .. past primitives that ask for another identifier than that of the only VLAN tag.
#[inline(never)]
fn past_others(instructions: &[Instruction], begin: usize, id: u16) -> usize {
    let mut at = begin;
    while at < instructions.len() && instructions[at].asks_other_id(id) {
        let next = instructions[at].jump.after(false);
        if next <= at {
            return at; // not reached: each jump leads forward
        }
        at = next;
    }
    at
}

/// .. past primitives that ask for an identifier that no VLAN tag has.
#[inline(never)]
fn past_unseen(instructions: &[Instruction], begin: usize, seen: &Seen, ids: &[u64]) -> usize {
    let seen = *seen;
    let mut at = begin;
    while at < instructions.len() && instructions[at].asks_unseen_id(&seen, ids) {
        let next = instructions[at].jump.after(false);
        if next <= at {
            return at; // not reached: each jump leads forward
        }
        at = next;
    }
    at
}

/// Decides whether a packet matches the filter of these instructions if some of its bytes may be missing, as
/// [`Filter::decide`](crate::ether_filter::Filter::decide) says.
///
/// If the instructions are not those of a filter, nothing is claimed of the result.
///
/// <details><summary>Contract</summary>
///
/// ```text
/// ensures says { (x : Expression) → IsProgramOf instructions.now x → (hs : List Header) (e : Ending)
///     → Walk (start_of packet.now.start) packet.now.frame.now hs e
///     → (d : Decision) → (result ≡ d) ↔ Says packet.now hs e x d }
/// ensures bytes { IsBytes packet.now.frame.now }
/// ```
///
/// Words: [`Expression`](crate::definitions::ether_filter#def.Expression),
/// [`IsProgramOf`](crate::definitions::ether_filter#def.IsProgramOf),
/// [`Header`](crate::definitions::ether_base#def.Header), [`Ending`](crate::definitions::ether_peel#def.Ending),
/// [`Walk`](crate::definitions::ether_peel#def.Walk), [`start_of`](crate::definitions::ether_peel#def.start_of),
/// [`Says`](crate::definitions::ether_filter#def.Says), [`IsBytes`](crate::definitions::ether_base#def.IsBytes).
/// [Notation](crate::definitions::notation)
///
/// </details>
#[must_use]
#[inline]
pub fn decide(instructions: &[Instruction], packet: &Packet<'_>) -> Decision {
    let mut ids = [];
    let mut seen = Seen::new();
    let certain = find_certain(packet, &mut seen, &mut ids);
    if seen.has_more {
        return decide_by_ids(instructions, *packet);
    }
    decide_all(instructions, packet, certain, &seen, &ids)
}

/// .. however many VLAN tags the packet has.
#[cold]
#[inline(never)]
fn decide_by_ids(instructions: &[Instruction], packet: Packet<'_>) -> Decision {
    let mut ids = [0; WORDS];
    let mut seen = Seen::new();
    let certain = find_certain(&packet, &mut seen, &mut ids);
    decide_all(instructions, &packet, certain, &seen, &ids)
}

/// .. if this is certain, and was seen in its certain headers.
#[inline]
fn decide_all(
    instructions: &[Instruction],
    packet: &Packet<'_>,
    certain: Certain<'_>,
    seen: &Seen,
    ids: &[u64],
) -> Decision {
    let opening = find_opening(packet);
    let mut values = ArrayVec::new();
    for instruction in instructions {
        if values.is_full() {
            return Decision::Fails; // not reached: a filter has at most as many instructions as there is room for
        }
        let Some(node) = instruction.node() else {
            return Decision::Fails; // not reached: each instruction has a node
        };
        decide_node(&mut values, node, packet, certain, seen, ids, opening);
    }
    values.pop().unwrap_or(Decision::Fails)
}

/// The instructions of an expression's nodes.
#[inline]
pub(in crate::ether_filter) fn instructions_of(nodes: &[Node]) -> ArrayVec<Instruction, MAX_WORDS> {
    let jumps = jumps_of(nodes);
    let past_tags = past_tags(nodes, &jumps);
    let mut instructions = ArrayVec::new();
    for (at, node) in nodes.iter().enumerate() {
        instructions.push(Instruction::of(*node, jumps[at], past_tags[at]));
    }
    instructions
}

/// Evaluates one postfix node: pops its operands' values and pushes its own.
#[inline]
fn decide_node(
    values: &mut ArrayVec<Decision, MAX_WORDS>,
    node: Node,
    packet: &Packet<'_>,
    certain: Certain<'_>,
    seen: &Seen,
    ids: &[u64],
    opening: Option<Opening>,
) {
    match node {
        Node::Test(primitive) => {
            values.push(decide_test(primitive, packet, certain, seen, ids, opening));
        }
        Node::Not => {
            if let Some(value) = values.pop() {
                values.push(negated_decision(value));
            }
        }
        Node::Join(operator) => {
            let right = values.pop();
            let left = values.pop();
            if let (Some(left), Some(right)) = (left, right) {
                values.push(joined_decision(operator, left, right));
            }
        }
    }
}
