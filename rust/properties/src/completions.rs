//! What the missing bytes of a packet can be: one choice of them for each difference that a primitive can see.
//!
//! The walk through a completed packet is the model's own. Only the bytes are chosen here: of each header that is not
//! all there the values that a primitive asks for and others, each ether type that announces a header, and what makes
//! headers refused.

use crate::filter::{Captured, matches};
use crate::walk::{Next, Walk, Window};
use crate::wire::Kind;
use etherpeel::ether_filter::Primitive;
use std::collections::BTreeSet;

/// Further bytes change nothing: two ARP addresses of 255 bytes each fit in less (RFC 826).
const MOST: usize = 1100;

/// No primitive asks about more headers after the captured bytes.
const DEPTH: usize = 3;

/// What headers are completed with.
struct Choices {
    ids: Vec<u16>,
    addresses: Vec<u64>,
    /// The ether types after a header of which some bytes are there, and after a later one.
    types: Vec<u16>,
    later_types: Vec<u16>,
}

/// The ether types with these first and second bytes.
fn types(firsts: &[u8], seconds: &[u8]) -> Vec<u16> {
    firsts.iter().flat_map(|&first| seconds.iter().map(move |&second| u16::from_be_bytes([first, second]))).collect()
}

/// An address, and those that differ from it in one byte.
fn near(address: u64) -> Vec<u64> {
    let others = (0..6).map(|byte| address ^ 1 << (8 * byte));
    [address].into_iter().chain(others).collect()
}

impl Choices {
    fn of(primitive: Primitive) -> Choices {
        let mut choices = Choices { ids: vec![6], addresses: vec![2], types: vec![], later_types: vec![] };
        let mut number = 0x0101; // announces nothing
        match primitive {
            Primitive::VlanId(id) | Primitive::OuterVlan(id) | Primitive::InnerVlan(id) => {
                choices.ids = [0, 0x001, 0x100].map(|other| id & 0xFFF ^ other).to_vec();
            }
            Primitive::Source(address) | Primitive::Destination(address) | Primitive::Host(address) => {
                return Choices { addresses: near(address), types: vec![number], ..choices };
            }
            Primitive::Broadcast | Primitive::Multicast => {
                return Choices { addresses: near(0xFFFF_FFFF_FFFF), types: vec![number], ..choices };
            }
            Primitive::EtherType(asked) => number = asked,
            _ => {}
        }
        let [first, second] = number.to_be_bytes();
        choices.types = types(&[0x01, 0x81, first, 0x88, 0x08, 0x91], &[0x00, second, 0xA8, 0xE5, 0x06, 0x02]);
        choices.later_types = vec![0x0101, 0x8100, number, 0x88E5, 0x0806];
        choices
    }

    /// The first bytes of a header of a kind. `first` is its first byte, if that is there. Of a `later` one none are.
    fn fronts(&self, kind: Kind, first: Option<u8>, later: bool) -> Vec<Vec<u8>> {
        let types = if later { &self.later_types } else { &self.types };
        let with_types = |front: Vec<u8>| types.iter().map(move |number| [&front[..], &number.to_be_bytes()].concat());
        match kind {
            Kind::Ethernet | Kind::EthernetFcs => {
                let pairs = self.addresses.iter().flat_map(|to| self.addresses.iter().map(move |from| (to, from)));
                pairs
                    .flat_map(|(to, from)| with_types([&to.to_be_bytes()[2..], &from.to_be_bytes()[2..]].concat()))
                    .collect()
            }
            Kind::Cooked => {
                // packet type, hardware type (ARPHRD_ETHER and those without an ether type), no address
                let fronts = [[0, 0, 0, 1], [0, 4, 3, 56], [0, 7, 3, 2], [0, 0, 3, 10], [0, 0, 3, 35], [0, 8, 0, 2]];
                let others = [[1, 0, 1, 0], [0, 0, 3, 0], [0, 0, 0, 2]];
                let fronts = fronts.iter().chain(&others).map(|front| [&front[..], &[0; 10]].concat());
                fronts.flat_map(with_types).collect()
            }
            Kind::Vlan => self.ids.iter().flat_map(|id| with_types(id.to_be_bytes().to_vec())).collect(),
            Kind::SecTag => self.sec_tags(first, later),
            // Ethernet and IPv4, with addresses of these sizes
            Kind::Arp => [(0, 0), (255, 255), (0, 255), (255, 0), (6, 4)]
                .iter()
                .map(|&(hardware, protocol)| vec![0, 1, 8, 0, hardware, protocol, 0, 1])
                .collect(),
        }
    }

    /// SecTags: version, SC, E and C in the first byte, the short length in the second (IEEE 802.1AE, 9.5 to 9.7).
    fn sec_tags(&self, first: Option<u8>, later: bool) -> Vec<Vec<u8>> {
        let firsts = first.map_or(vec![0x00, 0x80, 0x08, 0x20], |first| vec![first]);
        let seconds: &[u8] = if later { &[0] } else { &[0, 1, 63, 6, 10, 2, 3, 20] };
        let types = if later { &self.later_types } else { &self.types };
        let pairs = firsts.iter().flat_map(|&first| seconds.iter().map(move |&second| (first, second)));
        pairs
            .flat_map(|(first, second)| {
                let sci = if first & 0x20 != 0 { 8 } else { 0 };
                let front = [vec![first, second, 0, 0, 0, 1], vec![0; sci]].concat();
                let types = if first & 0x0C == 0 { types.as_slice() } else { &[0] };
                types.iter().map(move |number| [&front[..], &number.to_be_bytes()].concat()).collect::<Vec<_>>()
            })
            .collect()
    }
}

/// A packet that is completed.
struct Completing<'a> {
    packet: &'a Captured,
    total: usize,
    choices: Choices,
}

impl Completing<'_> {
    /// The frame with zeros for its other missing bytes.
    fn whole(&self, bytes: &[u8]) -> Vec<u8> {
        let known = self.packet.frame.bytes.get(bytes.len()..).unwrap_or_default();
        let mut whole = [bytes, known].concat();
        whole.resize(self.total, 0);
        whole
    }

    /// Goes through the completed packets that begin with these bytes, up to a header. Ends if `see` returns `true`.
    fn go(&self, bytes: &[u8], index: usize, depth: usize, see: &mut dyn FnMut(Vec<u8>) -> bool) -> bool {
        let whole = self.whole(bytes);
        let walk = Walk::of(self.packet.frame.start, None, &whole);
        let known = &self.packet.frame.bytes;
        let next = match index.checked_sub(1) {
            Some(before) => walk.units.get(before).map(|unit| unit.next),
            None => Some(Walk::of(self.packet.frame.start, None, &[]).next),
        };
        let Some(kind) = next.and_then(Next::kind).filter(|_| depth > 0) else { return see(whole) };
        let Window { start, end, .. } = walk.units.get(index).map_or(walk.rest, |unit| unit.window);
        let mut seen = BTreeSet::new();
        let later = start >= known.len();
        for front in self.choices.fronts(kind, known.get(start).copied(), later && depth < DEPTH) {
            let front = front.into_iter().enumerate().take(end - start);
            let chosen: Vec<u8> = front.map(|(i, byte)| known.get(start + i).copied().unwrap_or(byte)).collect();
            let bytes = [&whole[..start], &chosen].concat();
            let is_open = bytes.len() > known.len();
            if seen.insert(bytes.clone()) && self.go(&bytes, index + 1, depth - usize::from(is_open), see) {
                return true;
            }
        }
        false
    }
}

/// Goes through completed packets. Ends if `see` returns `true`.
fn completed(packet: &Captured, primitive: Primitive, see: &mut dyn FnMut(Vec<u8>) -> bool) -> bool {
    let len = packet.frame.bytes.len();
    let total = len + packet.lost().min(MOST);
    Completing { packet, total, choices: Choices::of(primitive) }.go(&[], 0, DEPTH, see)
}

/// The truth of a primitive, if it is the same in all completed packets.
pub fn known(packet: &Captured, primitive: Primitive) -> Option<bool> {
    let mut first = None;
    let is_open = completed(packet, primitive, &mut |bytes| {
        let walk = Walk::of(packet.frame.start, None, &bytes);
        let truth = matches(primitive, packet, &walk);
        *first.get_or_insert(truth) != truth
    });
    if is_open { None } else { first }
}

/// The least length with which an open primitive can be known.
pub fn needed(packet: &Captured, primitive: Primitive) -> usize {
    let len = packet.frame.bytes.len();
    (len + 1..).find(|&n| can_be_known(packet, primitive, n - len)).expect("with all bytes it is known")
}

/// Whether so many further bytes can make a primitive known.
fn can_be_known(packet: &Captured, primitive: Primitive, count: usize) -> bool {
    let len = packet.frame.bytes.len();
    let mut seen = BTreeSet::new();
    completed(packet, primitive, &mut |bytes| {
        let more = bytes[len..len + count].to_vec();
        seen.insert(more.clone()) && known(&packet.longer(&more, count), primitive).is_some()
    })
}
