//! What a reader of a stream asks for, and what completes a frame that was cut.

use crate::arp::Arp;
use crate::sec_tag::SecTag;
use crate::walk::{Start, Walk};
use crate::wire::{Ethernet, Kind, Layer, Source, Tag};

/// The lengths that a reader asks for: the walk of the first `len - 1` bytes of the frame names `len`.
pub fn demands(start: Start, limit: Option<usize>, frame: &[u8]) -> Vec<usize> {
    let is_demand = |&len: &usize| {
        let walk = Walk::of(start, limit, &frame[..len - 1]);
        walk.demand().is_some_and(|(_, named)| named == len)
    };
    (1..=frame.len()).filter(is_demand).collect()
}

/// How often the units of a walk may ask for bytes, the refused one included: never in a closed window; for the header,
/// for what its first bytes make of it (an ARP packet's addresses, the rest of a SecTag), and for the payload whose
/// length a SecTag names.
pub fn most_demands(walk: &Walk) -> usize {
    let of = |kind: Kind| match kind {
        Kind::Ethernet | Kind::EthernetFcs | Kind::Cooked | Kind::Vlan => 1,
        Kind::Arp => 2,
        Kind::SecTag => 3,
    };
    let read = walk.units.iter().filter(|unit| !unit.window.closed).map(|unit| of(unit.header.kind())).sum();
    match walk.next.kind() {
        Some(refused) if walk.breach.is_some() && !walk.rest.closed => of(refused) + read,
        _ => read,
    }
}

/// A unit whose first bytes are there.
struct Begun {
    /// The length of the whole unit.
    len: usize,
    /// Where its ether type is, if it has one.
    type_at: Option<usize>,
}

/// The bytes after a frame that complete its last unit, if they can be told.
///
/// All are 0. But an ether type that begins with 0x81 or 0x91 ends in 1, since 0x8100 and 0x9100 announce a tag.
pub fn completion(start: Start, limit: Option<usize>, frame: &[u8]) -> Option<Vec<u8>> {
    let walk = Walk::of(start, limit, frame);
    let (layer, _) = walk.demand()?;
    let there = &frame[walk.rest.start..];
    let begun = begun(layer, there)?;
    let mut bytes = vec![0; begun.len - there.len()];
    if begun.type_at.is_some_and(|at| matches!(there.get(at..), Some([0x81 | 0x91]))) {
        bytes[0] = 1;
    }
    Some(bytes)
}

/// The unit of a layer that begins with these bytes.
fn begun(layer: Layer, there: &[u8]) -> Option<Begun> {
    let size = |at: usize| there.get(at).map_or(0, |&byte| usize::from(byte));
    match layer {
        Layer::Ethernet => Some(Begun { len: Ethernet::LEN, type_at: Some(12) }),
        Layer::Vlan => Some(Begun { len: Tag::LEN, type_at: Some(2) }),
        Layer::Arp => Some(Begun { len: Arp::len_for(size(4), size(5)), type_at: None }),
        Layer::SecTag if there.len() >= 6 => {
            let whole = [there, &[0; 16]].concat(); // as long as any tag
            let tag = SecTag::read(&whole, Source::Frame).ok()?;
            let len = tag.tag_len() + tag.named_payload().unwrap_or(0);
            Some(Begun { len, type_at: tag.ether_type.map(|_| tag.tag_len() - 2) })
        }
        _ => None,
    }
}
