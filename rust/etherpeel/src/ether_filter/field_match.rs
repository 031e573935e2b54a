//! Whether a test of a field holds for a packet.

use crate::ether_filter::field_hit::{frame_hit, unit_hit};
use crate::ether_filter::field_test::{FieldTest, Relation};
use crate::ether_filter::packet::Packet;
use crate::ether_peel::{Peel, Start};

/// What the headers of a packet show of a field.
#[derive(Clone, Copy)]
pub(in crate::ether_filter) struct FieldFound {
    /// Whether there is a value.
    has_value: bool,
    /// Whether a value is related as the test asks.
    has_hit: bool,
}

impl FieldFound {
    /// What is found with a further header, by whether its value is related.
    #[inline]
    fn after(self, hit: Option<bool>) -> FieldFound {
        match hit {
            Some(hit) => FieldFound {
                has_value: true,
                has_hit: self.has_hit || hit,
            },
            None => self,
        }
    }

    /// Whether a test with this relation holds.
    #[inline]
    fn answer(self, relation: Relation) -> bool {
        match relation {
            Relation::Exists => self.has_value,
            Relation::NotEqual => self.has_value && !self.has_hit,
            _ => self.has_hit,
        }
    }
}

/// Whether a test of a field holds for the headers of a frame.
#[inline(never)]
pub(in crate::ether_filter) fn matches_field(test: FieldTest, start: Start, frame: &[u8]) -> bool {
    let mut peel = Peel::new(start, frame);
    let mut found = FieldFound {
        has_value: false,
        has_hit: false,
    };
    loop {
        match peel.next() {
            Some(Ok(unit)) => found = found.after(unit_hit(&test, &unit)),
            Some(Err(_)) => return found.answer(test.relation),
            None => return found.answer(test.relation),
        }
    }
}

/// Whether a test holds of what the capture says of a packet.
#[inline(never)]
pub(in crate::ether_filter) fn matches_frame(test: FieldTest, packet: &Packet<'_>) -> bool {
    let (has_value, has_hit) = match frame_hit(&test, packet) {
        Some(hit) => (true, hit),
        None => (false, false),
    };
    FieldFound { has_value, has_hit }.answer(test.relation)
}
