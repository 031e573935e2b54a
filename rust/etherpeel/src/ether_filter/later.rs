//! What can follow the open unit of a packet that was cut short.

use crate::ether_filter::prospect::Prospect;

impl Prospect {
    /// Whether a VLAN tag can follow it.
    #[inline]
    pub(in crate::ether_filter) fn tag_can_follow(self) -> bool {
        self.can_be_accepted && self.can_tag()
    }

    /// Whether two VLAN tags can follow it.
    #[inline]
    pub(in crate::ether_filter) fn two_tags_can_follow(self) -> bool {
        self.can_be_accepted && self.can_two_tags()
    }

    /// Whether a SecTag can follow it.
    #[inline]
    pub(in crate::ether_filter) fn sec_tag_can_follow(self) -> bool {
        self.can_be_accepted && self.can_sec_tag()
    }

    /// Whether this ether type can be announced by it or after it.
    #[inline]
    pub(in crate::ether_filter) fn type_can_follow(self, number: u16) -> bool {
        self.can_be_accepted && self.can_type(number)
    }

    /// Whether a unit that is refused can follow it.
    #[inline]
    pub(in crate::ether_filter) fn refusal_can_follow(self) -> bool {
        self.can_be_accepted && self.can_refuse()
    }
}
