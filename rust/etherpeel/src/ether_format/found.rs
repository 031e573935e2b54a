//! A header that is found in a packet, and where it is.

use crate::ether_format::found_header::FoundHeader;
use crate::ether_format::place::Place;
use crate::ether_format::value::Value;
use crate::ether_format::values::place_value;
use crate::ether_fields::Section;
use crate::ether_peel::PeelUnit;
use crate::SingleVlanSlice;

/// The number of fields that each header has before its own: its name and its place.
pub(in crate::ether_format) const PLACE_LEN: usize = 5;

/// A header that is found in a packet, and where it is.
pub(in crate::ether_format) struct Found<'a> {
    /// Its section of fields.
    pub(in crate::ether_format) section: Section,
    pub(in crate::ether_format) place: Place,
    pub(in crate::ether_format) header: FoundHeader<'a>,
}

/// A VLAN tag of zeros at offset 0, as the unused places of a list of a fixed capacity hold it.
impl<'a> Default for Found<'a> {
    #[inline]
    fn default() -> Found<'a> {
        match SingleVlanSlice::from_slice(&[0; 4]) {
            Ok(tag) => Found {
                section: Section::Vlan,
                place: Place {
                    start: 0,
                    header_end: 0,
                    payload_end: 0,
                    closed: false,
                },
                header: FoundHeader::Walked(PeelUnit::Vlan(tag)),
            },
            Err(_) => unreachable!(),
        }
    }
}

impl Found<'_> {
    /// The value of a field of its section.
    #[inline(always)]
    pub(in crate::ether_format) fn value(&self, index: usize) -> Option<Value<'_>> {
        if index < PLACE_LEN {
            return self.placed(index);
        }
        self.header.own_value(index - PLACE_LEN)
    }

    /// The value of a field of its name and its place.
    #[inline(never)]
    pub(in crate::ether_format) fn placed(&self, index: usize) -> Option<Value<'static>> {
        place_value(self.section, self.place, index)
    }
}
