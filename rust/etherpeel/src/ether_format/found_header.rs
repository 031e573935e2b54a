//! A header that is found in a packet.

use crate::ether_format::value::Value;
use crate::ether_format::values::{cooked_value, linux_sll2_value, unit_value};
use crate::ether_content::CookedHeader;
use crate::ether_peel::PeelUnit;
use crate::ether_sll2::LinuxSll2Slice;

/// A header that is found in a packet.
pub(in crate::ether_format) enum FoundHeader<'a> {
    /// One of the walk.
    Walked(PeelUnit<'a>),
    /// One of cooked capture v1 that is not walked.
    Cooked(CookedHeader),
    /// One of cooked capture v2.
    CookedV2(LinuxSll2Slice<'a>),
}

impl FoundHeader<'_> {
    /// The value of one of its own fields.
    #[inline(always)]
    pub(in crate::ether_format) fn own_value(&self, index: usize) -> Option<Value<'_>> {
        match self {
            FoundHeader::Walked(unit) => unit_value(unit, index),
            FoundHeader::Cooked(header) => cooked_column(header, index),
            FoundHeader::CookedV2(packet) => linux_sll2_column(packet, index),
        }
    }
}

/// [`cooked_value`] as a call.
#[inline(never)]
fn cooked_column(header: &CookedHeader, index: usize) -> Option<Value<'_>> {
    cooked_value(header, index)
}

/// [`linux_sll2_value`] as a call.
#[inline(never)]
fn linux_sll2_column<'a>(packet: &'a LinuxSll2Slice<'_>, index: usize) -> Option<Value<'a>> {
    linux_sll2_value(packet, index)
}
