//! Finds a VLAN tag or SecTag of a frame by its index.

use crate::ether_peel::{Peel, PeelUnit, Start};
use crate::LinkExtHeader;

/// A VLAN tag or SecTag of a frame, and its offset.
#[derive(Clone, Copy)]
pub(in crate::ether_packet) struct PlacedExt {
    pub(in crate::ether_packet) at: usize,
    pub(in crate::ether_packet) header: LinkExtHeader,
}

/// The VLAN tag or SecTag at an index, counted from the outermost one. The error is the number of VLAN tags and
/// SecTags, if there is none at the index.
#[inline]
pub(in crate::ether_packet) fn ext_at(start: Start, frame: &[u8], index: usize) -> Result<PlacedExt, usize> {
    let mut peel = Peel::new(start, frame);
    let mut count = 0;
    loop {
        let at = peel.offset();
        match peel.next() {
            Some(Ok(unit)) => {
                if let Some(header) = ext_of(&unit) {
                    if count == index {
                        return Ok(PlacedExt { at, header });
                    }
                    count += 1;
                }
            }
            Some(Err(_)) => return Err(count),
            None => return Err(count),
        }
    }
}

/// The VLAN tag or SecTag in a unit, if it has one.
#[inline(always)]
fn ext_of(unit: &PeelUnit<'_>) -> Option<LinkExtHeader> {
    match unit {
        PeelUnit::Vlan(tag) => Some(LinkExtHeader::Vlan(tag.to_header())),
        PeelUnit::Macsec(tag) => Some(LinkExtHeader::Macsec(tag.header.to_header())),
        _ => None,
    }
}
