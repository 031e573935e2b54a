//! The headers of a packet, gathered for all columns of a row.

use crate::ether_format::found::Found;
use crate::ether_format::visit::Visitor;
use arrayvec::ArrayVec;
use crate::ether_fields::Section;

/// How many headers there is room for.
pub(in crate::ether_format) const ROOM: usize = 4;

/// The first headers of a packet, in order.
pub(in crate::ether_format) type Headers<'a> = ArrayVec<Found<'a>, ROOM>;

/// Sections that some headers have.
#[derive(Clone, Copy)]
struct Sections {
    has_vlan: bool,
    has_macsec: bool,
    has_arp: bool,
    has_others: bool,
}

impl Sections {
    /// Those of no header.
    const NONE: Sections = Sections {
        has_vlan: false,
        has_macsec: false,
        has_arp: false,
        has_others: false,
    };

    /// These and that of another header.
    #[inline]
    fn and(self, section: Section) -> Sections {
        match section {
            Section::Vlan => Sections {
                has_vlan: true,
                ..self
            },
            Section::Macsec => Sections {
                has_macsec: true,
                ..self
            },
            Section::Arp => Sections {
                has_arp: true,
                ..self
            },
            _ => Sections {
                has_others: true,
                ..self
            },
        }
    }

    /// Whether a column of a section can have a value in one of the headers.
    #[inline]
    fn has(self, section: Section) -> bool {
        match section {
            Section::Vlan => self.has_vlan,
            Section::Macsec => self.has_macsec,
            Section::Arp => self.has_arp,
            Section::Headers => self.has_vlan || self.has_macsec || self.has_arp || self.has_others,
            _ => self.has_others,
        }
    }
}

/// Gathers the first headers of a packet, and remembers which sections the later ones have.
#[derive(Clone, Copy)]
pub(in crate::ether_format) struct Gatherer {
    /// Whether there are headers for which there was no room.
    has_later: bool,
    /// Their sections.
    later: Sections,
}

impl Gatherer {
    /// Whether a column of a section can have a value in a header for which there was no room.
    #[inline(always)]
    pub(in crate::ether_format) fn has(&self, section: Section) -> bool {
        self.has_later && self.later.has(section)
    }

    /// Makes a gatherer that has seen no header.
    #[inline]
    pub(in crate::ether_format) fn new() -> Gatherer {
        Gatherer {
            has_later: false,
            later: Sections::NONE,
        }
    }
}

impl<'a> Visitor<'a, Headers<'a>> for Gatherer {
    #[inline(always)]
    fn header(&mut self, found: Found<'a>, target: &mut Headers<'a>) {
        if target.is_full() {
            self.later = self.later.and(found.section);
            self.has_later = true;
        } else {
            target.push(found);
        }
    }
}
