//! The groups of fields.

use crate::ether_fields::field::Field;
use crate::ether_fields::rows;

/// A group of fields: those of the packet itself, of one kind of header, of all headers, or of how the walk ends.
#[derive(Clone, Copy, PartialEq, Eq, Hash, Debug)]
pub enum Section {
    /// The packet itself.
    Frame,
    /// Ethernet II.
    Eth,
    /// Linux cooked capture v1.
    Sll,
    /// Linux cooked capture v2.
    Sll2,
    /// VLAN tags.
    Vlan,
    /// SecTags of MACsec.
    Macsec,
    /// ARP packets.
    Arp,
    /// The name and the place of each header.
    Headers,
    /// What is left after the headers.
    Rest,
    /// What is wrong with the first header that is refused.
    Fault,
}

impl Section {
    /// Its name, as `vlan`.
    ///
    /// <details><summary>Contract</summary>
    ///
    /// ```text
    /// ensures { result.now ≡ section_name self }
    /// ```
    ///
    /// Words: [`section_name`](crate::definitions::ether_fields#def.section_name).
    /// [Notation](crate::definitions::notation)
    ///
    /// </details>
    #[must_use]
    #[inline]
    pub fn name(self) -> &'static str {
        match self {
            Section::Frame => "frame",
            Section::Eth => "eth",
            Section::Sll => "sll",
            Section::Sll2 => "sll2",
            Section::Vlan => "vlan",
            Section::Macsec => "macsec",
            Section::Arp => "arp",
            Section::Headers => "headers",
            Section::Rest => "rest",
            Section::Fault => "fault",
        }
    }

    /// The section with this name.
    ///
    /// <details><summary>Contract</summary>
    ///
    /// ```text
    /// ensures some { IfSome result (λ it. section_name it ≡ name.now) }
    /// ensures none { IfNone result ((it : DeclaredSection) → section_name it ≢ name.now) }
    /// ```
    ///
    /// Words: [`section_name`](crate::definitions::ether_fields#def.section_name), `DeclaredSection` (`Section`).
    /// [Notation](crate::definitions::notation)
    ///
    /// </details>
    #[must_use]
    #[inline]
    pub fn of_name(name: &[u8]) -> Option<Section> {
        match name {
            b"frame" => Some(Section::Frame),
            b"eth" => Some(Section::Eth),
            b"sll" => Some(Section::Sll),
            b"sll2" => Some(Section::Sll2),
            b"vlan" => Some(Section::Vlan),
            b"macsec" => Some(Section::Macsec),
            b"arp" => Some(Section::Arp),
            b"headers" => Some(Section::Headers),
            b"rest" => Some(Section::Rest),
            b"fault" => Some(Section::Fault),
            _ => None,
        }
    }

    /// Its fields. Those of a header begin with its name and its place.
    ///
    /// <details><summary>Contract</summary>
    ///
    /// ```text
    /// ensures rows { map field_view result.now ≡ section_rows self }
    /// ensures keys { map (λ f. f.key.now) result.now ≡ keys_of (section_rows self) }
    /// ensures columns { map (λ f. f.column.now) result.now ≡ map (column_name self) (section_rows self) }
    /// ```
    ///
    /// Words: [`field_view`](crate::definitions::ether_fields#def.field_view),
    /// [`section_rows`](crate::definitions::ether_fields#def.section_rows),
    /// [`keys_of`](crate::definitions::ether_fields#def.keys_of),
    /// [`column_name`](crate::definitions::ether_fields#def.column_name). [Notation](crate::definitions::notation)
    ///
    /// </details>
    #[must_use]
    #[inline(always)]
    pub fn fields(self) -> &'static [Field] {
        match self {
            Section::Frame => &rows::FRAME,
            Section::Eth => &rows::ETH,
            Section::Sll => &rows::SLL,
            Section::Sll2 => &rows::SLL2,
            Section::Vlan => &rows::VLAN,
            Section::Macsec => &rows::MACSEC,
            Section::Arp => &rows::ARP,
            Section::Headers => &rows::HEADERS,
            Section::Rest => &rows::REST,
            Section::Fault => &rows::FAULT,
        }
    }
}
