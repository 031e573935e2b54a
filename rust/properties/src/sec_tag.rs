//! The MACsec SecTag (IEEE 802.1AE, clause 9).

use crate::wire::{Breach, Layer, Source, bit, demand, number, number16, spelled};

/// A SecTag without the ether type that announces it. The version and the two reserved bits are left out.
#[derive(Clone, PartialEq, Eq, Debug)]
pub struct SecTag {
    pub end_station: bool,
    pub single_copy: bool,
    pub encrypted: bool,
    pub changed: bool,
    pub association_number: u8,
    pub short_length: u8,
    pub packet_number: u32,
    pub sci: Option<u64>,
    /// The ether type of the user data, which can be read only if it is neither encrypted nor changed.
    pub ether_type: Option<u16>,
}

/// The length of a SecTag without SCI and without the ether type after it: TCI and AN, SL, PN (9.3).
const SHORTEST: usize = 6;
const SCI_LEN: usize = 8;
const TYPE_LEN: usize = 2;

impl SecTag {
    /// The tag control information has V in bit 8, ES in 7, SC in 6, SCB in 5, E in 4, C in 3, and the AN in bits 2 and
    /// 1 (9.5, 9.6). The next octet has the short length in bits 6 to 1 (9.7), and the packet number follows (9.8).
    pub fn read(window: &[u8], bound: Source) -> Result<SecTag, Breach> {
        demand(Layer::SecTag, SHORTEST, window, bound)?;
        let control = window[0];
        if bit(control, 8) {
            return Err(Breach::Version); // version 0 is the only one (9.5)
        }
        let short_length = window[1] % 64;
        let is_readable = !bit(control, 4) && !bit(control, 3);
        if is_readable && usize::from(short_length) > 0 && usize::from(short_length) < TYPE_LEN {
            return Err(Breach::ShortLength); // it counts the ether type of the user data (9.7)
        }
        let sci_len = if bit(control, 6) { SCI_LEN } else { 0 };
        let type_at = SHORTEST + sci_len;
        let required = if is_readable { type_at + TYPE_LEN } else { type_at };
        demand(Layer::SecTag, required, window, bound)?;
        Ok(SecTag {
            end_station: bit(control, 7),
            single_copy: bit(control, 5),
            encrypted: bit(control, 4),
            changed: bit(control, 3),
            association_number: control % 4,
            short_length,
            packet_number: number(&window[2..SHORTEST]) as u32,
            sci: bit(control, 6).then(|| number(&window[SHORTEST..type_at])), // (9.9)
            ether_type: is_readable.then(|| number16(window, type_at)),
        })
    }

    /// The tag, in a window that also has the payload whose length the tag names.
    pub fn read_with_payload(window: &[u8], bound: Source) -> Result<SecTag, Breach> {
        let tag = SecTag::read(window, bound)?;
        let required = tag.tag_len() + tag.named_payload().unwrap_or(0);
        demand(Layer::SecuredPayload, required, window, Source::ShortLength)?;
        Ok(tag)
    }

    /// The length of the tag, with the ether type of the user data if that can be read.
    pub fn tag_len(&self) -> usize {
        self.bytes().len()
    }

    /// The length that the short length names, without the ether type that it counts. A short length of 0 names none
    /// (9.7). The standard uses it only below 48 octets; the crate documents that it accepts all.
    pub fn named_payload(&self) -> Option<usize> {
        let counted = if self.ether_type.is_some() { TYPE_LEN } else { 0 };
        match usize::from(self.short_length) {
            0 => None,
            short => short.checked_sub(counted),
        }
    }

    /// The first octet of a tag with version 0.
    pub fn control(&self) -> u8 {
        let bits = [self.end_station, self.sci.is_some(), self.single_copy, self.encrypted, self.changed];
        bits.iter().fold(0, |octet, &bit| octet * 2 + u8::from(bit)) * 4 + self.association_number
    }

    /// The octets of a tag with version 0 and reserved bits 0.
    pub fn bytes(&self) -> Vec<u8> {
        let mut bytes = vec![self.control(), self.short_length];
        bytes.extend(spelled(self.packet_number.into(), 4));
        bytes.extend(self.sci.iter().flat_map(|&sci| spelled(sci, SCI_LEN)));
        bytes.extend(self.ether_type.iter().flat_map(|&ether_type| spelled(ether_type.into(), TYPE_LEN)));
        bytes
    }
}
