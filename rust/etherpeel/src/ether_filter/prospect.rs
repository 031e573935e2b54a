//! What a unit can be if only its first bytes are there.

/// The kind of a unit that is not whole.
#[derive(Clone, Copy)]
pub(in crate::ether_filter) enum OpenKind {
    Ethernet2,
    LinuxSll,
    Vlan,
    Macsec,
    Arp,
}

/// What may be announced after a unit.
#[derive(Clone, Copy)]
pub(in crate::ether_filter) enum Announced {
    /// No ether type.
    Nothing,
    /// Each ether type.
    Any,
    /// Each ether type whose first byte is this one.
    High(u8),
}

/// What can become of a unit, if its bytes go on up to the end of its window.
#[derive(Clone, Copy)]
pub(in crate::ether_filter) struct Prospect {
    pub can_be_accepted: bool,
    pub can_be_refused: bool,
    /// What may be announced after it.
    pub next: Announced,
    /// The most bytes that can follow it, if an ether type does.
    pub room: usize,
}

impl Prospect {
    /// It is refused, whatever its bytes are.
    pub(in crate::ether_filter) const REFUSED: Prospect = Prospect {
        can_be_accepted: false,
        can_be_refused: true,
        next: Announced::Nothing,
        room: 0,
    };

    /// Whether this ether type may be announced.
    #[inline]
    fn offers(self, number: u16) -> bool {
        match self.next {
            Announced::Nothing => false,
            Announced::Any => true,
            Announced::High(high) => u16::from(high) == number / 256,
        }
    }

    /// Whether an ether type of a VLAN tag may be announced.
    #[inline]
    fn offers_tag(self) -> bool {
        self.offers(0x8100) || self.offers(0x88A8) || self.offers(0x9100)
    }

    /// Whether a VLAN tag can follow.
    #[inline]
    pub(in crate::ether_filter) fn can_tag(self) -> bool {
        self.offers_tag() && self.room >= 4
    }

    /// Whether two VLAN tags can follow.
    #[inline]
    pub(in crate::ether_filter) fn can_two_tags(self) -> bool {
        self.offers_tag() && self.room >= 8
    }

    /// Whether a SecTag can follow, at once or after a VLAN tag.
    #[inline]
    pub(in crate::ether_filter) fn can_sec_tag(self) -> bool {
        self.offers(0x88E5) && self.room >= 6 || self.offers_tag() && self.room >= 10
    }

    /// Whether this ether type can be announced, by the unit or after it.
    #[inline]
    pub(in crate::ether_filter) fn can_type(self, number: u16) -> bool {
        self.offers(number) || self.can_tag()
    }

    /// Whether a unit that is refused can follow.
    #[inline]
    pub(in crate::ether_filter) fn can_refuse(self) -> bool {
        self.offers_tag() || self.offers(0x0806) && self.room < 1028
    }
}

/// What is known of the ether type at a place if at most its first byte is there.
#[inline]
pub(in crate::ether_filter) fn type_at(known: &[u8], place: usize) -> Announced {
    match known.get(place) {
        Some(high) => Announced::High(*high),
        None => Announced::Any,
    }
}

/// That of a unit of this many bytes, which end in an ether type, and which is refused only if it has no room.
#[inline]
fn of_fixed(known: &[u8], room: usize, len: usize) -> Prospect {
    if room < len {
        return Prospect::REFUSED;
    }
    Prospect {
        can_be_accepted: true,
        can_be_refused: false,
        next: type_at(known, len - 2),
        room: room - len,
    }
}

/// That of an Ethernet II header.
#[inline]
pub(in crate::ether_filter) fn of_ethernet2(known: &[u8], room: usize) -> Prospect {
    of_fixed(known, room, 14)
}

/// That of a VLAN tag.
#[inline]
pub(in crate::ether_filter) fn of_vlan(known: &[u8], room: usize) -> Prospect {
    of_fixed(known, room, 4)
}

/// Whether a hardware type is supported.
#[inline]
pub(in crate::ether_filter) fn is_supported(hardware: usize) -> bool {
    hardware == 824 || hardware == 778 || hardware == 803 || hardware == 770 || hardware == 1
}

/// The low byte of a supported hardware type with this high byte, if there is one: of frame relay or of Ethernet.
#[inline]
fn supported_low(high: usize) -> u8 {
    if high == 3 { 2 } else { 1 }
}

/// What is known of the ether type after the header of a cooked capture that can be of this hardware type.
#[inline]
fn type_after_capture(known: &[u8], hardware: usize) -> Announced {
    if hardware == 1 {
        type_at(known, 14)
    } else {
        Announced::Nothing
    }
}

/// What the header of a cooked capture can be if fewer than 16 of its bytes are there.
#[inline]
pub(in crate::ether_filter) fn sll_prospect(known: &[u8], room: usize) -> Prospect {
    if room < 16 {
        return Prospect::REFUSED;
    }
    let packet_type = 256 * byte_or(known, 0, 0) + byte_or(known, 1, 0);
    if packet_type > 7 {
        return Prospect::REFUSED;
    }
    let high = byte_or(known, 2, 0);
    let hardware = 256 * high + byte_or(known, 3, supported_low(high));
    if !is_supported(hardware) {
        return Prospect::REFUSED;
    }
    Prospect {
        can_be_accepted: true,
        can_be_refused: known.len() < 4,
        next: type_after_capture(known, hardware),
        room: room - 16,
    }
}

/// Whether E or C is set in the first byte of a SecTag: no ether type can be read after it (IEEE 802.1AE, 9.3).
#[inline]
pub(in crate::ether_filter) fn is_modified(first: u8) -> bool {
    first / 4 % 4 != 0
}

/// The length of a SecTag with this first byte.
#[inline]
pub(in crate::ether_filter) fn tag_len(first: u8) -> usize {
    let sci = if first / 32 % 2 == 1 { 8 } else { 0 };
    let ether_type = if is_modified(first) { 0 } else { 2 };
    6 + sci + ether_type
}

/// The length of the payload of a SecTag that begins with these two bytes in a window of this length, if it is
/// accepted.
#[inline]
pub(in crate::ether_filter) fn room_after(first: u8, second: u8, room: usize) -> Option<usize> {
    let len = tag_len(first);
    if first >= 128 || room < len {
        return None;
    }
    let short = usize::from(second % 64);
    if short == 0 {
        return Some(room - len);
    }
    let ether_type = if is_modified(first) { 0 } else { 2 };
    if short < ether_type {
        return None;
    }
    let payload = short - ether_type;
    if room < len + payload {
        return None;
    }
    Some(payload)
}

/// What is known of the ether type after a SecTag with this first byte.
#[inline]
fn type_after_tag(known: &[u8], first: u8) -> Announced {
    if is_modified(first) {
        Announced::Nothing
    } else {
        type_at(known, tag_len(first) - 2)
    }
}

/// What a SecTag can be that begins with these two bytes.
#[inline]
fn of_front(known: &[u8], first: u8, second: u8, room: usize) -> Prospect {
    match room_after(first, second, room) {
        Some(payload) => Prospect {
            can_be_accepted: true,
            can_be_refused: false,
            next: type_after_tag(known, first),
            room: payload,
        },
        None => Prospect::REFUSED,
    }
}

/// What a SecTag can be if this byte alone is there.
#[inline]
fn of_first(first: u8, room: usize) -> Prospect {
    let len = tag_len(first);
    if first >= 128 || room < len {
        return Prospect::REFUSED;
    }
    if is_modified(first) {
        return Prospect {
            can_be_accepted: true,
            can_be_refused: room < len + 63,
            next: Announced::Nothing,
            room: room - len,
        };
    }
    Prospect {
        can_be_accepted: true,
        can_be_refused: true,
        next: Announced::Any,
        room: room - len,
    }
}

/// What a SecTag can be if none of its bytes is there.
#[inline]
fn of_nothing(room: usize) -> Prospect {
    if room < 8 {
        return Prospect {
            can_be_accepted: true,
            can_be_refused: true,
            next: Announced::Nothing,
            room: 0,
        };
    }
    Prospect {
        can_be_accepted: true,
        can_be_refused: true,
        next: Announced::Any,
        room: room - 8,
    }
}

/// What a SecTag can be if not all bytes of its header are there.
#[inline]
pub(in crate::ether_filter) fn tag_prospect(known: &[u8], room: usize) -> Prospect {
    if room < 6 {
        return Prospect::REFUSED;
    }
    match known {
        [] => of_nothing(room),
        [first] => of_first(*first, room),
        [first, second, ..] => of_front(known, *first, *second, room),
    }
}

/// A byte of a unit, or what it may be if it is not there.
#[inline]
fn byte_or(known: &[u8], at: usize, other: u8) -> usize {
    match known.get(at) {
        Some(byte) => usize::from(*byte),
        None => usize::from(other),
    }
}

/// What an ARP packet can be if fewer than eight of its bytes are there.
#[inline]
pub(in crate::ether_filter) fn arp_prospect(known: &[u8], room: usize) -> Prospect {
    let least = 8 + 2 * byte_or(known, 4, 0) + 2 * byte_or(known, 5, 0);
    let most = 8 + 2 * byte_or(known, 4, 255) + 2 * byte_or(known, 5, 255);
    Prospect {
        can_be_accepted: least <= room,
        can_be_refused: room < most,
        next: Announced::Nothing,
        room: 0,
    }
}

/// What a unit can be if only these of its bytes are there.
#[inline]
pub(in crate::ether_filter) fn prospect_of(kind: OpenKind, known: &[u8], room: usize) -> Prospect {
    match kind {
        OpenKind::Ethernet2 => of_ethernet2(known, room),
        OpenKind::LinuxSll => sll_prospect(known, room),
        OpenKind::Vlan => of_vlan(known, room),
        OpenKind::Macsec => tag_prospect(known, room),
        OpenKind::Arp => arp_prospect(known, room),
    }
}
