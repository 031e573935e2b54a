//! The headers of a frame, each in the payload of the one before it.

use crate::cooked::Protocol;
use crate::wire::{Breach, Header, Kind, Source, announces_vlan};

/// What a frame begins with.
#[derive(Clone, Copy, PartialEq, Eq, Debug)]
pub enum Start {
    Ethernet,
    /// A frame that ends in a frame check sequence.
    EthernetFcs,
    Cooked,
    /// What this ether type announces.
    EtherType(u16),
}

/// What a window is announced as.
#[derive(Clone, Copy, PartialEq, Eq, Debug)]
pub enum Next {
    /// The first header of the frame.
    First(Kind),
    EtherType(u16),
    /// A protocol of a cooked capture that is not named by an ether type.
    Protocol(Protocol),
    /// Encrypted or changed user data.
    Sealed,
    /// The padding after an ARP packet.
    AfterArp,
}

impl Next {
    /// The kind of header that follows: a VLAN tag, a SecTag (IEEE 802.1AE, table 9-1), an ARP packet (RFC 826), or
    /// none.
    pub fn kind(self) -> Option<Kind> {
        match self {
            Next::First(kind) => Some(kind),
            Next::EtherType(number) if announces_vlan(number) => Some(Kind::Vlan),
            Next::EtherType(0x88E5) => Some(Kind::SecTag),
            Next::EtherType(0x0806) => Some(Kind::Arp),
            _ => None,
        }
    }

    /// What the payload of a header is announced as.
    fn after(header: &Header) -> Next {
        match header {
            Header::Ethernet(ethernet) | Header::EthernetFcs(ethernet) => Next::EtherType(ethernet.ether_type),
            Header::Cooked(cooked) => match cooked.meaning() {
                Protocol::EtherType(number) | Protocol::Nonstandard(number) => Next::EtherType(number),
                protocol => Next::Protocol(protocol),
            },
            Header::Vlan(tag) => Next::EtherType(tag.ether_type),
            Header::SecTag(tag) => tag.ether_type.map_or(Next::Sealed, Next::EtherType),
            Header::Arp(_) => Next::AfterArp,
        }
    }

    /// The ether type, if one announces the window.
    pub fn ether_type(self) -> Option<u16> {
        match self {
            Next::EtherType(number) => Some(number),
            _ => None,
        }
    }
}

/// A part of the frame.
#[derive(Clone, Copy, PartialEq, Eq, Debug)]
pub struct Window {
    pub start: usize,
    pub end: usize,
    /// Bytes appended to the frame would lie outside it.
    pub closed: bool,
    /// What named its end.
    pub bound: Source,
}

/// A header in the window where it was found, and the window of its payload.
#[derive(Clone, PartialEq, Eq, Debug)]
pub struct Unit {
    pub header: Header,
    pub window: Window,
    pub payload: Window,
    /// What the payload is announced as.
    pub next: Next,
}

impl Unit {
    /// Where the header ends, or its payload if the header names the length of that.
    pub fn end(&self) -> usize {
        self.window.start + self.header.unit_len()
    }
}

/// A whole walk: its units, and the window in which it ends, with the breach if it ends so.
#[derive(Clone, PartialEq, Eq, Debug)]
pub struct Walk {
    pub units: Vec<Unit>,
    pub rest: Window,
    pub next: Next,
    pub breach: Option<Breach>,
}

impl Walk {
    /// Walks through a frame, and reads no more than `limit` VLAN tags and SecTags.
    pub fn of(start: Start, limit: Option<usize>, frame: &[u8]) -> Walk {
        let mut walk = Walk::begun(start, frame.len());
        while let Some(kind) = walk.next.kind().filter(|&kind| walk.may_read(kind, limit)) {
            let Window { start, end, bound, .. } = walk.rest;
            match Header::read(kind, &frame[start..end], bound) {
                Ok(header) => walk.enter(header),
                Err(breach) => return Walk { breach: Some(breach.starting_at(start)), ..walk },
            }
        }
        walk
    }

    fn begun(start: Start, end: usize) -> Walk {
        let next = match start {
            Start::Ethernet => Next::First(Kind::Ethernet),
            Start::EthernetFcs => Next::First(Kind::EthernetFcs),
            Start::Cooked => Next::First(Kind::Cooked),
            Start::EtherType(number) => Next::EtherType(number),
        };
        let closed = start == Start::EthernetFcs; // a longer frame has its check sequence elsewhere
        let rest = Window { start: 0, end, closed, bound: Source::Frame };
        Walk { units: Vec::new(), rest, next, breach: None }
    }

    /// Whether a header of this kind may still be read.
    fn may_read(&self, kind: Kind, limit: Option<usize>) -> bool {
        !matches!(kind, Kind::Vlan | Kind::SecTag) || limit.is_none_or(|limit| self.tags() < limit)
    }

    /// How many VLAN tags and SecTags were read.
    fn tags(&self) -> usize {
        let is_tag = |unit: &&Unit| matches!(unit.header, Header::Vlan(_) | Header::SecTag(_));
        self.units.iter().filter(is_tag).count()
    }

    /// Goes on in the payload of a header.
    fn enter(&mut self, header: Header) {
        let window = self.rest;
        let start = window.start + header.header_len();
        let payload = match header.named_payload() {
            Some(len) => Window { start, end: start + len, closed: true, bound: Source::ShortLength },
            None => Window { start, end: window.end - header.trailer_len(), ..window },
        };
        let next = Next::after(&header);
        self.units.push(Unit { header, window, payload, next });
        self.rest = payload;
        self.next = next;
    }

    /// The headers of the walk.
    pub fn headers(&self) -> impl Iterator<Item = &Header> {
        self.units.iter().map(|unit| &unit.header)
    }

    /// If bytes appended to the frame may complete the refused unit: its layer, and the length that it names.
    pub fn demand(&self) -> Option<(crate::wire::Layer, usize)> {
        match self.breach {
            Some(Breach::Short(shortage)) if !self.rest.closed => {
                Some((shortage.layer, self.rest.start + shortage.required))
            }
            _ => None,
        }
    }

    /// Where the last of the units ends.
    pub fn reach(&self) -> usize {
        self.units.iter().map(Unit::end).max().unwrap_or(0)
    }

    /// The headers, and after them the rest: the front of the frame, but for the two reserved bits of each SecTag.
    pub fn written_back(&self, frame: &[u8]) -> Vec<u8> {
        let mut bytes: Vec<u8> = self.headers().flat_map(Header::bytes).collect();
        bytes.extend(&frame[self.rest.start..self.rest.end]);
        bytes
    }

    /// The front of the frame up to the end of the rest, with the two reserved bits of each SecTag cleared
    /// (IEEE 802.1AE, 9.7: bits 8 and 7 of the octet of the short length).
    pub fn cleared(&self, frame: &[u8]) -> Vec<u8> {
        let mut bytes = frame[..self.rest.end].to_vec();
        for unit in &self.units {
            if let Header::SecTag(_) = unit.header {
                bytes[unit.window.start + 1] %= 64;
            }
        }
        bytes
    }
}
