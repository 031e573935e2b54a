//! The headers of a packet, one after the other, and how the walk through them ends.

use crate::ether_format::cause::Cause;
use crate::ether_format::end::End;
use crate::ether_format::found::Found;
use crate::ether_format::found_header::FoundHeader;
use crate::ether_format::place::Place;
use crate::ether_content::{Content, CookedHeader};
use crate::ether_fields::{Section, section_of};
use crate::ether_pcap::CapturedPacket;
use crate::ether_peel::{Peel, RestKind, Start};
use crate::ether_sll2::{LinuxSll2Header, LinuxSll2Slice};

/// What takes the headers of a packet, one after the other, and writes to a target what it makes of them.
pub(in crate::ether_format) trait Visitor<'a, T> {
    /// Takes the next header.
    fn header(&mut self, found: Found<'a>, target: &mut T);
}

/// Shows a visitor the headers of a packet, and returns how the walk through them ends. With a limit, at most that many
/// VLAN tags and SecTags are read.
#[inline(always)]
pub(in crate::ether_format) fn visit<'a, T, V: Visitor<'a, T>>(
    packet: &CapturedPacket<'a>,
    limit: Option<usize>,
    visitor: &mut V,
    target: &mut T,
) -> End {
    match Content::of(packet) {
        Content::Frame(start, bytes) => visit_walk(0, start, limit, bytes, visitor, target),
        Content::LinuxSll(header, payload) => {
            visit_cooked(header, payload, limit, visitor, target)
        }
        Content::LinuxSll2(bytes) => visit_cooked_v2(bytes, limit, visitor, target),
        Content::Unknown => End::Skipped(packet.packet.len()),
    }
}

/// .. a header of cooked capture v1 that is not walked, and those of its payload.
#[inline(never)]
fn visit_cooked<'a, T, V: Visitor<'a, T>>(
    header: CookedHeader,
    payload: &'a [u8],
    limit: Option<usize>,
    visitor: &mut V,
    target: &mut T,
) -> End {
    let start = Start::EtherType(header.protocol);
    let len = CookedHeader::LEN;
    let found = Found {
        section: Section::Sll,
        place: cooked_place(len, len + payload.len()),
        header: FoundHeader::Cooked(header),
    };
    visitor.header(found, target);
    visit_walk(len as u8, start, limit, payload, visitor, target)
}

/// .. the headers of a packet of cooked capture v2.
#[inline(never)]
fn visit_cooked_v2<'a, T, V: Visitor<'a, T>>(
    bytes: &'a [u8],
    limit: Option<usize>,
    visitor: &mut V,
    target: &mut T,
) -> End {
    let packet = match LinuxSll2Slice::from_slice(bytes) {
        Ok(packet) => packet,
        Err(error) => return End::Fault(0, false, Cause::of_v2(&error)),
    };
    let len = LinuxSll2Header::LEN;
    let start = packet.start();
    let payload = packet.payload_slice();
    let kind = RestKind::Sll(packet.protocol_type());
    let found = Found {
        section: Section::Sll2,
        place: cooked_place(len, bytes.len()),
        header: FoundHeader::CookedV2(packet),
    };
    visitor.header(found, target);
    match start {
        Some(start) => visit_walk(len as u8, start, limit, payload, visitor, target),
        None => End::Rest(len, bytes.len(), kind),
    }
}

/// The place of a cooked header at the front of a packet of `len` bytes.
#[inline]
fn cooked_place(header_len: usize, len: usize) -> Place {
    Place {
        start: 0,
        header_end: header_len,
        payload_end: len,
        closed: false,
    }
}

/// .. the headers of a walk. Each offset is counted from `header_len` bytes before the frame.
#[inline(always)]
fn visit_walk<'a, T, V: Visitor<'a, T>>(
    header_len: u8,
    start: Start,
    limit: Option<usize>,
    frame: &'a [u8],
    visitor: &mut V,
    target: &mut T,
) -> End {
    let at = usize::from(header_len);
    let mut peel = walker(start, limit, frame);
    loop {
        let start = at + peel.offset();
        match peel.next() {
            Some(Ok(unit)) => {
                let header_end = at + peel.offset();
                let found = Found {
                    section: section_of(&unit),
                    place: Place {
                        start,
                        header_end,
                        payload_end: header_end + peel.rest().len(),
                        closed: peel.closed(),
                    },
                    header: FoundHeader::Walked(unit),
                };
                visitor.header(found, target);
            }
            Some(Err(fault)) => {
                return End::Fault(at + fault.offset, fault.closed, Cause::of(&fault.error));
            }
            None => return End::Rest(start, start + peel.rest().len(), peel.kind()),
        }
    }
}

/// The walk of a frame. With a limit, it reads at most that many VLAN tags and SecTags.
#[inline]
fn walker(start: Start, limit: Option<usize>, frame: &[u8]) -> Peel<'_> {
    match limit {
        Some(limit) => Peel::with_limit(start, frame, limit),
        None => Peel::new(start, frame),
    }
}
