//! Writes the units of a copy of a capture file.

use crate::putting::put_bytes;
use crate::reading_captures::read_unit;
use crate::statuses::{BAD_FIELD, DONE, NO_ROOM, UNCOPIED};
use crate::{EtherInterface, EtherReader};
use etherpeel::ether_pcap::{CapturedPacket, CopiedUnit, CopyMode, EditedUnit, ReaderState, UnitContent};

/// Writes the unit of a packet with other captured bytes and another original length.
///
/// <details><summary>Contract</summary>
///
/// ```text
/// ensures unfit { state_of reader.now ≡ None
///     → (result ≡ bad_field) × (target.new ≡ target.old) × (len.new ≡ len.old) }
/// ensures given { IfSome (state_of reader.now) (λ state. GivesEdit unit.now state
///     (record { original_len = original_len; packet = packet.now }) target.old target.new result len.new) }
/// ```
///
/// </details>
#[unsafe(no_mangle)]
pub unsafe extern "C" fn etherpeel_reader_edit(
    reader: &EtherReader,
    unit: *const u8,
    unit_len: usize,
    packet: *const u8,
    packet_len: usize,
    original_len: u64,
    target: *mut u8,
    target_len: usize,
    len: &mut usize,
) -> u32 {
    let unit = unsafe { crate::by_hand::shared(unit, unit_len) };
    let packet = unsafe { crate::by_hand::shared(packet, packet_len) };
    let target = unsafe { crate::by_hand::mutable(target, target_len) };
    let Some(state) = reader.to_state() else {
        return BAD_FIELD;
    };
    let (status, written) = put_edit(&state, unit, packet, original_len, target);
    *len = written;
    status
}

/// Writes what a copy has for a unit, where snap lengths are raised.
///
/// <details><summary>Contract</summary>
///
/// ```text
/// ensures unfit { expected_by reader.now interfaces.now ≡ None
///     → (result ≡ bad_field) × (target.new ≡ target.old) × (len.new ≡ len.old) }
/// ensures given { IfSome (expected_by reader.now interfaces.now) (λ after.
///     GivesCopy unit.now after raise has_packet target.old target.new result len.new) }
/// ```
///
/// </details>
#[unsafe(no_mangle)]
pub unsafe extern "C" fn etherpeel_reader_copy(
    reader: &EtherReader,
    interfaces: *const EtherInterface,
    interfaces_len: usize,
    raise: u32,
    has_packet: u32,
    unit: *const u8,
    unit_len: usize,
    target: *mut u8,
    target_len: usize,
    len: &mut usize,
) -> u32 {
    let interfaces = unsafe { crate::by_hand::shared(interfaces, interfaces_len) };
    let unit = unsafe { crate::by_hand::shared(unit, unit_len) };
    let target = unsafe { crate::by_hand::mutable(target, target_len) };
    if reader.interface_count > interfaces.len() {
        return BAD_FIELD;
    }
    let Some(state) = reader.to_state() else {
        return BAD_FIELD;
    };
    let (status, written) = put_copy(reader, interfaces, &state, raise, has_packet, unit, target);
    *len = written;
    status
}

/// Writes the unit of a packet, edited. Returns the status of the call, and the length of the unit.
fn put_edit(
    state: &ReaderState,
    unit: &[u8],
    packet: &[u8],
    original_len: u64,
    target: &mut [u8],
) -> (u32, usize) {
    match state.edit_unit(unit, packet, original_len) {
        Some(edited) => put_edited(&edited, target),
        None => (UNCOPIED, 0),
    }
}

/// Writes what a copy has for a unit. Returns the status of the call, and the number of bytes.
fn put_copy(
    reader: &EtherReader,
    interfaces: &[EtherInterface],
    state: &ReaderState,
    raise: u32,
    has_packet: u32,
    unit: &[u8],
    target: &mut [u8],
) -> (u32, usize) {
    if has_packet == 0 {
        return put_copied(&state.copy_unit(CopyMode::Changed { raise }, unit), target);
    }
    if copies_packet(reader, interfaces, state, raise, unit) {
        return put_bytes(unit, target);
    }
    (UNCOPIED, 0)
}

/// Tests that a copy in which snap lengths are raised can have the unit of a packet, unchanged.
fn copies_packet(
    reader: &EtherReader,
    interfaces: &[EtherInterface],
    state: &ReaderState,
    raise: u32,
    unit: &[u8],
) -> bool {
    match packet_of(reader, interfaces, unit) {
        Some(packet) => state.copies_packet(CopyMode::Changed { raise }, unit, &packet),
        None => false,
    }
}

/// The packet of a unit, if it has one.
fn packet_of<'a>(
    reader: &EtherReader,
    interfaces: &[EtherInterface],
    unit: &'a [u8],
) -> Option<CapturedPacket<'a>> {
    match read_unit(reader, interfaces, unit) {
        Some(Ok(read)) => content_packet(read.content),
        _ => None,
    }
}

/// The packet in what a unit says.
fn content_packet(content: UnitContent<'_>) -> Option<CapturedPacket<'_>> {
    match content {
        UnitContent::Packet(packet) => Some(packet),
        _ => None,
    }
}

/// The bytes of a unit of a copy, in order.
#[derive(Clone, Copy)]
struct Pieces<'p> {
    /// The bytes up to those that are changed.
    front: &'p [u8],
    /// The bytes of a packet, or of a number.
    changed: &'p [u8],
    /// Zeros after a packet.
    padding: &'p [u8],
    /// The bytes after those that are changed.
    rest: &'p [u8],
    /// The total length again.
    trailer: &'p [u8],
}

/// Writes the unit of an edited packet.
fn put_edited(edited: &EditedUnit<'_>, target: &mut [u8]) -> (u32, usize) {
    let pieces = match edited {
        EditedUnit::Record { header, packet } => Pieces {
            front: header,
            changed: packet,
            padding: &[],
            rest: &[],
            trailer: &[],
        },
        EditedUnit::Block {
            header,
            packet,
            padding_len,
            options,
            trailer,
        } => Pieces {
            front: header,
            changed: packet,
            padding: &[0; 3][..*padding_len],
            rest: options,
            trailer,
        },
    };
    put_pieces(&pieces, target)
}

/// Writes what a copy has for a unit without a packet.
fn put_copied(copied: &CopiedUnit<'_>, target: &mut [u8]) -> (u32, usize) {
    match copied {
        CopiedUnit::Same(unit) => put_bytes(unit, target),
        CopiedUnit::LeftOut => (DONE, 0),
        CopiedUnit::SnapLen {
            front,
            snap_len,
            rest,
        } => put_with(front, snap_len, rest, target),
        CopiedUnit::SectionLen { front, rest } => put_with(front, &[0xFF; 8], rest, target),
    }
}

/// Writes a unit in which these bytes are changed.
fn put_with(front: &[u8], changed: &[u8], rest: &[u8], target: &mut [u8]) -> (u32, usize) {
    let pieces = Pieces {
        front,
        changed,
        padding: &[],
        rest,
        trailer: &[],
    };
    put_pieces(&pieces, target)
}

/// Writes all pieces, if the target has room for them. Returns the status of the call, and their length.
fn put_pieces(pieces: &Pieces<'_>, target: &mut [u8]) -> (u32, usize) {
    let len = pieces.front.len()
        + pieces.changed.len()
        + pieces.padding.len()
        + pieces.rest.len()
        + pieces.trailer.len();
    if target.len() < len {
        return (NO_ROOM, len);
    }
    let at = put_at(target, 0, pieces.front);
    let at = put_at(target, at, pieces.changed);
    let at = put_at(target, at, pieces.padding);
    let at = put_at(target, at, pieces.rest);
    put_at(target, at, pieces.trailer);
    (DONE, len)
}

/// Writes bytes from the offset `at` on. Returns the offset after them.
fn put_at(target: &mut [u8], at: usize, bytes: &[u8]) -> usize {
    let end = at + bytes.len();
    target[at..end].copy_from_slice(bytes);
    end
}
