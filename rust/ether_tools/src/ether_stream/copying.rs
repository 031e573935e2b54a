//! Copies the units of a capture.

use crate::ether_stream::{EditBuffer, Grow};
use etherpeel::ether_content::{EditedPacket, PacketEdit};
use etherpeel::ether_output::{OutputBuffer, Sink};
use etherpeel::ether_pcap::{CaptureReader, CapturedPacket, CopiedUnit, CopyMode, EditedUnit, InterfaceTable};

/// Writes what a copy has of a unit without a packet: the unit, the unit with another snap length or an unspecified
/// section length, or nothing.
///
/// # Panics
///
/// The call may panic, or return something else, if a `requires` of its contract is not met.
///
/// <details><summary>Contract</summary>
///
/// ```text
/// requires { IsUnitOf reader.now unit.now None }
/// ensures { Takes W.contents W.can_fail out.old (other_unit (copy_mode_view mode) reader.now unit.now) out.new }
/// ```
///
/// </details>
pub fn write_other<T: InterfaceTable, W: Sink>(
    reader: &CaptureReader<T>,
    mode: CopyMode,
    unit: &[u8],
    out: &mut OutputBuffer<'_, W>,
) {
    match reader.copy_unit(mode, unit) {
        CopiedUnit::Same(unit) => out.append(unit),
        CopiedUnit::LeftOut => {}
        CopiedUnit::SnapLen {
            front,
            snap_len,
            rest,
        } => {
            out.append(front);
            out.append(&snap_len);
            out.append(rest);
        }
        CopiedUnit::SectionLen { front, rest } => {
            out.append(front);
            out.append(&[0xFF; 8]);
            out.append(rest);
        }
    }
}

/// Writes the unit of a packet, edited if there is an edit for it. Returns `false` and writes nothing if it can't be
/// edited.
///
/// # Panics
///
/// The call may panic, or return something else, if a `requires` of its contract is not met.
///
/// <details><summary>Contract</summary>
///
/// ```text
/// requires { IsUnitOf reader.now unit.now (Some (captured_packet_view packet.now)) }
/// ensures written { IsTrue result → WritesPacket (copy_mode_view mode) (option_map edit_view edit) reader.now unit.now
///     (captured_packet_view packet.now) W.contents W.can_fail out.old out.new }
/// ensures not_written { IsFalse result → IsUneditable (copy_mode_view mode) (option_map edit_view edit) reader.now
///     unit.now
///     (captured_packet_view packet.now) }
/// ensures same_out { IsFalse result → out.new ≡ out.old }
/// ```
///
/// </details>
#[inline(never)]
pub fn write_packet<T: InterfaceTable, B: Grow, W: Sink>(
    reader: &CaptureReader<T>,
    mode: CopyMode,
    edit: Option<PacketEdit>,
    edits: &mut EditBuffer<B>,
    unit: &[u8],
    packet: &CapturedPacket<'_>,
    out: &mut OutputBuffer<'_, W>,
) -> bool {
    match edits.edit(edit, packet) {
        Some(edited) => write_edited(reader, edits, unit, &edited, out),
        None if !reader.copies_packet(mode, unit, packet) => false,
        None => {
            out.append(unit);
            true
        }
    }
}

/// Writes the unit of a packet as edited. Returns `false` and writes nothing if it can't be edited.
fn write_edited<T: InterfaceTable, B: Grow, W: Sink>(
    reader: &CaptureReader<T>,
    edits: &EditBuffer<B>,
    unit: &[u8],
    edited: &EditedPacket,
    out: &mut OutputBuffer<'_, W>,
) -> bool {
    let packet = edits.packet(edited);
    match reader.edit_unit(unit, packet, edited.original_len) {
        Some(unit) => {
            append_unit(&unit, out);
            true
        }
        None => false,
    }
}

/// Appends the parts of an edited unit, one after the other.
fn append_unit<W: Sink>(unit: &EditedUnit<'_>, out: &mut OutputBuffer<'_, W>) {
    match unit {
        EditedUnit::Record { header, packet } => {
            out.append(header);
            out.append(packet);
        }
        EditedUnit::Block {
            header,
            packet,
            padding_len,
            options,
            trailer,
        } => {
            out.append(header);
            out.append(packet);
            out.append(&[0, 0, 0][..*padding_len]);
            out.append(options);
            out.append(trailer);
        }
    }
}
