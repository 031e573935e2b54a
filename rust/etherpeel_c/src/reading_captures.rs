//! Reads a capture file unit by unit.

use crate::statuses::{BAD_CAPTURE, BAD_FIELD, DONE, NO_ROOM, SHORT};
use crate::{EtherCaptured, EtherInterface, EtherReadUnit, EtherReader};
use etherpeel::ether_pcap::{CaptureError, CaptureInterface, DescribedInterfaces, ReadUnit, UnitContent};

/// Reads the unit at the front of bytes, and writes its packet, if it has one. The reader and its table keep what the
/// unit says of those after it.
///
/// <details><summary>Contract</summary>
///
/// ```text
/// ensures unfit { expected_by reader.old interfaces.old ≡ None
///     → (result ≡ bad_field) × (reader.new ≡ reader.old) × (interfaces.new ≡ interfaces.old)
///     × (packet.new ≡ packet.old) × (unit.new ≡ unit.old) }
/// ensures given { IfSome (expected_by reader.old interfaces.old) (λ x. GivesUnit bytes.now x
///     reader.old reader.new interfaces.old interfaces.new packet.old packet.new unit.new result) }
/// ```
///
/// </details>
#[unsafe(no_mangle)]
pub unsafe extern "C" fn etherpeel_reader_read<'a>(
    reader: &mut EtherReader,
    interfaces: *mut EtherInterface,
    interfaces_len: usize,
    bytes: *const u8,
    bytes_len: usize,
    packet: &mut EtherCaptured<'a>,
    unit: &mut EtherReadUnit,
) -> u32 {
    let interfaces = unsafe { crate::by_hand::mutable(interfaces, interfaces_len) };
    let bytes = unsafe { crate::by_hand::shared(bytes, bytes_len) };
    match read_unit(reader, interfaces, bytes) {
        Some(Ok(read)) => {
            keep(reader, interfaces, &read.content);
            *unit = EtherReadUnit::of(&read);
            put(packet, read.content);
            DONE
        }
        Some(Err(error)) => {
            *unit = EtherReadUnit::of_refusal(&error);
            status_of(&error)
        }
        None => BAD_FIELD,
    }
}

/// Reads the unit at the front of bytes, and keeps nothing. `None` if the state has no number, or if there are more
/// interfaces than the table has room for.
pub(crate) fn read_unit<'a>(
    reader: &EtherReader,
    interfaces: &[EtherInterface],
    bytes: &'a [u8],
) -> Option<Result<ReadUnit<'a>, CaptureError>> {
    if reader.interface_count > interfaces.len() {
        return None;
    }
    let state = reader.to_state()?;
    let described = Table(&interfaces[..reader.interface_count]);
    match state.read(&described, bytes) {
        Ok(unit) if is_full(reader, interfaces, &unit.content) => {
            Some(Err(CaptureError::TooManyInterfaces))
        }
        read => Some(read),
    }
}

/// Tests that a unit describes an interface for which the table has no room.
fn is_full(reader: &EtherReader, interfaces: &[EtherInterface], content: &UnitContent<'_>) -> bool {
    matches!(content, UnitContent::Interface(_)) && reader.interface_count == interfaces.len()
}

/// The interfaces that a section has described so far.
#[derive(Clone, Copy)]
struct Table<'t>(&'t [EtherInterface]);

impl DescribedInterfaces for Table<'_> {
    fn interface(&self, number: u32) -> Option<CaptureInterface> {
        let interface = self.0.get(number as usize)?;
        Some(interface.to_interface())
    }
}

/// Keeps what a unit says of those after it.
fn keep(reader: &mut EtherReader, interfaces: &mut [EtherInterface], content: &UnitContent<'_>) {
    match content {
        UnitContent::FileHeader(header) => reader.put_header(header),
        UnitContent::Section(byte_order) => reader.put_section(*byte_order),
        UnitContent::Interface(interface) => {
            interfaces[reader.interface_count] = EtherInterface::of(interface);
            reader.interface_count += 1;
        }
        UnitContent::Packet(_) | UnitContent::Other => {}
    }
}

/// Writes the packet of a unit, if it has one.
fn put<'a>(packet: &mut EtherCaptured<'a>, content: UnitContent<'a>) {
    if let UnitContent::Packet(captured) = content {
        *packet = EtherCaptured::of(captured);
    }
}

/// The status for a unit that can't be read.
fn status_of(error: &CaptureError) -> u32 {
    match error {
        CaptureError::TooManyInterfaces => NO_ROOM,
        _ if error.required_len().is_some() => SHORT,
        _ => BAD_CAPTURE,
    }
}
