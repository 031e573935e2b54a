//! Writes whole frames for callers in C.

use crate::EtherUnit;
use crate::building::{MAX_TAGS, content, parts};
use crate::statuses::{BAD_FIELD, DONE, NO_ROOM};
use etherpeel::ether_packet::PacketBuilder;
use etherpeel::{LinkExtHeader, SingleVlanHeader};

/// Writes a frame to the front of a target: the headers of the units as they are, and the bytes of another frame from
/// `rest_start` on. The addresses of an ARP packet are read from the other frame.
///
/// <details><summary>Contract</summary>
///
/// ```text
/// ensures { GivesFrameWritten units.now bytes.now rest_start target.old target.new len.new result }
/// ```
///
/// </details>
#[unsafe(no_mangle)]
pub unsafe extern "C" fn etherpeel_write_frame(
    units: *const EtherUnit,
    units_len: usize,
    bytes: *const u8,
    bytes_len: usize,
    rest_start: usize,
    target: *mut u8,
    target_len: usize,
    len: &mut usize,
) -> u32 {
    let units = unsafe { crate::by_hand::shared(units, units_len) };
    let bytes = unsafe { crate::by_hand::shared(bytes, bytes_len) };
    let target = unsafe { crate::by_hand::mutable(target, target_len) };
    let mut tags = [LinkExtHeader::Vlan(SingleVlanHeader::default()); MAX_TAGS];
    let (status, given) = match parts(units, bytes, &mut tags) {
        Ok(parts) => {
            let headers = PacketBuilder {
                link: parts.link,
                link_exts: &tags[..parts.tags],
                content: content(&parts.arp, 0, &[]),
            };
            write_rest(&headers, units.len(), bytes, rest_start, target)
        }
        Err(refusal) => refusal,
    };
    *len = given;
    status
}

/// Writes headers, and the bytes of a frame from an offset on. Returns the status of the call, and the length of both;
/// the number of units if the offset is not in the frame.
fn write_rest(
    headers: &PacketBuilder<'_, '_>,
    count: usize,
    bytes: &[u8],
    rest_start: usize,
    target: &mut [u8],
) -> (u32, usize) {
    if rest_start > bytes.len() {
        return (BAD_FIELD, count);
    }
    write(headers, &bytes[rest_start..], target)
}

/// Writes headers, and bytes after them. Returns the status of the call, and the length of both.
fn write(headers: &PacketBuilder<'_, '_>, rest: &[u8], target: &mut [u8]) -> (u32, usize) {
    let size = headers.size();
    let len = size.saturating_add(rest.len());
    if target.len() < size || target.len() - size < rest.len() {
        return (NO_ROOM, len);
    }
    match headers.write_unchanged(target) {
        Ok(end) => {
            target[end..end + rest.len()].copy_from_slice(rest);
            (DONE, len)
        }
        // Not reached: the target has room for the headers.
        Err(_) => (NO_ROOM, len),
    }
}
