//! Writes the packets of a capture file to an array.

use crate::EtherCaptured;
use crate::statuses::{BAD_CAPTURE, DONE, SHORT};
use etherpeel::ether_pcap::{CaptureFault, CapturePackets};

/// Where the packets of a capture file end: `etherpeel_capture_end` in C.
///
/// Each bit pattern is a value, so that C may pass memory that it has not written to.
#[repr(C)]
#[derive(Clone, Copy)]
pub struct EtherCaptureEnd {
    /// The length of the file, or the offset of the unit that can't be read.
    pub offset: usize,
    /// The minimum number of bytes that this unit needs, if the file ends within it; else 0.
    pub needed: usize,
}

// as c/etherpeel.h lays it out
const _: () = assert!(size_of::<EtherCaptureEnd>() == 16);

/// Writes as many packets of a capture file as the array has room for, the number of all its packets, and where they
/// end. The status says why.
///
/// <details><summary>Contract</summary>
///
/// ```text
/// ensures { GivesCapture file.now packets.old packets.new count.new end.new result }
/// ```
///
/// </details>
#[unsafe(no_mangle)]
pub unsafe extern "C" fn etherpeel_capture<'a>(
    file: *const u8,
    file_len: usize,
    packets: *mut EtherCaptured<'a>,
    packets_len: usize,
    count: &mut usize,
    end: &mut EtherCaptureEnd,
) -> u32 {
    let file = unsafe { crate::by_hand::shared(file, file_len) };
    let packets = unsafe { crate::by_hand::mutable(packets, packets_len) };
    let (found, fault) = captured(file, packets);
    *count = found;
    match fault {
        None => {
            *end = EtherCaptureEnd {
                offset: file.len(),
                needed: 0,
            };
            DONE
        }
        Some(fault) => {
            let needed = fault.error.required_len();
            *end = EtherCaptureEnd {
                offset: fault.offset,
                needed: needed.unwrap_or(0),
            };
            if needed.is_some() { SHORT } else { BAD_CAPTURE }
        }
    }
}

/// Writes as many packets of a capture file as the array has room for. Returns the number of all its packets, and the
/// fault that ends them, if there is one.
pub(crate) fn captured<'a>(
    file: &'a [u8],
    packets: &mut [EtherCaptured<'a>],
) -> (usize, Option<CaptureFault>) {
    let mut reader = CapturePackets::from_slice(file);
    let mut count = 0;
    loop {
        match reader.next() {
            Some(Ok(packet)) => {
                put(packets, count, EtherCaptured::of(packet));
                count += 1;
            }
            Some(Err(fault)) => return (count, Some(fault)),
            None => return (count, None),
        }
    }
}

/// Writes a packet to the index `at`, if the array has that index.
fn put<'a>(packets: &mut [EtherCaptured<'a>], at: usize, packet: EtherCaptured<'a>) {
    if at < packets.len() {
        packets[at] = packet;
    }
}
