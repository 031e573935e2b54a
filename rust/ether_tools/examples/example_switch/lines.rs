//! Writes the lines for a frame.

use crate::reading::Arrival;
use etherpeel::ether_switch::{Bridge, Received, StationBucket};
use ether_tools::ether_capture::memory::{Global, NoMemory as AllocError};

/// Passes a frame through a bridge, and returns a line for each port through which it leaves.
pub(crate) fn frame_lines(
    alloc: Global,
    bridge: &Bridge,
    table: &mut [StationBucket],
    arrival: &Arrival,
    frame: &[u8],
) -> Result<String, AllocError> {
    match bridge.receive(
        table,
        arrival.time,
        arrival.from,
        &arrival.port.config(),
        frame,
    ) {
        Ok(received) => received_lines(alloc, &received, frame),
        Err(_) => Ok(String::new()),
    }
}

/// The lines for a frame that was received, one for each port through which it leaves.
fn received_lines(alloc: Global, received: &Received, frame: &[u8]) -> Result<String, AllocError> {
    let tagged = tagged_form(alloc, received, frame)?;
    let untagged = untagged_form(alloc, received, frame)?;
    let mut text = String::new();
    for number in 0..256u16 {
        let line = line_to(
            alloc,
            received,
            number as u8,
            tagged.as_slice(),
            untagged.as_slice(),
        )?;
        text.push_str(line.as_str());
    }
    Ok(text)
}

/// The frame as it leaves with the tag of its VLAN.
fn tagged_form(alloc: Global, received: &Received, frame: &[u8]) -> Result<Vec<u8>, AllocError> {
    let mut buffer = vec![0, 0, 0, 0];
    buffer.extend_from_slice(frame);
    tagged_in(alloc, received, buffer.as_mut_slice())
}

/// Does as `tagged_form` with the frame after four free bytes of a buffer.
fn tagged_in(alloc: Global, received: &Received, buffer: &mut [u8]) -> Result<Vec<u8>, AllocError> {
    match received.make_tagged(buffer) {
        Some(at) => rest_from(alloc, buffer, at),
        None => Ok(Vec::new()),
    }
}

/// The frame as it leaves without a tag.
fn untagged_form(alloc: Global, received: &Received, frame: &[u8]) -> Result<Vec<u8>, AllocError> {
    let mut buffer = vec![0, 0, 0, 0];
    buffer.extend_from_slice(frame);
    untagged_in(alloc, received, buffer.as_mut_slice())
}

/// Does as `untagged_form` with the frame after four free bytes of a buffer.
fn untagged_in(alloc: Global, received: &Received, buffer: &mut [u8]) -> Result<Vec<u8>, AllocError> {
    match received.make_untagged(buffer) {
        Some(at) => rest_from(alloc, buffer, at),
        None => Ok(Vec::new()),
    }
}

/// The bytes of a buffer from the index `at` on.
fn rest_from(alloc: Global, buffer: &[u8], at: usize) -> Result<Vec<u8>, AllocError> {
    let mut bytes = Vec::new();
    bytes.extend_from_slice(buffer.get(at..).unwrap_or(&[]));
    Ok(bytes)
}

/// The line for a port and a frame in both forms; empty if the frame does not leave by that port.
fn line_to(
    alloc: Global,
    received: &Received,
    number: u8,
    tagged: &[u8],
    untagged: &[u8],
) -> Result<String, AllocError> {
    if received.tagged.contains(number) {
        return line(alloc, number, tagged);
    }
    if received.untagged.contains(number) {
        return line(alloc, number, untagged);
    }
    Ok(String::new())
}

/// The line for a frame that leaves by a port.
fn line(alloc: Global, number: u8, frame: &[u8]) -> Result<String, AllocError> {
    let digits = hex::encode(frame);
    Ok(format!("{number} {digits}\n"))
}
