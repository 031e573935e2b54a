//! The capture of frames, written frame by frame.

use crate::ether_make::frame::Frame;
use etherpeel::ether_pcap::{ByteOrder, FileHeader, LinkType, PcapRecord, TimestampResolution};
use std::io;
use std::io::Write;

/// Writes a frame to a capture whose frames so far have this link type. Before the first frame the file header is
/// written, which says whether frames of Ethernet have check sequences.
///
/// <details><summary>Contract</summary>
///
/// ```text
/// ensures link { OnOk result (link.new ≡ linked link.old (frame_view frame.now)) }
/// ensures grows { OnOk result (length frame.now.bytes.items < 2 ^ 32
///     → Grows (IsBegun fcs) link.old (linked link.old (frame_view frame.now)) (frame_view frame.now ∷ [])
///     (W.contents writer.old) (W.contents writer.new)) }
/// ```
///
/// </details>
pub fn write_frame<W: Write>(
    writer: &mut W,
    fcs: bool,
    link: &mut Option<u16>,
    frame: &Frame,
) -> io::Result<()> {
    match *link {
        None => {
            write_header(writer, fcs, frame.link)?;
            write_record(writer, frame)?;
            *link = Some(frame.link);
            Ok(())
        }
        Some(_) => {
            write_record(writer, frame)?;
            Ok(())
        }
    }
}

/// Writes what is missing at the end: the file header, if there is no frame.
///
/// <details><summary>Contract</summary>
///
/// ```text
/// ensures { OnOk result (Ends (IsBegun fcs) (IsTheCapture fcs) link (W.contents writer.old) (W.contents writer.new)) }
/// ```
///
/// </details>
pub fn write_end<W: Write>(writer: &mut W, fcs: bool, link: Option<u16>) -> io::Result<()> {
    match link {
        None => {
            write_header(writer, fcs, 1)?;
            writer.flush()?;
            Ok(())
        }
        Some(_) => {
            writer.flush()?;
            Ok(())
        }
    }
}

/// Writes a file header: times are in nanoseconds.
fn write_header<W: Write>(writer: &mut W, fcs: bool, link: u16) -> io::Result<()> {
    let header = FileHeader {
        byte_order: ByteOrder::LittleEndian,
        resolution: TimestampResolution::Nanoseconds,
        snap_len: PcapRecord::MAX_CAPTURED_LEN,
        link_type: LinkType(link),
        fcs_len: fcs_len(fcs, link),
    };
    writer.write_all(&header.to_bytes())?;
    Ok(())
}

/// Writes the record of a frame, which is cut at the snap length.
fn write_record<W: Write>(writer: &mut W, frame: &Frame) -> io::Result<()> {
    let packet = captured(frame.bytes.as_slice());
    let record = PcapRecord {
        seconds: frame.time.seconds,
        fraction: frame.time.nanoseconds,
        original_len: frame.bytes.len().min(0xFFFF_FFFF) as u32,
        packet,
    };
    writer.write_all(&record.header_to_bytes(ByteOrder::LittleEndian))?;
    writer.write_all(packet)?;
    Ok(())
}

/// What a capture has of a packet.
fn captured(packet: &[u8]) -> &[u8] {
    if packet.len() > 262_144 {
        return &packet[..262_144];
    }
    packet
}

/// The length of the check sequence, for frames of Ethernet.
fn fcs_len(fcs: bool, link: u16) -> Option<u8> {
    if fcs && link == 1 { Some(4) } else { None }
}
