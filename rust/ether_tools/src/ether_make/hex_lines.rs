//! Frames as lines of hexadecimal digits.

use crate::ether_make::frame::Frame;
use etherpeel::ether_output::digit_pair;
use std::io;
use std::io::Write;

/// Writes a frame as a line, after frames with this link type, if there are any.
///
/// <details><summary>Contract</summary>
///
/// ```text
/// ensures link { OnOk result (link.new ≡ linked link.old (frame_view frame.now)) }
/// ensures line { OnOk result (Appends (W.contents writer.old) (W.contents writer.new)
///     (hex_line frame.now.bytes.items)) }
/// ```
///
/// </details>
pub fn write_frame<W: Write>(
    writer: &mut W,
    link: &mut Option<u16>,
    frame: &Frame,
) -> io::Result<()> {
    write_line(writer, frame.bytes.as_slice())?;
    match *link {
        None => {
            *link = Some(frame.link);
            Ok(())
        }
        Some(_) => Ok(()),
    }
}

/// Writes bytes as a line.
fn write_line<W: Write>(writer: &mut W, bytes: &[u8]) -> io::Result<()> {
    for byte in bytes {
        writer.write_all(&digit_pair(*byte))?;
    }
    writer.write_all(b"\n")?;
    Ok(())
}
