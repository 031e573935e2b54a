//! The output of frames, in the form that is asked for.

use crate::ether_make::check_sequence::check_sequence;
use crate::ether_make::frame::Frame;
use crate::ether_make::settings::{Form, Settings};
use crate::ether_make::{capture, hex_lines};
use crate::ether_make::memory::{AllocError, Taking};
use std::io;
use std::io::Write;

/// A frame with its check sequence, if that is asked for and the frame is one of Ethernet.
///
/// <details><summary>Contract</summary>
///
/// ```text
/// ensures finished { IfOk result (λ f. frame_view f ≡ finished_in settings.now (frame_view frame)) }
/// ensures len { IfOk result (λ f. length f.bytes.items
///     ≡ length frame.bytes.items + (if settings.now.fcs && nat_eq frame.link 1 then 4 else 0)) }
/// ```
///
/// </details>
pub fn finished(settings: &Settings, frame: Frame) -> Result<Frame, AllocError> {
    let has_sequence = has_sequence(settings, &frame);
    let Frame { link, time, bytes } = frame;
    let bytes = if has_sequence {
        with_sequence(bytes)?
    } else {
        bytes
    };
    Ok(Frame { link, time, bytes })
}

/// Whether a frame has a check sequence.
///
/// <details><summary>Contract</summary>
///
/// ```text
/// ensures { result ≡ (settings.now.fcs && nat_eq frame.now.link 1) }
/// ```
///
/// </details>
pub fn has_sequence(settings: &Settings, frame: &Frame) -> bool {
    settings.fcs && frame.link == 1
}

/// Bytes with their check sequence after them.
fn with_sequence(bytes: Vec<u8>) -> Result<Vec<u8>, AllocError> {
    let sequence = check_sequence(bytes.as_slice());
    let mut checked = bytes;
    checked.try_extend_from_slice(&sequence)?;
    Ok(checked)
}

/// Writes a frame that is finished after frames with this link type, if there are any. In a
/// capture, a frame is cut after 262,144 bytes.
///
/// <details><summary>Contract</summary>
///
/// ```text
/// ensures link { OnOk result (link.new ≡ linked link.old (frame_view frame.now)) }
/// ensures grows { OnOk result (length frame.now.bytes.items < 2 ^ 32
///     → Grows (IsBegunAs settings.now.form settings.now.fcs) link.old (linked link.old (frame_view frame.now))
///     (frame_view frame.now ∷ []) (W.contents writer.old) (W.contents writer.new)) }
/// ```
///
/// </details>
pub fn write_frame<W: Write>(
    settings: &Settings,
    writer: &mut W,
    link: &mut Option<u16>,
    frame: &Frame,
) -> io::Result<()> {
    match settings.form {
        Form::Capture => capture::write_frame(writer, settings.fcs, link, frame),
        Form::Hex => hex_lines::write_frame(writer, link, frame),
    }
}

/// Writes what is missing at the end.
///
/// <details><summary>Contract</summary>
///
/// ```text
/// ensures { OnOk result (Ends (IsBegunAs settings.now.form settings.now.fcs)
///     (IsWrittenAs settings.now.form settings.now.fcs) link (W.contents writer.old) (W.contents writer.new)) }
/// ```
///
/// </details>
pub fn write_end<W: Write>(settings: &Settings, writer: &mut W, link: Option<u16>) -> io::Result<()> {
    match settings.form {
        Form::Capture => capture::write_end(writer, settings.fcs, link),
        Form::Hex => writer.flush(),
    }
}
