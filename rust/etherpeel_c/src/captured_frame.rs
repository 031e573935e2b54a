//! The part of a captured packet that is walked.

use crate::statuses::{DONE, UNKNOWN_START};
use crate::{EtherCaptured, EtherFrame};
use etherpeel::ether_content::Content;

/// The frame that is walked of a captured packet, by its link type.
///
/// For Linux cooked capture v2 it is the payload, if the header can be read and an ether type announces the payload.
///
/// <details><summary>Contract</summary>
///
/// ```text
/// ensures { GivesFrame (content_of (packet_value packet.now)) frame.old frame.new result }
/// ```
///
/// </details>
#[unsafe(no_mangle)]
pub extern "C" fn etherpeel_captured_frame<'a>(
    packet: &EtherCaptured<'a>,
    frame: &mut EtherFrame<'a>,
) -> u32 {
    match EtherFrame::of(Content::of(&packet.to_packet())) {
        Some(found) => {
            *frame = found;
            DONE
        }
        None => UNKNOWN_START,
    }
}
