//! Packets of Linux cooked capture v2.

use crate::field_putting::put_table;
use crate::statuses::{BAD_PACKET_TYPE, DONE, SHORT};
use crate::{EtherField, EtherLinuxSll2};
use etherpeel::ether_fields::{Part, Section, Sizes, places};
use etherpeel::ether_sll2::{LinuxSll2Error, LinuxSll2Slice};

/// Reads the header of a packet of Linux cooked capture v2, and how the walk of its payload starts.
///
/// <details><summary>Contract</summary>
///
/// ```text
/// ensures { GivesLinuxSll2 bytes.now header.new result }
/// ```
///
/// </details>
#[unsafe(no_mangle)]
pub unsafe extern "C" fn etherpeel_linux_sll2(bytes: *const u8, bytes_len: usize, header: &mut EtherLinuxSll2) -> u32 {
    let bytes = unsafe { crate::by_hand::shared(bytes, bytes_len) };
    match LinuxSll2Slice::from_slice(bytes) {
        Ok(packet) => {
            *header = EtherLinuxSll2::of(&packet);
            DONE
        }
        Err(error) => {
            *header = EtherLinuxSll2::of_refusal(&error);
            refusal_status(&error)
        }
    }
}

/// Writes as many fields of the header of a packet of Linux cooked capture v2 as the array has room for, and the
/// number of all its fields.
///
/// <details><summary>Contract</summary>
///
/// ```text
/// ensures { GivesLinuxSll2Fields bytes.now fields.old fields.new count.old count.new result }
/// ```
///
/// </details>
#[unsafe(no_mangle)]
pub unsafe extern "C" fn etherpeel_linux_sll2_fields(
    bytes: *const u8,
    bytes_len: usize,
    fields: *mut EtherField,
    fields_len: usize,
    count: &mut usize,
) -> u32 {
    let bytes = unsafe { crate::by_hand::shared(bytes, bytes_len) };
    let fields = unsafe { crate::by_hand::mutable(fields, fields_len) };
    match LinuxSll2Slice::from_slice(bytes) {
        Ok(_) => {
            let table = places(Section::Sll2, &Part::Header(Sizes::NONE));
            *count = put_table(bytes, 0, 0, table.as_slice(), fields, 0);
            DONE
        }
        Err(error) => refusal_status(&error),
    }
}

/// The status for a header that is refused.
fn refusal_status(error: &LinuxSll2Error) -> u32 {
    match error {
        LinuxSll2Error::Len { .. } => SHORT,
        LinuxSll2Error::PacketType(_) => BAD_PACKET_TYPE,
    }
}
