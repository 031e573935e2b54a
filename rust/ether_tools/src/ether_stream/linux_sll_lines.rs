//! Writes the line of the header of a packet of Linux cooked capture v1 that is not a frame.

use etherpeel::ether_content::CookedHeader;
use etherpeel::ether_output::{OutputBuffer, Sink, hex_type, write_number};
use crate::ether_text::hex_long;

/// Writes the line of the header.
///
/// <details><summary>Contract</summary>
///
/// ```text
/// ensures { Takes W.contents W.can_fail out.old (linux_sll_text 0 (cooked_view header.now) ++ codes "\n") out.new }
/// ```
///
/// </details>
#[inline(never)]
pub fn write_linux_sll<W: Sink>(header: &CookedHeader, out: &mut OutputBuffer<'_, W>) {
    write_number(out, b"linux_sll ", 0);
    write_number(out, b" packet ", u64::from(header.packet_type));
    write_number(out, b" hw ", u64::from(header.hardware_type.0));
    write_number(out, b" alen ", u64::from(header.address_len));
    out.append(b" addr ");
    out.append(&address_digits(&header.address));
    out.append(b" ");
    out.append(&hex_type(header.protocol));
    out.append(b"\n");
}

/// The digits of the eight bytes of an address.
fn address_digits(address: &[u8]) -> [u8; 16] {
    let a = address;
    hex_long([a[0], a[1], a[2], a[3], a[4], a[5], a[6], a[7]])
}
