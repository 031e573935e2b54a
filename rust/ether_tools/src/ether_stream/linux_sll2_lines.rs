//! Writes the lines of a packet of Linux cooked capture v2.

use etherpeel::ether_output::{OutputBuffer, Sink, hex_type, write_number};
use etherpeel::ether_peel::{RestKind, Start};
use etherpeel::ether_sll2::{LinuxSll2Error, LinuxSll2Header, LinuxSll2Slice};
use crate::ether_text::{hex_long, write_rest};
use etherpeel::EtherType;

/// Writes the line of the header, and returns what its payload begins with, and the payload.
///
/// If the payload is not walked, writes the line of what is left, too, and returns `Err(true)`. If the header is
/// refused, writes only the line of the fault, and returns `Err(false)`.
///
/// <details><summary>Contract</summary>
///
/// ```text
/// ensures walked { IfOk result (λ payload. BeginsWalk bytes.now payload.0 payload.1.now
///     × Takes W.contents W.can_fail out.old (linux_sll2_text (linux_sll2_of bytes.now) ++ codes "\n") out.new) }
/// ensures ended { IfErr result (λ accepted. (limit : Option ℕ)
///     → TakesAnswer W.contents W.can_fail (AnswersLinuxSll2 limit bytes.now) out.old out.new accepted) }
/// ```
///
/// </details>
#[inline(never)]
pub fn write_linux_sll2<'a, W: Sink>(
    bytes: &'a [u8],
    out: &mut OutputBuffer<'_, W>,
) -> Result<(Start, &'a [u8]), bool> {
    let packet = match LinuxSll2Slice::from_slice(bytes) {
        Ok(packet) => packet,
        Err(error) => {
            write_refusal(&error, out);
            out.append(b"\n");
            return Err(false);
        }
    };
    write_header(&packet, out);
    match packet.start() {
        Some(start) => Ok((start, packet.payload_slice())),
        None => {
            let kind = RestKind::Sll(packet.protocol_type());
            write_rest(out, LinuxSll2Header::LEN, bytes.len(), kind);
            Err(true)
        }
    }
}

/// Writes the line of the header.
fn write_header<W: Sink>(packet: &LinuxSll2Slice<'_>, out: &mut OutputBuffer<'_, W>) {
    write_number(out, b"linux_sll2 ", 0);
    write_number(out, b" packet ", u64::from(packet.packet_type_number()));
    write_number(out, b" hw ", u64::from(packet.arp_hardware_type().0));
    write_number(out, b" if ", packet.interface_index() as u64);
    write_number(
        out,
        b" alen ",
        u64::from(packet.sender_address_valid_length()),
    );
    out.append(b" addr ");
    out.append(&hex_long(packet.sender_address_full()));
    out.append(b" ");
    out.append(&hex_type(EtherType(packet.protocol_number())));
    out.append(b"\n");
}

/// Writes the text of the fault of a header.
fn write_refusal<W: Sink>(error: &LinuxSll2Error, out: &mut OutputBuffer<'_, W>) {
    write_number(out, b"fault ", 0);
    match error {
        LinuxSll2Error::Len { required_len, len } => {
            write_number(out, b" open length ", *required_len as u64);
            write_number(out, b" ", *len as u64);
            out.append(b" slice");
        }
        LinuxSll2Error::PacketType(number) => write_number(
            out,
            b" open content sll_packet_type ",
            u64::from(*number),
        ),
    }
}
