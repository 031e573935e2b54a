//! Lines of packets, and the names in them.
use crate::captures::drawn_capture;
use crate::draw::Draw;
use crate::text::{Text, WithText};
use arrayvec::ArrayVec;
use etherpeel::ether_fields::{Field, Kind, Section, name_of};
use etherpeel::ether_format::{Columns, Format, Origin, nine_digits, split_at, write_json_text, write_packet};
use etherpeel::ether_output::{
    OutputBuffer, digit_pair, eight_digits, hex_type, source_of, write_decimal, write_number,
};
use etherpeel::ether_pcap::CapturePackets;
use etherpeel::{EtherType, LenSource};
use std::fmt;

/// What lines are written to; some are longer.
type Written = ArrayVec<u8, 4096>;

static FORMATS: [&[u8]; 12] = [
    b"json",
    b"brief",
    b"common",
    b"eth.src,eth.dst,eth.type",
    b"vlan.vid,vlan.pcp,vlan.dei",
    b"frame.time,frame.number",
    b"arp.spa,arp.op,arp.sha",
    b"macsec.sci,macsec.pn,macsec.an",
    b"headers.header,fault",
    b"json,",
    b"eth.nothing",
    b"",
];

/// Calls what writes lines, and what names the fields in them.
pub(crate) fn calls(draw: &mut Draw, text: &mut Text) -> fmt::Result {
    names(draw, text)?;
    let name = match FORMATS.get(draw.below(12)) {
        Some(name) => *name,
        None => b"json",
    };
    match draw.below(3) {
        0 => numbers(draw, text),
        1 => columns(name, text),
        _ => packets(draw, name, text),
    }
}

/// Writes a number in two ways.
fn decimals(number: u32, written: &mut Written, text: &mut Text) -> fmt::Result {
    let mut out = OutputBuffer::new(written);
    write_decimal(&mut out, u64::from(number));
    out.append(b" ");
    write_number(&mut out, b"offset ", u64::from(number));
    out.append_array([b'\n']);
    text.add(&(&out.check(), &out.waiting(), &out.has_waiting()))?;
    text.add(&(&out.write_out(), &out.flush()))
}

fn numbers(draw: &mut Draw, text: &mut Text) -> fmt::Result {
    let mut written = Written::new();
    decimals(draw.word() >> draw.below(32), &mut written, text)?;
    text.add(&(&written, &eight_digits(draw.next() % 100_000_000)))?;
    text.add(&(
        &nine_digits(draw.word() % 1_000_000_000),
        &digit_pair(draw.byte() % 100),
    ))?;
    text.add(&(
        &hex_type(EtherType(draw.short())),
        &source_of(LenSource::ArpAddrLengths),
    ))
}

fn names(draw: &mut Draw, text: &mut Text) -> fmt::Result {
    let number = draw.below(128) as u32;
    text.add(&Field::of_number(number))?;
    let section = match draw.below(10) {
        0 => Section::Frame,
        1 => Section::Eth,
        2 => Section::Sll,
        3 => Section::Sll2,
        4 => Section::Vlan,
        5 => Section::Macsec,
        6 => Section::Arp,
        7 => Section::Headers,
        8 => Section::Rest,
        _ => Section::Fault,
    };
    text.add(&(
        &section,
        &section.name(),
        &Section::of_name(section.name().as_bytes()),
    ))?;
    text.add(&section.fields())?;
    let kind = match draw.below(5) {
        0 => Kind::EtherType,
        1 => Kind::HardwareType,
        2 => Kind::PacketType,
        3 => Kind::Operation,
        _ => Kind::LinkType,
    };
    let number = if draw.flag() {
        draw.ether_type()
    } else {
        draw.small_u16()
    };
    text.add(&(&kind, &name_of(kind, u64::from(number))))
}

fn columns(name: &[u8], text: &mut Text) -> fmt::Result {
    text.add(&split_at(b',', name))?;
    let mut written = Written::new();
    let mut out = OutputBuffer::new(&mut written);
    write_json_text(name, &mut out);
    text.add(&out.flush())?;
    text.add(&written)?;
    let Ok(name) = std::str::from_utf8(name) else {
        return Ok(());
    };
    text.add(&Columns::unknown_name(name))?;
    let columns = Columns::of_names(name).unwrap_or(Columns::common());
    let mut written = Written::new();
    let mut out = OutputBuffer::new(&mut written);
    columns.write_heading(&mut out);
    Format::Csv(columns).write_heading(&mut out);
    text.add(&out.flush())?;
    text.add(&(&columns, &written, &columns.after_original()))
}

/// Writes the lines of some packets; of one in four not all headers.
fn packets(draw: &mut Draw, name: &[u8], text: &mut Text) -> fmt::Result {
    let format = match Format::of_text(name) {
        Some(Format::Fields(columns)) if draw.flag() => Format::Csv(columns),
        Some(Format::Json) if draw.flag() => Format::JsonBytes,
        Some(format) => format,
        None => return Ok(()),
    };
    let capture = drawn_capture(draw);
    let mut written = Written::new();
    let mut out = OutputBuffer::new(&mut written);
    let mut number = 1;
    for packet in CapturePackets::from_slice(capture.as_slice()) {
        let limit = if draw.one_in(4) {
            Some(draw.below(4))
        } else {
            None
        };
        let origin = Origin {
            file: if draw.flag() { Some(name) } else { None },
            number,
        };
        match packet {
            Ok(packet) => text.add(&write_packet(&format, limit, &origin, &packet, &mut out))?,
            Err(fault) => text.add(&WithText(&fault))?,
        }
        number += 1;
        if number > 9 {
            break;
        }
    }
    text.add(&out.flush())?;
    text.add(&written)
}
