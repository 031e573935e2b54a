//! Ethernet II.
use crate::draw::Draw;
use crate::frames::{Frame, add_drawn, add_u16};
use crate::text::{Text, WithText};
use etherpeel::err::LenError;
use etherpeel::{Ethernet2Header, Ethernet2HeaderSlice, Ethernet2Slice};
use std::fmt;

/// Calls all that reads and writes an Ethernet II header.
pub(crate) fn calls(draw: &mut Draw, text: &mut Text) -> fmt::Result {
    let mut frame = Frame::new();
    add_drawn(draw, &mut frame, 12);
    add_u16(&mut frame, draw.ether_type());
    let len = draw.below(20);
    add_drawn(draw, &mut frame, len);
    frame.truncate(draw.below(40));
    header(frame.as_slice(), text)?;
    views(frame.as_slice(), text)
}

fn header(bytes: &[u8], text: &mut Text) -> fmt::Result {
    let read = Ethernet2Header::from_slice(bytes);
    text.add(&(&read, &Ethernet2Header::read_from_slice(bytes)))?;
    if let Ok((header, _)) = read {
        let mut target = [0u8; 16];
        text.add(&(&header.header_len(), &header.to_bytes()))?;
        text.add(&Ethernet2Header::from_bytes(header.to_bytes()))?;
        text.add(&header.write_to_slice(&mut target))?;
        text.add(&target)?;
    }
    Ok(())
}

fn views(bytes: &[u8], text: &mut Text) -> fmt::Result {
    if let Ok(view) = Ethernet2HeaderSlice::from_slice(bytes) {
        text.add(&(&view, &view.slice(), &view.to_header()))?;
        text.add(&(&view.destination(), &view.source(), &view.ether_type()))?;
    }
    frame(Ethernet2Slice::from_slice_without_fcs(bytes), text)?;
    frame(Ethernet2Slice::from_slice_with_crc32_fcs(bytes), text)
}

fn frame(read: Result<Ethernet2Slice<'_>, LenError>, text: &mut Text) -> fmt::Result {
    match read {
        Ok(view) => fields(&view, text),
        Err(error) => text.add(&WithText(&error)),
    }
}

fn fields(view: &Ethernet2Slice<'_>, text: &mut Text) -> fmt::Result {
    text.add(&(&view, &view.slice()))?;
    text.add(&(&view.header_slice(), &view.to_header()))?;
    text.add(&(&view.destination(), &view.source(), &view.ether_type()))?;
    text.add(&(&view.payload(), &view.payload_slice(), &view.fcs()))?;
    text.add(&view.header_len())
}
