//! MACsec.
use crate::draw::Draw;
use crate::frames::{Frame, add_announced};
use crate::text::{Text, WithText};
use etherpeel::{LinkExtHeader, LinkExtSlice, MacsecHeader, MacsecHeaderSlice, MacsecSlice};
use std::fmt;

/// Calls all that reads and writes a SecTag.
pub(crate) fn calls(draw: &mut Draw, text: &mut Text) -> fmt::Result {
    let mut frame = Frame::new();
    add_announced(draw, &mut frame, 0x88E5);
    if draw.below(3) == 0 {
        frame.truncate(draw.below(24));
    }
    header(frame.as_slice(), draw.below(80), text)?;
    header_view(frame.as_slice(), text)?;
    view(frame.as_slice(), text)
}

fn header(bytes: &[u8], len: usize, text: &mut Text) -> fmt::Result {
    let read = MacsecHeader::from_slice(bytes);
    text.add(&read)?;
    if let Ok(mut header) = read {
        let ext = LinkExtHeader::Macsec(header);
        text.add(&(&header.header_len(), &header.to_bytes()))?;
        text.add(&(
            &header.encrypted(),
            &header.userdata_changed(),
            &header.next_ether_type(),
        ))?;
        text.add(&(&header.expected_payload_len(), &ext, &ext.header_len()))?;
        header.set_payload_len(len);
        text.add(&header)?;
    }
    Ok(())
}

fn header_view(bytes: &[u8], text: &mut Text) -> fmt::Result {
    let view = MacsecHeaderSlice::from_slice(bytes);
    text.add(&view)?;
    if let Ok(view) = view {
        text.add(&(&view.slice(), &view.to_header(), &view.header_len()))?;
        text.add(&(&view.tci_an_raw(), &view.endstation_id(), &view.tci_scb()))?;
        text.add(&(
            &view.encrypted(),
            &view.userdata_changed(),
            &view.is_unmodified(),
        ))?;
        text.add(&(&view.ptype(), &view.an(), &view.short_len()))?;
        text.add(&(&view.packet_nr(), &view.sci_present(), &view.sci()))?;
        text.add(&(&view.next_ether_type(), &view.expected_payload_len()))?;
    }
    Ok(())
}

fn view(bytes: &[u8], text: &mut Text) -> fmt::Result {
    let view = MacsecSlice::from_slice(bytes);
    text.add(&view)?;
    match view {
        Ok(view) => {
            text.add(&(&view.ether_payload(), &view.next_ether_type()))?;
            let ext = LinkExtSlice::Macsec(view);
            text.add(&(
                &ext,
                &ext.header_len(),
                &ext.to_header(),
                &ext.ether_payload(),
            ))
        }
        Err(error) => text.add(&WithText(&error)),
    }
}
