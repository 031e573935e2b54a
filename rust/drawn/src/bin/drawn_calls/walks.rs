//! The walk through a stack of headers.
use crate::draw::Draw;
use crate::frames::{Frame, add_announced, add_drawn, add_sll, add_typed};
use crate::text::{Text, WithText};
use etherpeel::ether_fields::{Part, places, section_of, sizes_of};
use etherpeel::ether_peel::{
    Peel, Start, completion, completion_limited, feed, feed_limited, snap, snap_limited, summary,
    summary_limited, write_back, write_back_limited,
};
use etherpeel::EtherType;
use std::fmt;

/// Calls the walk and all that is told of one.
pub(crate) fn calls(draw: &mut Draw, text: &mut Text) -> fmt::Result {
    let (start, frame) = drawn_frame(draw);
    let frame = frame.as_slice();
    if draw.flag() {
        walk(Peel::new(start, frame), text)?;
        return whole(start, frame, draw.below(frame.len() + 1), text);
    }
    let limit = draw.below(5);
    walk(Peel::with_limit(start, frame, limit), text)?;
    limited(start, frame, draw.below(frame.len() + 1), limit, text)
}

/// A frame and how it begins.
pub(crate) fn drawn_frame(draw: &mut Draw) -> (Start, Frame) {
    let mut frame = Frame::new();
    let start = match draw.below(6) {
        0 => Start::LinuxSll,
        1 => Start::EtherType(EtherType(draw.ether_type())),
        2 => Start::Ethernet2Fcs,
        _ => Start::Ethernet2,
    };
    match start {
        Start::LinuxSll => {
            add_sll(draw, &mut frame);
            add_after(draw, &mut frame, 14)
        }
        Start::EtherType(ether_type) => add_announced(draw, &mut frame, ether_type.0),
        _ => {
            add_drawn(draw, &mut frame, 12);
            add_typed(draw, &mut frame)
        }
    }
    if draw.one_in(3) {
        frame.truncate(draw.below(60));
    }
    (start, frame)
}

/// Adds what the ether type at an index announces.
fn add_after(draw: &mut Draw, frame: &mut Frame, at: usize) {
    if let Some([high, low]) = frame.as_slice().get(at..at + 2) {
        let ether_type = u16::from_be_bytes([*high, *low]);
        add_announced(draw, frame, ether_type)
    }
}

fn walk(mut peel: Peel<'_>, text: &mut Text) -> fmt::Result {
    text.add(&(&peel, &peel.rest(), &peel.bound()))?;
    let most = peel.rest().len() + 2;
    for _ in 0..most {
        match peel.next() {
            Some(Ok(unit)) => {
                let (section, sizes) = (section_of(&unit), sizes_of(&unit));
                text.add(&(&unit, &section, &sizes))?;
                text.add(&places(section, &Part::Header(sizes)))?;
                text.add(&places(section, &Part::Trailer))?;
            }
            Some(Err(fault)) => text.add(&(
                WithText(&fault),
                &fault.missing(),
                WithText(&fault.error),
            ))?,
            None => return text.add(&(&peel.offset(), &peel.kind(), &peel.closed())),
        }
    }
    Ok(())
}

fn whole(start: Start, frame: &[u8], cut: usize, text: &mut Text) -> fmt::Result {
    let mut target = [0u8; 520];
    text.add(&(&summary(start, frame), &snap(start, frame, cut)))?;
    text.add(&(&feed(start, frame), &completion(start, frame)))?;
    text.add(&(&write_back(start, frame, &mut target), &target))
}

fn limited(start: Start, frame: &[u8], cut: usize, limit: usize, text: &mut Text) -> fmt::Result {
    let mut target = [0u8; 520];
    text.add(&(
        &summary_limited(start, frame, limit),
        &snap_limited(start, frame, cut, limit),
    ))?;
    text.add(&(
        &feed_limited(start, frame, limit),
        &completion_limited(start, frame, limit),
    ))?;
    text.add(&(
        &write_back_limited(start, frame, &mut target, limit),
        &target,
    ))
}
