//! The frame that an object means.

use crate::ether_make::header::{headers_bytes, next_section};
use crate::ether_make::objects::{given, number_of, unknown_member};
use crate::ether_make::refusal::{Fault, Reason, Refusal};
use crate::ether_make::texts::hex_bytes;
use crate::ether_make::time_text::{Time, given_time};
use etherpeel::ether_fields::Section;
use crate::ether_make::json::Value;
use crate::ether_make::memory::{AllocError, Global, Taking};

/// A frame.
#[derive(Debug)]
pub struct Frame {
    /// The link type of its capture.
    pub link: u16,
    /// Its time.
    pub time: Time,
    /// Its bytes.
    pub bytes: Vec<u8>,
}

/// Pads a frame of Ethernet with zeros to 60 bytes, if that is asked for.
///
/// <details><summary>Contract</summary>
///
/// ```text
/// ensures { IfOk result (λ f. frame_view f ≡ padded_in pad (frame_view frame)) }
/// ```
///
/// </details>
pub fn padded(frame: Frame, pad: bool) -> Result<Frame, AllocError> {
    if !pad || frame.link != 1 {
        return Ok(frame);
    }
    let Frame { link, time, bytes } = frame;
    Ok(Frame {
        link,
        time,
        bytes: with_zeros(bytes)?,
    })
}

/// Bytes with zeros after them, up to 60.
fn with_zeros(bytes: Vec<u8>) -> Result<Vec<u8>, AllocError> {
    let mut padded = bytes;
    while padded.len() < 60 {
        padded.try_push(0)?;
    }
    Ok(padded)
}

/// The frame that an object means. A refusal borrows the name of a member from the object.
///
/// <details><summary>Contract</summary>
///
/// ```text
/// ensures { Tells frame_view (frame_meaning (view object.now)) result }
/// ```
///
/// </details>
pub fn make_frame<'v>(alloc: Global, object: &'v Value) -> Result<Frame, Fault<'v>> {
    if let Some(member) = unknown_member(
        object,
        Section::Frame.fields(),
        &["headers", "rest", "fault"],
    ) {
        return Err(refused(member, Reason::Unknown));
    }
    let bytes = match frame_bytes(alloc, object) {
        Ok(bytes) => bytes,
        Err(fault) => return Err(fault),
    };
    let link = match told_link(object) {
        Ok(link) => link,
        Err(fault) => return Err(fault),
    };
    match told_time(object) {
        Ok(time) => Ok(Frame { link, time, bytes }),
        Err(fault) => Err(fault),
    }
}

/// The time of a frame, or the refusal of the member.
fn told_time<'v>(object: &'v Value) -> Result<Time, Fault<'v>> {
    match given_time(given(object, "time")) {
        Ok(time) => Ok(time),
        Err(reason) => Err(refused("time", reason)),
    }
}

/// The link type of a frame, or the refusal of the member.
fn told_link<'v>(object: &'v Value) -> Result<u16, Fault<'v>> {
    match frame_link(object) {
        Ok(link) => Ok(link),
        Err(reason) => Err(refused("link", reason)),
    }
}

/// The bytes of a frame: its headers, and those after them.
fn frame_bytes<'v>(alloc: Global, object: &'v Value) -> Result<Vec<u8>, Fault<'v>> {
    let mut bytes = match front(alloc, given(object, "headers")) {
        Ok(bytes) => bytes,
        Err(fault) => return Err(fault),
    };
    match after_headers(alloc, given(object, "rest"), given(object, "fault")) {
        Ok(last) => {
            if bytes.try_extend_from_slice(&last).is_err() {
                return Err(Fault::Memory);
            }
        }
        Err(fault) => return Err(fault),
    }
    Ok(bytes)
}

/// A member that is no header's.
fn refused<'v>(member: &'v str, reason: Reason) -> Fault<'v> {
    Fault::Refused(Refusal {
        header: None,
        member,
        reason,
    })
}

/// The bytes of the headers.
fn front<'v>(alloc: Global, headers: Option<&'v Value>) -> Result<Vec<u8>, Fault<'v>> {
    let Some(headers) = headers else {
        return Err(refused("headers", Reason::Missing));
    };
    let Some(objects) = headers.as_array() else {
        return Err(refused("headers", Reason::NotAnArray));
    };
    front_of(alloc, objects.as_slice())
}

/// The bytes of headers. The first one has to begin a frame.
fn front_of<'v>(alloc: Global, objects: &'v [Value]) -> Result<Vec<u8>, Fault<'v>> {
    match next_section(objects) {
        Some(section) if link_of(section).is_none() => Err(Fault::Refused(Refusal {
            header: Some(0),
            member: "header",
            reason: Reason::NotALink,
        })),
        _ => headers_bytes(alloc, objects),
    }
}

/// The link type of frames that begin with a header.
fn link_of(section: Section) -> Option<u16> {
    match section {
        Section::Eth => Some(1),
        Section::Sll => Some(113),
        Section::Sll2 => Some(276),
        _ => None,
    }
}

/// The link type of a frame: the one that is given, if no header contradicts it, or that of its first header, or
/// Ethernet.
fn frame_link(object: &Value) -> Result<u16, Reason> {
    let first = first_header(object);
    let Some(value) = given(object, "link") else {
        return Ok(usual_link(first));
    };
    let Some(number) = number_of(value) else {
        return Err(Reason::NotANumber);
    };
    if number >= 65_536 {
        return Err(Reason::TooBig);
    }
    let link = number as u16;
    if first.is_some() && link != usual_link(first) {
        return Err(Reason::OtherHeader);
    }
    Ok(link)
}

/// The link type of a first header, or Ethernet.
fn usual_link(first: Option<Section>) -> u16 {
    match first {
        Some(section) => link_of(section).unwrap_or(1),
        None => 1,
    }
}

/// The first header.
fn first_header(object: &Value) -> Option<Section> {
    next_section(given(object, "headers")?.as_array()?.as_slice())
}

/// The bytes after the headers: those of a rest, or of a fault.
fn after_headers<'v>(
    alloc: Global,
    rest: Option<&'v Value>,
    fault: Option<&'v Value>,
) -> Result<Vec<u8>, Fault<'v>> {
    match (rest, fault) {
        (None, None) => Ok(crate::ether_make::memory::list(alloc)),
        (Some(rest), None) => rest_of(alloc, rest),
        (None, Some(fault)) => fault_of(alloc, fault),
        (Some(_), Some(_)) => Err(refused("fault", Reason::Unknown)),
    }
}

/// The bytes of a rest.
fn rest_of<'v>(alloc: Global, rest: &'v Value) -> Result<Vec<u8>, Fault<'v>> {
    if !rest.is_object() {
        return Err(refused("rest", Reason::NotAnObject));
    }
    if let Some(member) = unknown_member(rest, Section::Rest.fields(), &["bytes"]) {
        return Err(refused(member, Reason::Unknown));
    }
    rest_bytes(alloc, given(rest, "bytes"))
}

/// The bytes of a fault.
fn fault_of<'v>(alloc: Global, fault: &'v Value) -> Result<Vec<u8>, Fault<'v>> {
    if !fault.is_object() {
        return Err(refused("fault", Reason::NotAnObject));
    }
    if let Some(member) = unknown_member(fault, Section::Fault.fields(), &["bytes"]) {
        return Err(refused(member, Reason::Unknown));
    }
    match given(fault, "bytes") {
        Some(bytes) => text_bytes(alloc, bytes),
        None => Err(refused("bytes", Reason::Missing)),
    }
}

/// The bytes of the member `bytes` of a rest.
fn rest_bytes<'v>(alloc: Global, bytes: Option<&'v Value>) -> Result<Vec<u8>, Fault<'v>> {
    match bytes {
        Some(bytes) => text_bytes(alloc, bytes),
        None => Ok(crate::ether_make::memory::list(alloc)),
    }
}

/// The bytes that a value spells, which is a text.
fn text_bytes<'v>(alloc: Global, value: &'v Value) -> Result<Vec<u8>, Fault<'v>> {
    let Some(text) = value.as_str() else {
        return Err(refused("bytes", Reason::NotAText));
    };
    spelled(alloc, text.as_bytes())
}

/// The bytes that a text spells.
fn spelled<'v>(alloc: Global, text: &[u8]) -> Result<Vec<u8>, Fault<'v>> {
    match hex_bytes(alloc, text) {
        Ok(Some(bytes)) => Ok(bytes),
        Ok(None) => Err(refused("bytes", Reason::NotBytes)),
        Err(_) => Err(Fault::Memory),
    }
}
