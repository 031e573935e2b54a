//! The frames that a line of text means.

use crate::ether_make::refusal::{Fault, Reason, Refusal};
use crate::ether_make::repeated::unique_value;
use crate::ether_make::template::{Template, make_template};
use crate::ether_make::json::Value;
use crate::ether_make::memory::Global;

/// The most bytes of a frame: the most that a packet of a capture has.
const LONGEST: usize = 262_144;

/// Why a line means no frame.
#[derive(Debug)]
pub enum LineFault {
    /// It is no JSON text.
    NotJson,
    /// It is no object.
    NotObject,
    /// An object in it has two members of one name.
    Repeated,
    /// Its object is refused.
    Refused {
        /// The header's index, if a header is refused.
        header: Option<usize>,
        /// The name of the member.
        member: String,
        /// Why it is refused.
        reason: Reason,
    },
    /// The frame is too long.
    TooLong,
    /// There is no memory.
    Memory,
}

/// The first line that means no frame.
#[derive(Debug)]
pub struct Stop {
    /// Its number; the first line has 1.
    pub line: usize,
    /// Why it means none.
    pub fault: LineFault,
}

impl Stop {
    /// There is no memory.
    pub const MEMORY: Stop = Stop {
        line: 0,
        fault: LineFault::Memory,
    };
}

/// The frames of a line, after frames with this link type, if there are any.
///
/// <details><summary>Contract</summary>
///
/// ```text
/// ensures { LineOf link text.now result }
/// ```
///
/// </details>
pub fn line_template(alloc: Global, text: &[u8], link: Option<u16>) -> Result<Template, LineFault> {
    let value = match unique_value(alloc, text) {
        Ok(value) => value,
        Err(fault) => return Err(fault),
    };
    if !value.is_object() {
        return Err(LineFault::NotObject);
    }
    object_template(alloc, &value, link)
}

/// The frames of an object.
fn object_template(alloc: Global, object: &Value, link: Option<u16>) -> Result<Template, LineFault> {
    match sized_template(alloc, object) {
        Ok(template) => match link {
            Some(link) if template.frame.link != link => {
                Err(owned_refusal(alloc, "link", Reason::OtherFrames))
            }
            _ => Ok(template),
        },
        Err(fault) => Err(fault),
    }
}

/// The frames of an object, whatever their link type is.
fn sized_template(alloc: Global, object: &Value) -> Result<Template, LineFault> {
    match make_template(alloc, object) {
        Ok(template) => {
            if template.frame.bytes.len() > LONGEST {
                return Err(LineFault::TooLong);
            }
            Ok(template)
        }
        Err(Fault::Refused(refusal)) => Err(owned(alloc, &refusal)),
        Err(Fault::Memory) => Err(LineFault::Memory),
    }
}

/// A refusal that borrows nothing.
fn owned(alloc: Global, refusal: &Refusal) -> LineFault {
    match crate::ether_make::memory::text_of(alloc, refusal.member) {
        Ok(member) => LineFault::Refused {
            header: refusal.header,
            member,
            reason: refusal.reason,
        },
        Err(_) => LineFault::Memory,
    }
}

/// The refusal of a member that is no header's.
pub(in crate::ether_make) fn owned_refusal(alloc: Global, member: &str, reason: Reason) -> LineFault {
    owned(
        alloc,
        &Refusal {
            header: None,
            member,
            reason,
        },
    )
}
