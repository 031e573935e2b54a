//! Reads the arguments, and rewrites a frame as a line.

use etherpeel::ether_packet::replace_vlan_id;
use etherpeel::ether_peel::Start;
use etherpeel::VlanId;
use ether_tools::ether_capture::memory::{Global, NoMemory as AllocError};
use thiserror::Error;

/// The arguments are not two VLAN identifiers.
#[derive(Debug, Error)]
#[error("the arguments are two VLAN identifiers")]
pub(crate) struct ArgumentsError;

/// The VLAN identifier in an argument.
pub(crate) fn vlan_id_of(argument: Option<String>) -> Result<VlanId, ArgumentsError> {
    let Some(argument) = argument else {
        return Err(ArgumentsError);
    };
    match argument.parse::<u16>() {
        Ok(number) => VlanId::try_new(number).map_err(|_| ArgumentsError),
        Err(_) => Err(ArgumentsError),
    }
}

/// The line for a frame, in which the outermost VLAN tag with the identifier `from` gets the identifier `to`.
pub(crate) fn rewritten_line(
    alloc: Global,
    start: Start,
    frame: &mut [u8],
    from: VlanId,
    to: VlanId,
) -> Result<String, AllocError> {
    let _index = replace_vlan_id(start, frame, from, to);
    line(alloc, frame)
}

/// A frame in hexadecimal digits, as a line.
fn line(alloc: Global, frame: &[u8]) -> Result<String, AllocError> {
    let digits = hex::encode(frame);
    Ok(format!("{digits}\n"))
}
