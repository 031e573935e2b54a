//! Headers written back before the rest.

use crate::ether_peel::summarizing::summarized;
use crate::ether_peel::{Peel, PeelUnit, Start};
use crate::err::{Layer, SliceWriteSpaceError};

/// Writes the headers of a frame to the front of a target, each by its `to_bytes`, and after them the bytes of the
/// window that is left. Returns where that window ends, in bytes from the start of the frame.
///
/// The target then begins with the bytes of the frame up to there, but the two reserved bits of each MACsec SecTag are
/// 0. Its further bytes are unchanged. What follows the window, such as a frame check sequence, is not written. After
/// a fault the window is that of the refused unit.
///
/// # Errors
///
/// The target is too short, and is unchanged: `required_len` is where the window ends, `len` the
/// target's length, `layer` is [`Layer::EtherPayload`] and `layer_start_offset` is 0.
///
/// ```
/// use etherpeel::EtherType;
/// use etherpeel::ether_peel::{Start, write_back};
///
/// # fn main() -> Result<(), Box<dyn std::error::Error>> {
/// let frame = [
///     0x00, 0x46, 0x00, 0x00, 0x00, 0x01, 0x81, 0x00, // SecTag: names four bytes, has a reserved bit set
///     0xAA, 0xBB, 0xCC, 0xDD, // VLAN
///     0xEE, 0xEE,
/// ];
/// let mut target = [0; 13];
/// let end = write_back(Start::EtherType(EtherType::MACSEC), &frame, &mut target)?;
/// assert_eq!(end, 12);
/// assert_eq!(
///     target,
///     [0x00, 0x06, 0x00, 0x00, 0x00, 0x01, 0x81, 0x00, 0xAA, 0xBB, 0xCC, 0xDD, 0x00]
/// );
/// # Ok(())
/// # }
/// ```
///
/// <details><summary>Contract</summary>
///
/// ```text
/// ensures ok { IfOk result
///     (λ end. WritesBack (start_of start) bytes.now end target.old target.new) }
/// ensures refused { IfErr result (RefusesBack (start_of start) bytes.now target.old) }
/// ensures kept { IfErr result (λ _. target.new ≡ target.old) }
/// ```
///
/// Words: [`WritesBack`](crate::definitions::ether_peel#def.WritesBack),
/// [`start_of`](crate::definitions::ether_peel#def.start_of),
/// [`RefusesBack`](crate::definitions::ether_peel#def.RefusesBack). [Notation](crate::definitions::notation)
///
/// </details>
#[inline]
pub fn write_back(
    start: Start,
    bytes: &[u8],
    target: &mut [u8],
) -> Result<usize, SliceWriteSpaceError> {
    written(start, bytes, target, None)
}

/// Like [`write_back`], but for the walk of [`Peel::with_limit`], which reads at most `limit` VLAN tags and MACsec
/// SecTags. Tags beyond the limit are part of the window, so their bytes are copied unchanged.
///
/// # Errors
///
/// Those of [`write_back`], with the end of the window that this walk leaves.
///
/// ```
/// use etherpeel::EtherType;
/// use etherpeel::ether_peel::{Start, write_back_limited};
///
/// # fn main() -> Result<(), Box<dyn std::error::Error>> {
/// let tag = [
///     0x2C, 0xC0, 0x00, 0x00, 0x00, 0x01, // SecTag: has both reserved bits set
///     0x00, 0x11, 0x22, 0x33, 0x44, 0x55, 0x66, 0x77, // SCI
///     0x99,
/// ];
/// let mut target = [0; 15];
/// let end = write_back_limited(Start::EtherType(EtherType::MACSEC), &tag, &mut target, 0)?;
/// assert_eq!(end, 15);
/// assert_eq!(target, tag);
/// # Ok(())
/// # }
/// ```
///
/// <details><summary>Contract</summary>
///
/// ```text
/// ensures ok { IfOk result
///     (λ end. WritesBack (limited_start start limit) bytes.now end target.old target.new) }
/// ensures refused { IfErr result (RefusesBack (limited_start start limit) bytes.now target.old) }
/// ensures kept { IfErr result (λ _. target.new ≡ target.old) }
/// ```
///
/// Words: [`WritesBack`](crate::definitions::ether_peel#def.WritesBack),
/// [`limited_start`](crate::definitions::ether_peel#def.limited_start),
/// [`RefusesBack`](crate::definitions::ether_peel#def.RefusesBack). [Notation](crate::definitions::notation)
///
/// </details>
#[inline]
pub fn write_back_limited(
    start: Start,
    bytes: &[u8],
    target: &mut [u8],
    limit: usize,
) -> Result<usize, SliceWriteSpaceError> {
    written(start, bytes, target, Some(limit))
}

/// Writes the headers of a walk with a limit on extensions or without, and what it leaves.
#[inline(always)]
fn written(
    start: Start,
    bytes: &[u8],
    target: &mut [u8],
    limit: Option<usize>,
) -> Result<usize, SliceWriteSpaceError> {
    let required_len = summarized(start, bytes, limit).rest_end;
    let len = target.len();
    if len < required_len {
        return Err(SliceWriteSpaceError {
            required_len,
            len,
            layer: Layer::EtherPayload,
            layer_start_offset: 0,
        });
    }
    Ok(write_walk(start, bytes, target, limit))
}

/// Writes the headers of a walk and then its last window to the front of a target, and returns where that ends.
#[inline]
fn write_walk(start: Start, bytes: &[u8], target: &mut [u8], limit: Option<usize>) -> usize {
    let mut peel = Peel::begin(start, bytes, limit);
    let mut at = 0;
    while let Some(Ok(unit)) = peel.next() {
        write_header(target, at, &unit);
        at = peel.offset();
    }
    let rest = peel.rest();
    write_at(target, at, rest);
    at + rest.len()
}

/// Writes the bytes of a unit's header into a target, from offset `at` on.
#[inline]
fn write_header(target: &mut [u8], at: usize, unit: &PeelUnit<'_>) {
    match unit {
        PeelUnit::Ethernet2(slice) => write_at(target, at, &slice.to_header().to_bytes()),
        PeelUnit::LinuxSll(slice) => write_at(target, at, &slice.to_header().to_bytes()),
        PeelUnit::Vlan(slice) => write_at(target, at, &slice.to_header().to_bytes()),
        PeelUnit::Macsec(slice) => {
            write_at(target, at, slice.header.to_header().to_bytes().as_slice())
        }
        PeelUnit::Arp(slice) => write_at(target, at, slice.slice()),
    }
}

/// Replaces bytes of a target, from offset `at` on.
#[inline]
fn write_at(target: &mut [u8], at: usize, bytes: &[u8]) {
    target[at..at + bytes.len()].copy_from_slice(bytes);
}
