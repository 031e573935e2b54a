//! The fields of a VLAN tag in bytes that begin with one: the tag control information (IEEE 802.1Q, 9.6), which is 3
//! bits priority code point, 1 bit drop eligible indicator and 12 bits VLAN identifier, and the ether type of what
//! follows.

use crate::ether_tags::SingleVlanHeader;
use crate::ether_base::big_endian::{bytes_of_u16, u16_in};
use crate::ether_base::{EtherType, VlanId, VlanPcp};
use core::ops::Range;

/// The bytes of the tag control information.
const TCI: Range<usize> = 0..2;

/// The bytes of the ether type of what follows.
const ETHER_TYPE: Range<usize> = 2..4;

/// The priority code point.
///
/// # Panics
///
/// The call may panic, or return something else, if a `requires` of its contract is not met.
///
/// <details><summary>Contract</summary>
///
/// ```text
/// requires { 4 ≤ length bytes.now }
/// ensures { result ≡ (vlan_of bytes.now).pcp }
/// ```
///
/// Words: [`vlan_of`](crate::definitions::ether_base#def.vlan_of). [Notation](crate::definitions::notation)
///
/// </details>
#[must_use]
#[inline]
pub fn priority_code_point(bytes: &[u8]) -> VlanPcp {
    pcp_of(tag_control(bytes))
}

/// The drop eligible indicator.
///
/// # Panics
///
/// The call may panic, or return something else, if a `requires` of its contract is not met.
///
/// <details><summary>Contract</summary>
///
/// ```text
/// requires { 4 ≤ length bytes.now }
/// ensures { bit result ≡ (vlan_of bytes.now).dei }
/// ```
///
/// Words: [`bit`](crate::definitions::ether_base#def.bit),
/// [`vlan_of`](crate::definitions::ether_base#def.vlan_of). [Notation](crate::definitions::notation)
///
/// </details>
#[must_use]
#[inline]
pub fn drop_eligible_indicator(bytes: &[u8]) -> bool {
    dei_of(tag_control(bytes))
}

/// The VLAN identifier.
///
/// # Panics
///
/// The call may panic, or return something else, if a `requires` of its contract is not met.
///
/// <details><summary>Contract</summary>
///
/// ```text
/// requires { 4 ≤ length bytes.now }
/// ensures { result ≡ (vlan_of bytes.now).vid }
/// ```
///
/// Words: [`vlan_of`](crate::definitions::ether_base#def.vlan_of). [Notation](crate::definitions::notation)
///
/// </details>
#[must_use]
#[inline]
pub fn vlan_identifier(bytes: &[u8]) -> VlanId {
    vid_of(tag_control(bytes))
}

/// The ether type of what follows the tag.
///
/// # Panics
///
/// The call may panic, or return something else, if a `requires` of its contract is not met.
///
/// <details><summary>Contract</summary>
///
/// ```text
/// requires { 4 ≤ length bytes.now }
/// ensures { result.0 ≡ (vlan_of bytes.now).ether_type }
/// ```
///
/// Words: [`vlan_of`](crate::definitions::ether_base#def.vlan_of). [Notation](crate::definitions::notation)
///
/// </details>
#[must_use]
#[inline]
pub fn ether_type(bytes: &[u8]) -> EtherType {
    EtherType(u16_in(&bytes[ETHER_TYPE]))
}

/// The tag with all its fields. The tag control information is read once, since three reads of it are compiled byte by
/// byte.
///
/// # Panics
///
/// The call may panic, or return something else, if a `requires` of its contract is not met.
///
/// <details><summary>Contract</summary>
///
/// ```text
/// requires { 4 ≤ length bytes.now }
/// ensures value { vlan_view result ≡ vlan_of bytes.now }
/// ensures bytes { IsBytes bytes.now }
/// ```
///
/// Words: [`vlan_view`](crate::definitions::ether_tags#def.vlan_view),
/// [`vlan_of`](crate::definitions::ether_base#def.vlan_of),
/// [`IsBytes`](crate::definitions::ether_base#def.IsBytes). [Notation](crate::definitions::notation)
///
/// </details>
#[must_use]
#[inline]
pub fn header(bytes: &[u8]) -> SingleVlanHeader {
    let control = tag_control(bytes);
    SingleVlanHeader {
        pcp: pcp_of(control),
        drop_eligible_indicator: dei_of(control),
        vlan_id: vid_of(control),
        ether_type: ether_type(bytes),
    }
}

/// The bytes of a tag as an array, which is compared in one piece.
///
/// # Panics
///
/// The call may panic, or return something else, if a `requires` of its contract is not met.
///
/// <details><summary>Contract</summary>
///
/// ```text
/// requires { length bytes.now ≡ 4 }
/// ensures { result ≡ bytes.now }
/// ```
///
/// [Notation](crate::definitions::notation)
///
/// </details>
#[must_use]
#[inline]
pub fn tag(bytes: &[u8]) -> [u8; 4] {
    [bytes[0], bytes[1], bytes[2], bytes[3]]
}

/// The tag control information with these three fields.
///
/// <details><summary>Contract</summary>
///
/// ```text
/// ensures sum { result ≡ pcp * 2 ^ 13 + bit drop_eligible * 2 ^ 12 + vlan_id }
/// ensures pcp { pcp < 8 }
/// ensures vid { vlan_id < 4096 }
/// ```
///
/// Words: [`bit`](crate::definitions::ether_base#def.bit). [Notation](crate::definitions::notation)
///
/// </details>
#[must_use]
#[inline]
pub fn tag_control_of(pcp: VlanPcp, drop_eligible: bool, vlan_id: VlanId) -> u16 {
    u16::from(pcp.value()) << 13 | (u16::from(drop_eligible) << 12 | vlan_id.value())
}

/// The bytes of a tag with this tag control information and this ether type.
///
/// <details><summary>Contract</summary>
///
/// ```text
/// ensures { result ≡ spelled 4 (control * 2 ^ 16 + ether_type) }
/// ```
///
/// Words: [`spelled`](crate::definitions::ether_base#def.spelled). [Notation](crate::definitions::notation)
///
/// </details>
#[must_use]
#[inline]
pub fn bytes_of(control: u16, ether_type: u16) -> [u8; 4] {
    let high = bytes_of_u16(control);
    let low = bytes_of_u16(ether_type);
    [high[0], high[1], low[0], low[1]]
}

/// The priority code point in a tag control information.
#[inline]
fn pcp_of(control: u16) -> VlanPcp {
    VlanPcp::try_new((control >> 13) as u8).unwrap()
}

/// The drop eligible indicator in a tag control information.
#[inline]
fn dei_of(control: u16) -> bool {
    control >> 12 & 1 == 1
}

/// The VLAN identifier in a tag control information.
#[inline]
fn vid_of(control: u16) -> VlanId {
    VlanId::try_new(control & 0x0fff).unwrap()
}

/// The tag control information as one number.
#[inline]
fn tag_control(bytes: &[u8]) -> u16 {
    u16_in(&bytes[TCI])
}
