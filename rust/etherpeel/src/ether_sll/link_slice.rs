//! A view of a link's packet of either kind, or of its payload alone.

use crate::ether_sll::{LinkHeader, LinuxSllSlice};
use crate::ether_tags::{EtherPayloadSlice, Ethernet2Slice, LinuxSllPayloadSlice};

/// A view of a link's packet, of Ethernet II or Linux cooked capture v1, or of a payload without its header.
///
/// ```
/// use etherpeel::{EtherPayloadSlice, EtherType, LenSource, LinkSlice, LinuxSllSlice};
///
/// # fn main() -> Result<(), Box<dyn std::error::Error>> {
/// let bytes = [0, 4, 0, 1, 0, 6, 2, 0, 0, 0, 0, 1, 0, 0, 0x08, 0x00, 0x45];
/// let link = LinkSlice::LinuxSll(LinuxSllSlice::from_slice(&bytes)?);
/// let payload = EtherPayloadSlice {
///     ether_type: EtherType::IPV4,
///     len_source: LenSource::Slice,
///     payload: &[0x45],
/// };
/// assert_eq!(link.ether_payload(), Some(payload));
/// # Ok(())
/// # }
/// ```
#[derive(Clone, PartialEq, Eq, Debug)]
pub enum LinkSlice<'a> {
    /// An Ethernet II frame.
    Ethernet2(Ethernet2Slice<'a>),
    /// A packet of Linux cooked capture v1.
    LinuxSll(LinuxSllSlice<'a>),
    /// A payload with its ether type, without header.
    EtherPayload(EtherPayloadSlice<'a>),
    /// A payload with its protocol type of cooked capture, without header.
    LinuxSllPayload(LinuxSllPayloadSlice<'a>),
}

impl<'a> LinkSlice<'a> {
    /// The header as a value; `None` if this is a payload without header.
    ///
    /// <details><summary>Contract</summary>
    ///
    /// ```text
    /// ensures { header_value result ≡ link_value self.now }
    /// ```
    ///
    /// Words: [`header_value`](crate::definitions::ether_sll#def.header_value),
    /// [`link_value`](crate::definitions::ether_sll#def.link_value). [Notation](crate::definitions::notation)
    ///
    /// </details>
    #[must_use]
    #[inline]
    pub fn to_header(&self) -> Option<LinkHeader> {
        match self {
            LinkSlice::Ethernet2(slice) => Some(LinkHeader::Ethernet2(slice.to_header())),
            LinkSlice::LinuxSll(slice) => Some(LinkHeader::LinuxSll(slice.to_header())),
            LinkSlice::EtherPayload(_) | LinkSlice::LinuxSllPayload(_) => None,
        }
    }

    /// The payload and its ether type. `None` if its protocol type of cooked capture is not an `EtherType` or
    /// `LinuxNonstandardEtherType`, but a netlink, GRE or ignored protocol.
    ///
    /// <details><summary>Contract</summary>
    ///
    /// ```text
    /// ensures { MatchOption result (told_ether_type (link_protocol self.now) ≡ None)
    ///     (λ p. (told_ether_type (link_protocol self.now) ≡ Some p.ether_type.0)
    ///     × (p.len_source ≡ link_source self.now) × (p.payload.now ≡ link_payload self.now)) }
    /// ```
    ///
    /// Words: [`told_ether_type`](crate::definitions::ether_base#def.told_ether_type),
    /// [`link_protocol`](crate::definitions::ether_sll#def.link_protocol),
    /// [`link_source`](crate::definitions::ether_sll#def.link_source),
    /// [`link_payload`](crate::definitions::ether_sll#def.link_payload). [Notation](crate::definitions::notation)
    ///
    /// </details>
    #[must_use]
    #[inline]
    pub fn ether_payload(&self) -> Option<EtherPayloadSlice<'a>> {
        match self {
            LinkSlice::Ethernet2(slice) => Some(slice.payload()),
            LinkSlice::EtherPayload(payload) => Some(*payload),
            LinkSlice::LinuxSll(_) | LinkSlice::LinuxSllPayload(_) => {
                EtherPayloadSlice::try_from(self.sll_payload()).ok()
            }
        }
    }

    /// The payload and its protocol type of cooked capture. For an Ethernet II frame or an [`EtherPayloadSlice`] that
    /// is `LinuxSllProtocolType::EtherType` with its ether type.
    ///
    /// <details><summary>Contract</summary>
    ///
    /// ```text
    /// ensures protocol { result.protocol_type ≡ link_protocol self.now }
    /// ensures bytes { result.payload.now ≡ link_payload self.now }
    /// ```
    ///
    /// Words: [`link_protocol`](crate::definitions::ether_sll#def.link_protocol),
    /// [`link_payload`](crate::definitions::ether_sll#def.link_payload). [Notation](crate::definitions::notation)
    ///
    /// </details>
    #[must_use]
    #[inline]
    pub fn sll_payload(&self) -> LinuxSllPayloadSlice<'a> {
        match self {
            LinkSlice::Ethernet2(slice) => LinuxSllPayloadSlice::from(slice.payload()),
            LinkSlice::LinuxSll(slice) => slice.payload(),
            LinkSlice::EtherPayload(payload) => LinuxSllPayloadSlice::from(*payload),
            LinkSlice::LinuxSllPayload(payload) => LinuxSllPayloadSlice {
                protocol_type: payload.protocol_type,
                payload: payload.payload,
            },
        }
    }
}
