//! A packet to be written.

use crate::ether_packet::BuildError;
use crate::err::{Layer, SliceWriteSpaceError};
use crate::{
    ArpHardwareId, ArpPacket, EtherType, Ethernet2Header, LinkExtHeader, LinkHeader,
    LinuxSllHeader, LinuxSllProtocolType, MacsecHeader, MacsecPType, SingleVlanHeader,
};

/// What follows the headers of a packet.
#[derive(Clone, PartialEq, Eq, Debug)]
pub enum PacketContent<'a> {
    /// A payload, and the ether type that announces it.
    Payload(EtherType, &'a [u8]),
    /// An ARP packet.
    Arp(&'a ArpPacket),
}

/// The parts of a packet that is to be written, outermost first.
///
/// [`write`](Self::write) sets the ether type of each header by what follows it. Before a VLAN tag, an ether type that
/// announces one is kept: 0x8100, 0x88A8 or 0x9100. Any other becomes 0x88A8 if another VLAN tag directly follows that
/// tag, and otherwise 0x8100 (IEEE 802.1Q, table 9-1: service tag, customer tag).
///
/// The short length of each SecTag is set to the number of bytes after it, with the two of its ether type if it has
/// one, and to 0 if there are more than 63. IEEE 802.1AE, 9.7, wants 0 for lengths of 48 to 63, too: see
/// [`MacsecHeader::set_payload_len`].
///
/// ```
/// use etherpeel::{EtherType, Ethernet2Header, LinkExtHeader, LinkHeader, SingleVlanHeader};
/// use etherpeel::ether_packet::{PacketBuilder, PacketContent};
///
/// let tags = [LinkExtHeader::Vlan(SingleVlanHeader::from_bytes([0x00, 0x64, 0x00, 0x00]))];
/// let packet = PacketBuilder {
///     link: LinkHeader::Ethernet2(Ethernet2Header::default()),
///     link_exts: &tags,
///     content: PacketContent::Payload(EtherType::IPV4, &[0x45]),
/// };
/// let mut target = [0; 19];
/// assert_eq!(packet.write(&mut target), Ok(19));
/// assert_eq!(target[12..], [0x81, 0x00, 0x00, 0x64, 0x08, 0x00, 0x45]);
///
/// let service_tag = PacketBuilder {
///     link: LinkHeader::Ethernet2(Ethernet2Header {
///         ether_type: EtherType::PROVIDER_BRIDGING,
///         ..Ethernet2Header::default()
///     }),
///     ..packet
/// };
/// assert_eq!(service_tag.write(&mut target), Ok(19));
/// assert_eq!(target[12..], [0x88, 0xA8, 0x00, 0x64, 0x08, 0x00, 0x45]);
/// ```
#[derive(Clone, PartialEq, Eq, Debug)]
pub struct PacketBuilder<'a, 'b> {
    /// The header of the link. If it is of cooked capture, its hardware type must be Ethernet.
    pub link: LinkHeader,
    /// The VLAN tags and SecTags, outermost first. A SecTag whose payload is encrypted or changed must be the last
    /// one, before a payload.
    pub link_exts: &'a [LinkExtHeader],
    /// What follows the link's header and the tags.
    pub content: PacketContent<'b>,
}

impl<'a, 'b> PacketBuilder<'a, 'b> {
    /// The length of the packet in bytes.
    ///
    /// <details><summary>Contract</summary>
    ///
    /// ```text
    /// ensures { result ≡ packet_len self.now }
    /// ```
    ///
    /// Words: [`packet_len`](crate::definitions::ether_packet#def.packet_len).
    /// [Notation](crate::definitions::notation)
    ///
    /// </details>
    #[must_use]
    #[inline]
    pub fn size(&self) -> usize {
        let mut len = self.link.header_len() + content_len(&self.content);
        for ext in self.link_exts {
            len += ext.header_len();
        }
        len
    }

    /// Writes the packet to the front of a target, and returns its length. The bytes after it are unchanged.
    ///
    /// # Errors
    ///
    /// The first of these that holds. The target is then unchanged.
    ///
    /// - [`BuildError::HardwareType`]: the link's header is one of cooked capture whose hardware type, which the error
    ///   names, is not Ethernet.
    /// - [`BuildError::Sealed`]: another header follows a SecTag whose payload is encrypted or changed. The error
    ///   names the index of the first such SecTag in `link_exts`.
    /// - [`BuildError::Space`]: the target is shorter than [`size`](Self::size). With an Ethernet II header and no
    ///   SecTag this is the only error.
    ///
    /// <details><summary>Contract</summary>
    ///
    /// ```text
    /// ensures ok { IfOk result (λ end. IsWritten self.now target.old end target.new) }
    /// ensures refused { IfErr result (RefusesPacket self.now target.old) }
    /// ensures space { IsEthernet self.now.link → IsChain (inner_headers self.now)
    ///     → IfErr result (RefusesSpace self.now target.old) }
    /// ensures accepted { OnOk result (AcceptsPacket self.now target.old) }
    /// ensures kept { OnErr result (target.new ≡ target.old) }
    /// ```
    ///
    /// Words: [`IsWritten`](crate::definitions::ether_packet#def.IsWritten),
    /// [`RefusesPacket`](crate::definitions::ether_packet#def.RefusesPacket),
    /// [`IsEthernet`](crate::definitions::ether_packet#def.IsEthernet),
    /// [`IsChain`](crate::definitions::ether_packet#def.IsChain),
    /// [`inner_headers`](crate::definitions::ether_packet#def.inner_headers),
    /// [`RefusesSpace`](crate::definitions::ether_packet#def.RefusesSpace),
    /// [`AcceptsPacket`](crate::definitions::ether_packet#def.AcceptsPacket).
    /// [Notation](crate::definitions::notation)
    ///
    /// </details>
    #[inline]
    pub fn write(&self, target: &mut [u8]) -> Result<usize, BuildError> {
        if let Some(hardware_type) = other_link(&self.link) {
            return Err(BuildError::HardwareType(hardware_type));
        }
        let required_len = match self.readable_len() {
            Ok(required_len) => required_len,
            Err(index) => return Err(BuildError::Sealed(index)),
        };
        let len = target.len();
        if len < required_len {
            return Err(BuildError::Space(SliceWriteSpaceError {
                required_len,
                len,
                layer: Layer::EtherPayload,
                layer_start_offset: 0,
            }));
        }
        self.write_whole(target, required_len);
        Ok(required_len)
    }

    /// The length of the packet, if each header that another header follows has a readable payload; else the index of
    /// the first one that does not.
    #[inline(always)]
    fn readable_len(&self) -> Result<usize, usize> {
        let exts = self.link_exts;
        let mut len = self.link.header_len() + content_len(&self.content);
        for i in 0..exts.len() {
            len += exts[i].header_len();
            if !is_readable_ext(&exts[i]) && self.is_followed(i) {
                return Err(i);
            }
        }
        Ok(len)
    }

    /// Whether another header follows the tag at an index.
    #[inline]
    fn is_followed(&self, i: usize) -> bool {
        i + 1 < self.link_exts.len() || matches!(self.content, PacketContent::Arp(_))
    }

    /// Writes the packet, whose length is known, from the last part to the first, because a header's fields depend on
    /// what follows it.
    #[inline(always)]
    fn write_whole(&self, target: &mut [u8], len: usize) {
        let exts = self.link_exts;
        let mut front = write_content(target, len, &self.content);
        for i in (0..exts.len()).rev() {
            front = write_ext_before(target, len, &exts[i], front);
        }
        write_link(target, &self.link, front);
    }
}

/// The front of the part of a packet that is written so far.
#[derive(Clone, Copy)]
struct Front {
    /// The offset at which it starts.
    at: usize,
    /// The ether type that announces it, unless the header before it keeps its own.
    ether_type: EtherType,
    /// The ether type that would announce a VLAN tag put before it: 0x88A8 if it begins with a VLAN tag, else 0x8100.
    vlan_type: EtherType,
}

impl Front {
    /// The ether type of a header before it, which had `own`. That is kept if it announces a VLAN tag, and one
    /// follows.
    #[inline(always)]
    fn type_after(self, own: EtherType) -> EtherType {
        let is_tag = self.vlan_type == EtherType::PROVIDER_BRIDGING;
        if is_tag && own.announces_vlan() {
            own
        } else {
            self.ether_type
        }
    }
}

/// The hardware type of a cooked capture of another link than Ethernet.
#[inline(always)]
fn other_link(link: &LinkHeader) -> Option<ArpHardwareId> {
    match link {
        LinkHeader::LinuxSll(header) if header.arp_hrd_type != ArpHardwareId::ETHERNET => {
            Some(header.arp_hrd_type)
        }
        _ => None,
    }
}

/// Whether the payload of a tag is neither encrypted nor changed.
#[inline]
fn is_readable_ext(ext: &LinkExtHeader) -> bool {
    match ext {
        LinkExtHeader::Vlan(_) => true,
        LinkExtHeader::Macsec(tag) => matches!(tag.ptype, MacsecPType::Unmodified(_)),
    }
}

/// Writes a tag before the part that is written so far. `len` is the length of the packet.
#[inline(always)]
fn write_ext_before(target: &mut [u8], len: usize, ext: &LinkExtHeader, front: Front) -> Front {
    match ext {
        LinkExtHeader::Vlan(tag) => {
            let at = front.at - SingleVlanHeader::LEN;
            let tag = SingleVlanHeader {
                ether_type: front.type_after(tag.ether_type),
                ..*tag
            };
            put_at(target, at, tag.to_bytes());
            Front {
                at,
                ether_type: front.vlan_type,
                vlan_type: EtherType::PROVIDER_BRIDGING,
            }
        }
        LinkExtHeader::Macsec(tag) => Front {
            at: write_sec_tag(target, tag, front, len - front.at),
            ether_type: EtherType::MACSEC,
            vlan_type: EtherType::VLAN_TAGGED_FRAME,
        },
    }
}

/// Writes a SecTag before `front`, which begins the last `following` bytes of the packet, and returns the offset of
/// the SecTag. Inlined, it would take the registers of the loop over the tags.
#[inline(never)]
fn write_sec_tag(target: &mut [u8], tag: &MacsecHeader, front: Front, following: usize) -> usize {
    match tag.ptype {
        MacsecPType::Unmodified(own) => {
            let ptype = MacsecPType::Unmodified(front.type_after(own));
            let tag = MacsecHeader { ptype, ..*tag };
            write_sized_sec_tag::<16, 8>(target, front.at, tag, following)
        }
        _ => write_sealed_sec_tag(target, front.at, tag, following),
    }
}

/// Writes a SecTag whose payload can't be read. Inlined, it would take the registers of the other SecTags.
#[inline(never)]
fn write_sealed_sec_tag(
    target: &mut [u8],
    end: usize,
    tag: &MacsecHeader,
    following: usize,
) -> usize {
    write_sized_sec_tag::<14, 6>(target, end, *tag, following)
}

/// Writes a SecTag that ends at `end`, whose bytes usually number `LONG` or `SHORT`, and returns its offset.
#[inline(always)]
fn write_sized_sec_tag<const LONG: usize, const SHORT: usize>(
    target: &mut [u8],
    end: usize,
    tag: MacsecHeader,
    following: usize,
) -> usize {
    let mut sized = tag;
    sized.set_payload_len(following);
    let bytes = sized.to_bytes();
    let at = end - bytes.len();
    write_sized::<LONG, SHORT>(target, at, bytes.as_slice());
    at
}

/// Writes the header of a link before the front of a packet.
#[inline(always)]
fn write_link(target: &mut [u8], link: &LinkHeader, front: Front) {
    match link {
        LinkHeader::Ethernet2(header) => {
            let header = Ethernet2Header {
                ether_type: front.type_after(header.ether_type),
                ..*header
            };
            put_at(target, 0, header.to_bytes());
        }
        LinkHeader::LinuxSll(header) => {
            let own = EtherType(u16::from(header.protocol_type));
            let header = LinuxSllHeader {
                protocol_type: LinuxSllProtocolType::EtherType(front.type_after(own)),
                ..*header
            };
            put_at(target, 0, header.to_bytes());
        }
    }
}

/// Writes the header of a link unchanged.
#[inline]
pub(in crate::ether_packet) fn write_link_header(target: &mut [u8], link: &LinkHeader) {
    match link {
        LinkHeader::Ethernet2(header) => put_at(target, 0, header.to_bytes()),
        LinkHeader::LinuxSll(header) => put_at(target, 0, header.to_bytes()),
    }
}

/// Writes a tag from the offset `at` on.
#[inline]
pub(in crate::ether_packet) fn write_ext(target: &mut [u8], at: usize, ext: &LinkExtHeader) {
    match ext {
        LinkExtHeader::Vlan(tag) => put_at(target, at, tag.to_bytes()),
        LinkExtHeader::Macsec(tag) => write_at(target, at, tag.to_bytes().as_slice()),
    }
}

/// The length in bytes of an ARP packet or a payload.
#[inline]
fn content_len(content: &PacketContent<'_>) -> usize {
    match content {
        PacketContent::Payload(_, bytes) => bytes.len(),
        PacketContent::Arp(packet) => packet.packet_len(),
    }
}

/// Writes an ARP packet or a payload to the end of a packet of length `len`.
#[inline(always)]
fn write_content(target: &mut [u8], len: usize, content: &PacketContent<'_>) -> Front {
    let vlan_type = EtherType::VLAN_TAGGED_FRAME;
    match content {
        PacketContent::Payload(ether_type, bytes) => {
            let at = len - bytes.len();
            write_at(target, at, bytes);
            Front {
                at,
                ether_type: *ether_type,
                vlan_type,
            }
        }
        PacketContent::Arp(packet) => Front {
            at: write_arp(target, len, packet),
            ether_type: EtherType::ARP,
            vlan_type,
        },
    }
}

/// Writes an ARP packet that ends at the offset `end`, and returns the offset at which it starts.
#[inline]
pub(in crate::ether_packet) fn write_arp(target: &mut [u8], end: usize, packet: &ArpPacket) -> usize {
    let at = end - packet.packet_len();
    write_at(target, at, packet.to_bytes().as_slice());
    at
}

/// Writes bytes from the offset `at` on.
#[inline]
pub(in crate::ether_packet) fn write_at(target: &mut [u8], at: usize, bytes: &[u8]) {
    target[at..at + bytes.len()].copy_from_slice(bytes);
}

/// Does as `write_at`, in one piece if the number of bytes is `LONG` or `SHORT`.
#[inline(always)]
fn write_sized<const LONG: usize, const SHORT: usize>(target: &mut [u8], at: usize, bytes: &[u8]) {
    if bytes.len() == LONG {
        write_chunk::<LONG>(target, at, bytes)
    } else if bytes.len() == SHORT {
        write_chunk::<SHORT>(target, at, bytes)
    } else {
        write_at(target, at, bytes)
    }
}

/// Does as `write_at` with exactly `N` bytes.
#[inline(always)]
fn write_chunk<const N: usize>(target: &mut [u8], at: usize, bytes: &[u8]) {
    if let Some(whole) = bytes.first_chunk::<N>() {
        put_at(target, at, *whole);
    }
}

/// Does as `write_at` with an array, in one piece.
#[inline(always)]
pub(in crate::ether_packet) fn put_at<const N: usize>(target: &mut [u8], at: usize, bytes: [u8; N]) {
    fill(&mut target[at..at + N], bytes);
}

/// Replaces all bytes of a slice.
#[inline(always)]
fn fill<const N: usize>(slice: &mut [u8], bytes: [u8; N]) {
    if let Some(whole) = slice.first_chunk_mut::<N>() {
        *whole = bytes;
    }
}
