//! The walk through a frame.

use crate::ether_peel::{PeelError, PeelFault, PeelUnit, RestKind, Start};
use crate::err::LenError;
use crate::{
    ArpPacketSlice, EtherType, Ethernet2Slice, LenSource, LinuxSllProtocolType, LinuxSllSlice,
    MacsecPayloadSlice, MacsecSlice, SingleVlanSlice, err,
};

/// An ether type that announces nothing.
const UNANNOUNCED: EtherType = EtherType(0);

/// The header that a walk begins with, until it was read.
#[derive(Clone, Copy, Debug)]
enum First {
    Read,
    Ethernet2,
    Ethernet2Fcs,
    LinuxSll,
}

/// A walk: the units of a frame, each in the payload of the one before it, and then the fault if there is one.
///
/// The units borrow the frame, and outlive the walk. A frame of `n` bytes has at most `n / 4` units.
///
/// ```
/// use etherpeel::EtherType;
/// use etherpeel::ether_peel::{Peel, PeelUnit, RestKind, Start};
///
/// let frame = [
///     0xFF, 0xFF, 0xFF, 0xFF, 0xFF, 0xFF, 0x02, 0x00, 0x00, 0x00, 0x00, 0x01, 0x81, 0x00, // Ethernet II
///     0xB1, 0x23, 0x08, 0x00, // VLAN
///     0x45,
/// ];
/// let mut found = false;
/// let mut peel = Peel::new(Start::Ethernet2, &frame);
/// while let Some(Ok(unit)) = peel.next() {
///     if let PeelUnit::Vlan(tag) = unit {
///         found = true;
///         assert_eq!(tag.vlan_identifier().value(), 0x123);
///     }
/// }
/// assert!(found);
/// assert_eq!(peel.offset(), 18);
/// assert_eq!(peel.rest(), [0x45].as_slice());
/// assert_eq!(peel.kind(), RestKind::EtherType(EtherType::IPV4));
/// ```
#[must_use = "iterators are lazy and do nothing unless consumed"]
#[derive(Clone, Debug)]
pub struct Peel<'a> {
    /// The window left to read.
    rest: &'a [u8],
    /// Where it ends in the frame, which most headers leave as it is.
    end: usize,
    /// Whether bytes appended to the frame would lie outside the window.
    is_closed: bool,
    /// Whether the fault was returned.
    is_over: bool,
    /// What names the end of the window.
    bound: LenSource,
    first: First,
    /// The ether type that announces the next unit, once the first header was read.
    announced: EtherType,
    /// What [`Peel::kind`] shows, which need not be an ether type.
    kind: RestKind,
    /// How many VLAN tags and SecTags may still be read, if that is limited.
    limit: Option<usize>,
}

impl<'a> Peel<'a> {
    /// Begins a walk through a frame, which has read nothing yet.
    ///
    /// <details><summary>Contract</summary>
    ///
    /// ```text
    /// ensures state { result ≡ begun (start_of start) bytes.now }
    /// ensures walk { FacesWalk (start_of start) bytes.now result }
    /// ```
    ///
    /// Words: [`begun`](crate::definitions::ether_peel#def.begun),
    /// [`start_of`](crate::definitions::ether_peel#def.start_of),
    /// [`FacesWalk`](crate::definitions::ether_peel#def.FacesWalk). [Notation](crate::definitions::notation)
    ///
    /// </details>
    #[inline(always)]
    pub fn new(start: Start, bytes: &'a [u8]) -> Peel<'a> {
        Peel::begin(start, bytes, None)
    }

    /// Begins a walk that reads at most `limit` VLAN tags and MACsec SecTags.
    ///
    /// After these an ether type of a VLAN tag or of MACsec announces nothing: the walk ends there, with no fault, and
    /// [`kind`](Self::kind) is that ether type. ARP packets and the header that the frame begins with don't count, but
    /// the unit that [`Start::EtherType`] announces does.
    ///
    /// ```
    /// use etherpeel::EtherType;
    /// use etherpeel::ether_peel::{Peel, PeelUnit, RestKind, Start};
    ///
    /// let tags = [
    ///     0x00, 0x01, 0x81, 0x00, // VLAN
    ///     0x00, 0x02, 0x08, 0x00, // VLAN
    ///     0x45,
    /// ];
    /// let mut peel = Peel::with_limit(Start::EtherType(EtherType::PROVIDER_BRIDGING), &tags, 1);
    /// assert!(matches!(peel.next(), Some(Ok(PeelUnit::Vlan(_)))));
    /// assert!(peel.next().is_none());
    /// assert_eq!(peel.offset(), 4);
    /// assert_eq!(peel.kind(), RestKind::EtherType(EtherType::VLAN_TAGGED_FRAME));
    /// ```
    ///
    /// <details><summary>Contract</summary>
    ///
    /// ```text
    /// ensures state { result ≡ begun (limited_start start limit) bytes.now }
    /// ensures walk { FacesWalk (limited_start start limit) bytes.now result }
    /// ```
    ///
    /// Words: [`begun`](crate::definitions::ether_peel#def.begun),
    /// [`limited_start`](crate::definitions::ether_peel#def.limited_start),
    /// [`FacesWalk`](crate::definitions::ether_peel#def.FacesWalk). [Notation](crate::definitions::notation)
    ///
    /// </details>
    #[inline(always)]
    pub fn with_limit(start: Start, bytes: &'a [u8], limit: usize) -> Peel<'a> {
        Peel::begin(start, bytes, Some(limit))
    }

    /// Begins a walk with a limit or without.
    #[inline(always)]
    pub(in crate::ether_peel) fn begin(start: Start, bytes: &'a [u8], limit: Option<usize>) -> Peel<'a> {
        let (first, announced, kind) = match start {
            Start::Ethernet2 => (First::Ethernet2, UNANNOUNCED, RestKind::Start),
            Start::Ethernet2Fcs => (First::Ethernet2Fcs, UNANNOUNCED, RestKind::Start),
            Start::LinuxSll => (First::LinuxSll, UNANNOUNCED, RestKind::Start),
            Start::EtherType(ether_type) => {
                (First::Read, ether_type, RestKind::EtherType(ether_type))
            }
        };
        Peel {
            rest: bytes,
            end: bytes.len(),
            is_closed: matches!(start, Start::Ethernet2Fcs),
            is_over: false,
            bound: LenSource::Slice,
            first,
            announced,
            kind,
            limit,
        }
    }

    /// The bytes of the window left to read. After a fault this is the window of the refused unit.
    ///
    /// <details><summary>Contract</summary>
    ///
    /// ```text
    /// ensures { result.now ≡ self.now.rest }
    /// ```
    ///
    /// [Notation](crate::definitions::notation)
    ///
    /// </details>
    #[must_use]
    #[inline(always)]
    pub fn rest(&self) -> &'a [u8] {
        self.rest
    }

    /// Where the window left to read starts, in bytes from the start of the frame.
    ///
    /// <details><summary>Contract</summary>
    ///
    /// ```text
    /// ensures value { result ≡ self.now.offset }
    /// ensures fits { self.now.offset + length self.now.rest < 2 ^ 64 }
    /// ```
    ///
    /// [Notation](crate::definitions::notation)
    ///
    /// </details>
    #[must_use]
    #[inline(always)]
    pub fn offset(&self) -> usize {
        self.end - self.rest.len()
    }

    /// What the window left to read is announced as: after a fault, what was expected there.
    ///
    /// <details><summary>Contract</summary>
    ///
    /// ```text
    /// ensures { result ≡ kind_shown self.now.expected }
    /// ```
    ///
    /// Words: [`kind_shown`](crate::definitions::ether_peel#def.kind_shown). [Notation](crate::definitions::notation)
    ///
    /// </details>
    #[must_use]
    #[inline(always)]
    pub fn kind(&self) -> RestKind {
        self.kind
    }

    /// Whether the window left to read is closed: bytes appended to the frame would lie outside it.
    ///
    /// <details><summary>Contract</summary>
    ///
    /// ```text
    /// ensures { result ≡ self.now.closed }
    /// ```
    ///
    /// [Notation](crate::definitions::notation)
    ///
    /// </details>
    #[must_use]
    #[inline(always)]
    pub fn closed(&self) -> bool {
        self.is_closed
    }

    /// What bounds the window left to read: the frame, or the short length of a SecTag around the window.
    ///
    /// A length error of the walk names it as the source of the length, unless the unit itself names its length. A
    /// frame check sequence closes a window, but does not bound it.
    ///
    /// <details><summary>Contract</summary>
    ///
    /// ```text
    /// ensures { result ≡ self.now.bound }
    /// ```
    ///
    /// [Notation](crate::definitions::notation)
    ///
    /// </details>
    #[must_use]
    #[inline(always)]
    pub fn bound(&self) -> LenSource {
        self.bound
    }
}

impl<'a> Iterator for Peel<'a> {
    type Item = Result<PeelUnit<'a>, PeelFault>;

    /// The next unit, the fault that ends the walk, or `None` if nothing is left to read or the fault was returned.
    #[inline(always)]
    fn next(&mut self) -> Option<Result<PeelUnit<'a>, PeelFault>> {
        if self.is_over {
            return None;
        }
        match self.first {
            First::Read => match permitted(self.limit, self.announced) {
                EtherType::VLAN_TAGGED_FRAME
                | EtherType::PROVIDER_BRIDGING
                | EtherType::VLAN_DOUBLE_TAGGED_FRAME => self.vlan(),
                EtherType::MACSEC => self.macsec(),
                EtherType::ARP => self.arp(),
                _ => None,
            },
            First::Ethernet2 => self.ethernet2(),
            First::Ethernet2Fcs => self.ethernet2_fcs(),
            First::LinuxSll => self.linux_sll(),
        }
    }

    /// At most one unit for each four bytes left, and a fault.
    #[inline]
    fn size_hint(&self) -> (usize, Option<usize>) {
        let most = if !self.is_over {
            self.rest.len() / 4 + 1
        } else {
            0
        };
        (0, Some(most))
    }
}

/// The steps of a walk that is not over, one for each kind of unit that can be announced.
impl<'a> Peel<'a> {
    /// Goes on at the refused unit, with a longer front of the frame.
    #[inline(always)]
    pub(in crate::ether_peel) fn go_on(&mut self, bytes: &'a [u8]) {
        self.rest = &bytes[self.offset()..];
        self.end = bytes.len();
        self.is_over = false;
    }

    /// Ends the walk at the unit that is announced.
    #[inline(always)]
    fn fault(&mut self, error: PeelError) -> Option<Result<PeelUnit<'a>, PeelFault>> {
        let offset = self.offset();
        self.is_over = true;
        Some(Err(PeelFault {
            offset,
            error: bounded(error, self.bound),
            closed: self.is_closed,
        }))
    }

    /// Reads an Ethernet II frame.
    #[inline(always)]
    fn ethernet2(&mut self) -> Option<Result<PeelUnit<'a>, PeelFault>> {
        match Ethernet2Slice::from_slice_without_fcs(self.rest) {
            Ok(slice) => {
                let ether_type = slice.ether_type();
                self.rest = slice.payload_slice();
                self.first = First::Read;
                self.announced = ether_type;
                self.kind = RestKind::EtherType(ether_type);
                Some(Ok(PeelUnit::Ethernet2(slice)))
            }
            Err(error) => self.fault(PeelError::Len(error.add_offset(self.offset()))),
        }
    }

    /// Reads an Ethernet II frame with a frame check sequence.
    #[inline(always)]
    fn ethernet2_fcs(&mut self) -> Option<Result<PeelUnit<'a>, PeelFault>> {
        match Ethernet2Slice::from_slice_with_crc32_fcs(self.rest) {
            Ok(slice) => {
                let ether_type = slice.ether_type();
                let payload = slice.payload_slice();
                self.end = self.offset() + slice.header_len() + payload.len();
                self.rest = payload;
                self.first = First::Read;
                self.announced = ether_type;
                self.kind = RestKind::EtherType(ether_type);
                Some(Ok(PeelUnit::Ethernet2(slice)))
            }
            Err(error) => self.fault(PeelError::Len(error.add_offset(self.offset()))),
        }
    }

    /// Reads a packet of Linux cooked capture v1.
    #[inline(always)]
    fn linux_sll(&mut self) -> Option<Result<PeelUnit<'a>, PeelFault>> {
        match LinuxSllSlice::from_slice(self.rest) {
            Ok(slice) => {
                let (announced, kind) = announced_in(&slice);
                self.rest = slice.payload_slice();
                self.first = First::Read;
                self.announced = announced;
                self.kind = kind;
                Some(Ok(PeelUnit::LinuxSll(slice)))
            }
            Err(err::linux_sll::HeaderSliceError::Len(error)) => {
                self.fault(PeelError::Len(error.add_offset(self.offset())))
            }
            Err(err::linux_sll::HeaderSliceError::Content(error)) => {
                self.fault(PeelError::LinuxSll(error))
            }
        }
    }

    /// Reads a VLAN tag.
    #[inline(always)]
    fn vlan(&mut self) -> Option<Result<PeelUnit<'a>, PeelFault>> {
        match SingleVlanSlice::from_slice(self.rest) {
            Ok(slice) => {
                let ether_type = slice.ether_type();
                self.rest = slice.payload_slice();
                self.first = First::Read;
                self.limit = lowered(self.limit);
                self.announced = ether_type;
                self.kind = RestKind::EtherType(ether_type);
                Some(Ok(PeelUnit::Vlan(slice)))
            }
            Err(error) => self.fault(PeelError::Len(error.add_offset(self.offset()))),
        }
    }

    /// Reads a MACsec SecTag and its payload.
    #[inline(always)]
    fn macsec(&mut self) -> Option<Result<PeelUnit<'a>, PeelFault>> {
        match MacsecSlice::from_slice(self.rest) {
            Ok(slice) => {
                let (announced, kind) = announced_after(slice.payload);
                let payload = payload_bytes(slice.payload);
                self.end = self.offset() + slice.header.header_len() + payload.len();
                self.rest = payload;
                let known = slice.header.expected_payload_len();
                self.is_closed |= known.is_some();
                self.bound = bound_after(known, self.bound);
                self.first = First::Read;
                self.limit = lowered(self.limit);
                self.announced = announced;
                self.kind = kind;
                Some(Ok(PeelUnit::Macsec(slice)))
            }
            Err(err::macsec::HeaderSliceError::Len(error)) => {
                self.fault(PeelError::Len(error.add_offset(self.offset())))
            }
            Err(err::macsec::HeaderSliceError::Content(error)) => {
                self.fault(PeelError::Macsec(error))
            }
        }
    }

    /// Reads an ARP packet.
    #[inline(always)]
    fn arp(&mut self) -> Option<Result<PeelUnit<'a>, PeelFault>> {
        match ArpPacketSlice::from_slice(self.rest) {
            Ok(slice) => {
                let len = slice.slice().len();
                self.rest = &self.rest[len..];
                self.first = First::Read;
                self.announced = UNANNOUNCED;
                self.kind = RestKind::AfterArp;
                Some(Ok(PeelUnit::Arp(slice)))
            }
            Err(error) => self.fault(PeelError::Len(error.add_offset(self.offset()))),
        }
    }
}

/// The limit on extensions after one of them was read.
#[inline(always)]
fn lowered(limit: Option<usize>) -> Option<usize> {
    match limit {
        Some(left) => Some(left.saturating_sub(1)),
        None => None,
    }
}

/// The ether type, or one that announces nothing if it announces an extension and none may be read any more.
#[inline(always)]
fn permitted(limit: Option<usize>, ether_type: EtherType) -> EtherType {
    match limit {
        Some(0) if ether_type.announces_vlan() || ether_type == EtherType::MACSEC => UNANNOUNCED,
        _ => ether_type,
    }
}

/// The error, with the bound of the window in place of the slice that the unit was read from.
#[inline(always)]
fn bounded(error: PeelError, bound: LenSource) -> PeelError {
    match error {
        PeelError::Len(error) if matches!(error.len_source, LenSource::Slice) => {
            PeelError::Len(LenError {
                len_source: bound,
                ..error
            })
        }
        _ => error,
    }
}

/// The ether type that announces the payload of a cooked capture, and what is shown of it.
#[inline(always)]
fn announced_in(packet: &LinuxSllSlice<'_>) -> (EtherType, RestKind) {
    let protocol_type = packet.protocol_type();
    match protocol_type {
        LinuxSllProtocolType::EtherType(_) | LinuxSllProtocolType::LinuxNonstandardEtherType(_) => {
            let ether_type = EtherType(u16::from(protocol_type));
            (ether_type, RestKind::EtherType(ether_type))
        }
        _ => (UNANNOUNCED, RestKind::Sll(protocol_type)),
    }
}

/// The ether type that announces the payload of a SecTag, and what is shown of it.
#[inline(always)]
fn announced_after(payload: MacsecPayloadSlice<'_>) -> (EtherType, RestKind) {
    match payload {
        MacsecPayloadSlice::Unmodified(payload) => (
            payload.ether_type,
            RestKind::EtherType(payload.ether_type),
        ),
        MacsecPayloadSlice::Modified(_) => (UNANNOUNCED, RestKind::Sealed),
    }
}

/// The bound of the payload of a SecTag, whose length the tag names or not.
#[inline(always)]
fn bound_after(known: Option<usize>, bound: LenSource) -> LenSource {
    match known {
        Some(_) => LenSource::MacsecShortLength,
        None => bound,
    }
}

/// The bytes of a payload of a SecTag.
#[inline(always)]
fn payload_bytes<'a>(payload: MacsecPayloadSlice<'a>) -> &'a [u8] {
    match payload {
        MacsecPayloadSlice::Unmodified(payload) => payload.payload,
        MacsecPayloadSlice::Modified(payload) => payload,
    }
}
