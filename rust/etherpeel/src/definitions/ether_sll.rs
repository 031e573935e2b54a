//! Views of Linux cooked capture v1.
//!
//! # Linux SLL
//!
//! Headers of cooked capture as values of the wire format, their refusals as rows of the table, and what bytes say
//! beyond the numbers of their header.
//!
//! <a id="def.linux_sll_value"></a>
//!
//! ## `linux_sll_value`
//!
//! The address as the number of its bytes.
//!
//! ```text
//! abbrev pub linux_sll_value : (packet_type hardware_type address_len : ℕ) (address : List ℕ) (protocol : ℕ)
//!     → LinuxSllValue
//! linux_sll_value packet_type hardware_type address_len address protocol = record {
//!   packet_type = packet_type;
//!   hardware_type = hardware_type;
//!   address_len = address_len;
//!   address = number address;
//!   protocol = protocol;
//! }
//! ```
//!
//! Uses: [`LinuxSllValue`](crate::definitions::ether_base#def.LinuxSllValue), [`number`](crate::definitions::ether_base#def.number)
//!
//! <a id="def.linux_sll_view"></a>
//!
//! ## `linux_sll_view`
//!
//! The protocol type as its number.
//!
//! ```text
//! abbrev pub linux_sll_view : LinuxSllHeader → LinuxSllValue
//! linux_sll_view h =
//!     linux_sll_value h.packet_type h.arp_hrd_type.0 h.sender_address_valid_length h.sender_address
//!     (protocol_number h.protocol_type)
//! ```
//!
//! Uses: [`LinuxSllValue`](crate::definitions::ether_base#def.LinuxSllValue), [`linux_sll_value`](#def.linux_sll_value), [`protocol_number`](crate::definitions::ether_base#def.protocol_number)
//!
//! **Refusals**
//!
//! <a id="def.IsRefusedContent"></a>
//!
//! ## `IsRefusedContent`
//!
//! The contents are refused, with the number that is not supported.
//!
//! ```text
//! abbrev pub IsRefusedContent : List ℕ → HeaderError → Type 0
//! IsRefusedContent bytes (UnsupportedPacketTypeField number) =
//!     Refuses sources.Slice bytes kinds.LinuxSll (UnsupportedPacketType number)
//! IsRefusedContent bytes (UnsupportedArpHardwareId hardware) =
//!     Refuses sources.Slice bytes kinds.LinuxSll (UnsupportedHardwareType hardware.0)
//! ```
//!
//! Uses: `UnsupportedPacketTypeField` (`HeaderError::UnsupportedPacketTypeField`), [`Refuses`](crate::definitions::ether_base#def.Refuses), `sources` (`LenSource`), [`kinds.LinuxSll`](crate::definitions::ether_base#def.Kind), [`UnsupportedPacketType`](crate::definitions::ether_base#def.Refusal), `UnsupportedArpHardwareId` (`HeaderError::UnsupportedArpHardwareId`), [`UnsupportedHardwareType`](crate::definitions::ether_base#def.Refusal)
//!
//! <a id="def.IsRefusedSll"></a>
//!
//! ## `IsRefusedSll`
//!
//! A slice is refused as a cooked capture.
//!
//! ```text
//! abbrev pub IsRefusedSll : List ℕ → HeaderSliceError HeaderError → Type 0
//! IsRefusedSll bytes (Len error) = IsRefusedLen bytes kinds.LinuxSll error
//! IsRefusedSll bytes (Content error) = IsRefusedContent bytes error
//! ```
//!
//! Uses: `Len` (`HeaderSliceError::Len`), [`IsRefusedLen`](crate::definitions::ether_base#def.IsRefusedLen), [`kinds.LinuxSll`](crate::definitions::ether_base#def.Kind), `Content` (`HeaderSliceError::Content`), [`IsRefusedContent`](#def.IsRefusedContent)
//!
//! **Reading**
//!
//! <a id="def.protocol_type_of_header"></a>
//!
//! ## `protocol_type_of_header`
//!
//! The protocol number, read according to the hardware type.
//!
//! ```text
//! abbrev pub protocol_type_of_header : List ℕ → LinuxSllProtocolType
//! protocol_type_of_header bytes = protocol_of (linux_sll_of bytes).hardware_type (linux_sll_of bytes).protocol
//! ```
//!
//! Uses: [`protocol_of`](crate::definitions::ether_base#def.protocol_of), [`linux_sll_of`](crate::definitions::ether_base#def.linux_sll_of)
//!
//! <a id="def.valid_address"></a>
//!
//! ## `valid_address`
//!
//! The bytes of the address field that the header counts as valid, at most eight.
//!
//! ```text
//! abbrev pub valid_address : List ℕ → List ℕ
//! valid_address bytes = slice_range bytes 6 (6 + min (linux_sll_of bytes).address_len 8)
//! ```
//!
//! Uses: [`linux_sll_of`](crate::definitions::ether_base#def.linux_sll_of)
//!
//! <a id="def.HasOwnType"></a>
//!
//! ## `HasOwnType`
//!
//! The hardware type is supported, and its protocol number means this protocol type.
//!
//! ```text
//! abbrev pub HasOwnType : LinuxSllHeader → Type 0
//! HasOwnType h = protocol_type_of h.arp_hrd_type (protocol_number h.protocol_type) ≡ Ok h.protocol_type
//! ```
//!
//! Uses: [`protocol_type_of`](crate::definitions::ether_base#def.protocol_type_of), [`protocol_number`](crate::definitions::ether_base#def.protocol_number)
//!
//! <a id="def.HoldsHeader"></a>
//!
//! ## `HoldsHeader`
//!
//! Sixteen bytes hold a header.
//!
//! ```text
//! pub record HoldsHeader (bytes : List ℕ) (h : LinuxSllHeader) : Type 0 where
//!   pub accepted : Accepts sources.Slice bytes kinds.LinuxSll
//!   pub value : IsLinuxSll bytes (linux_sll_view h)
//!   pub address : h.sender_address ≡ slice_range bytes 6 14
//!   pub protocol : h.protocol_type ≡ protocol_type_of_header bytes
//! ```
//!
//! Uses: [`Accepts`](crate::definitions::ether_base#def.Accepts), `sources` (`LenSource`), [`kinds.LinuxSll`](crate::definitions::ether_base#def.Kind), [`IsLinuxSll`](crate::definitions::ether_base#def.IsLinuxSll), [`linux_sll_view`](#def.linux_sll_view), [`protocol_type_of_header`](#def.protocol_type_of_header)
//!
//! <a id="def.AnswersHeader"></a>
//!
//! ## `AnswersHeader`
//!
//! What reading sixteen bytes returns: the header that they hold, or the row that refuses them.
//!
//! ```text
//! abbrev pub AnswersHeader : List ℕ → Result LinuxSllHeader HeaderError → Type 0
//! AnswersHeader bytes result = MatchResult result (HoldsHeader bytes) (IsRefusedContent bytes)
//! ```
//!
//! Uses: [`HoldsHeader`](#def.HoldsHeader), [`IsRefusedContent`](#def.IsRefusedContent)
//!
//! # Link
//!
//! The packets of links by cases: their headers, their payloads, and what names the lengths of the payloads.
//!
//! **Headers**
//!
//! <a id="def.ethernet2_header"></a>
//!
//! ## `ethernet2_header`
//!
//! ```text
//! abbrev pub ethernet2_header : LinkHeader → Option Ethernet2Header
//! ethernet2_header (link_headers.LinuxSll h) = None
//! ethernet2_header (link_headers.Ethernet2 h) = Some h
//! ```
//!
//! Uses: `link_headers` (`LinkHeader`)
//!
//! <a id="def.linux_sll_header"></a>
//!
//! ## `linux_sll_header`
//!
//! ```text
//! abbrev pub linux_sll_header : LinkHeader → Option LinuxSllHeader
//! linux_sll_header (link_headers.LinuxSll h) = Some h
//! linux_sll_header (link_headers.Ethernet2 h) = None
//! ```
//!
//! Uses: `link_headers` (`LinkHeader`)
//!
//! <a id="def.link_header_len"></a>
//!
//! ## `link_header_len`
//!
//! ```text
//! abbrev pub link_header_len : LinkHeader → ℕ
//! link_header_len (link_headers.LinuxSll h) = 16
//! link_header_len (link_headers.Ethernet2 h) = 14
//! ```
//!
//! Uses: `link_headers` (`LinkHeader`)
//!
//! <a id="def.LendsEthernet2"></a>
//!
//! ## `LendsEthernet2`
//!
//! What is written through the lent header is in the link's header; a link of the other kind is unchanged.
//!
//! ```text
//! abbrev pub LendsEthernet2 : MutBor LinkHeader → Option (MutBor Ethernet2Header) → Fml
//! LendsEthernet2 s r = LendsIf link_row ethernet2_row s r link_headers.Ethernet2 s.now
//! ```
//!
//! Uses: `link_row` (`LinkHeader`), `ethernet2_row` (`Ethernet2Header`), `link_headers` (`LinkHeader`)
//!
//! <a id="def.LendsLinuxSll"></a>
//!
//! ## `LendsLinuxSll`
//!
//! ```text
//! abbrev pub LendsLinuxSll : MutBor LinkHeader → Option (MutBor LinuxSllHeader) → Fml
//! LendsLinuxSll s r = LendsIf link_row linux_sll_row s r link_headers.LinuxSll s.now
//! ```
//!
//! Uses: `link_row` (`LinkHeader`), `linux_sll_row` (`LinuxSllHeader`), `link_headers` (`LinkHeader`)
//!
//! <a id="def.LinkValue"></a>
//!
//! ## `LinkValue`
//!
//! The header as a value; that of cooked capture also has its protocol type.
//!
//! ```text
//! pub data LinkValue : Type 0 where
//!   Ethernet2 : Ethernet2Value → LinkValue
//!   LinuxSll : LinuxSllValue → LinuxSllProtocolType → LinkValue
//! ```
//!
//! Uses: [`Ethernet2Value`](crate::definitions::ether_base#def.Ethernet2Value), [`LinuxSllValue`](crate::definitions::ether_base#def.LinuxSllValue)
//!
//! <a id="def.header_value"></a>
//!
//! ## `header_value`
//!
//! ```text
//! abbrev pub header_value : Option LinkHeader → Option LinkValue
//! header_value None = None
//! header_value (Some (link_headers.LinuxSll h)) = Some (LinuxSll (linux_sll_view h) h.protocol_type)
//! header_value (Some (link_headers.Ethernet2 h)) = Some (Ethernet2 (ethernet2_view h))
//! ```
//!
//! Uses: [`LinkValue`](#def.LinkValue), `link_headers` (`LinkHeader`), [`LinuxSll`](#def.LinkValue), [`linux_sll_view`](#def.linux_sll_view), [`Ethernet2`](#def.LinkValue), [`ethernet2_view`](crate::definitions::ether_tags#def.ethernet2_view)
//!
//! <a id="def.link_value"></a>
//!
//! ## `link_value`
//!
//! ```text
//! abbrev pub link_value : LinkSlice → Option LinkValue
//! link_value (link_slices.Ethernet2 f) = Some (Ethernet2 (ethernet2_of f.bytes))
//! link_value (link_slices.LinuxSll s) = Some (LinuxSll (linux_sll_of s) (protocol_type_of_header s))
//! link_value (link_slices.EtherPayload p) = None
//! link_value (link_slices.LinuxSllPayload p) = None
//! ```
//!
//! Uses: [`LinkValue`](#def.LinkValue), `link_slices` (`LinkSlice`), [`Ethernet2`](#def.LinkValue), [`ethernet2_of`](crate::definitions::ether_base#def.ethernet2_of), [`LinuxSll`](#def.LinkValue), [`linux_sll_of`](crate::definitions::ether_base#def.linux_sll_of), [`protocol_type_of_header`](#def.protocol_type_of_header)
//!
//! **Payloads**
//!
//! <a id="def.link_protocol"></a>
//!
//! ## `link_protocol`
//!
//! ```text
//! abbrev pub link_protocol : LinkSlice → LinuxSllProtocolType
//! link_protocol (link_slices.Ethernet2 f) = protocols.EtherType (record { 0 = (ethernet2_of f.bytes).ether_type })
//! link_protocol (link_slices.LinuxSll s) = protocol_type_of_header s
//! link_protocol (link_slices.EtherPayload p) = protocols.EtherType p.ether_type
//! link_protocol (link_slices.LinuxSllPayload p) = p.protocol_type
//! ```
//!
//! Uses: `link_slices` (`LinkSlice`), `protocols` (`LinuxSllProtocolType`), [`ethernet2_of`](crate::definitions::ether_base#def.ethernet2_of), [`protocol_type_of_header`](#def.protocol_type_of_header)
//!
//! <a id="def.link_payload"></a>
//!
//! ## `link_payload`
//!
//! ```text
//! abbrev pub link_payload : LinkSlice → List ℕ
//! link_payload (link_slices.Ethernet2 f) = payload_of f
//! link_payload (link_slices.LinuxSll s) = slice_range s 16 (length s)
//! link_payload (link_slices.EtherPayload p) = p.payload.now
//! link_payload (link_slices.LinuxSllPayload p) = p.payload.now
//! ```
//!
//! Uses: `link_slices` (`LinkSlice`), [`payload_of`](crate::definitions::ether_tags#def.payload_of)
//!
//! <a id="def.link_source"></a>
//!
//! ## `link_source`
//!
//! Where the payload's length comes from: an ether payload says so itself, any other ends with its slice.
//!
//! ```text
//! abbrev pub link_source : LinkSlice → LenSource
//! link_source (link_slices.Ethernet2 f) = sources.Slice
//! link_source (link_slices.LinuxSll s) = sources.Slice
//! link_source (link_slices.EtherPayload p) = p.len_source
//! link_source (link_slices.LinuxSllPayload p) = sources.Slice
//! ```
//!
//! Uses: `link_slices` (`LinkSlice`), `sources` (`LenSource`)
//!
