//! Linux cooked capture v2.
//!
//! # Linux SLL2
//!
//! The header of Linux cooked capture, version 2 (LINKTYPE\_LINUX\_SLL2 of the tcpdump group), its refusals, and what its
//! protocol number means.
//!
//! <a id="def.LinuxSll2Value"></a>
//!
//! ## `LinuxSll2Value`
//!
//! The reserved number is no part of it.
//!
//! ```text
//! pub record LinuxSll2Value : Type 0 where
//!   pub protocol : ℕ
//!   pub interface_index : ℕ
//!   pub hardware_type : ℕ
//!   pub packet_type : ℕ
//!   pub address_len : ℕ
//!   pub address : ℕ
//! ```
//!
//! <a id="def.linux_sll2_number"></a>
//!
//! ## `linux_sll2_number`
//!
//! Protocol type 2 bytes, reserved 2 bytes, interface index 4 bytes, ARPHRD\_ type 2 bytes, packet type 1 byte, address
//! length 1 byte, address 8 bytes.
//!
//! ```text
//! abbrev pub linux_sll2_number : (reserved : ℕ) → LinuxSll2Value → ℕ
//! linux_sll2_number reserved s =
//!     s.protocol * 2 ^ 144 + reserved * 2 ^ 128 + s.interface_index * 2 ^ 96 + s.hardware_type * 2 ^ 80 + s.packet_type
//!     * 2 ^ 72 + s.address_len * 2 ^ 64 + s.address
//! ```
//!
//! Uses: [`LinuxSll2Value`](#def.LinuxSll2Value)
//!
//! <a id="def.FitsLinuxSll2"></a>
//!
//! ## `FitsLinuxSll2`
//!
//! ```text
//! pub record FitsLinuxSll2 (s : LinuxSll2Value) : Type 0 where
//!   pub protocol : s.protocol < 2 ^ 16
//!   pub interface_index : s.interface_index < 2 ^ 32
//!   pub hardware_type : s.hardware_type < 2 ^ 16
//!   pub packet_type : s.packet_type < 2 ^ 8
//!   pub address_len : s.address_len < 2 ^ 8
//!   pub address : s.address < 2 ^ 64
//! ```
//!
//! Uses: [`LinuxSll2Value`](#def.LinuxSll2Value)
//!
//! <a id="def.IsLinuxSll2"></a>
//!
//! ## `IsLinuxSll2`
//!
//! Twenty bytes mean a value, whatever the reserved number is.
//!
//! ```text
//! pub record IsLinuxSll2 (bytes : List ℕ) (s : LinuxSll2Value) : Type 0 where
//!   pub reserved : ℕ
//!   pub sum : number bytes ≡ linux_sll2_number reserved s
//!   pub fits : FitsLinuxSll2 s
//!   pub reserved_fits : reserved < 2 ^ 16
//! ```
//!
//! Uses: [`LinuxSll2Value`](#def.LinuxSll2Value), [`number`](crate::definitions::ether_base#def.number), [`linux_sll2_number`](#def.linux_sll2_number), [`FitsLinuxSll2`](#def.FitsLinuxSll2)
//!
//! <a id="def.BeginsLinuxSll2"></a>
//!
//! ## `BeginsLinuxSll2`
//!
//! A list begins with the twenty bytes of a value.
//!
//! ```text
//! pub record BeginsLinuxSll2 (bytes : List ℕ) (s : LinuxSll2Value) : Type 0 where
//!   pub whole : 20 ≤ length bytes
//!   pub spells : IsLinuxSll2 (slice_range bytes 0 20) s
//! ```
//!
//! Uses: [`LinuxSll2Value`](#def.LinuxSll2Value), [`IsLinuxSll2`](#def.IsLinuxSll2)
//!
//! <a id="def.linux_sll2_bytes"></a>
//!
//! ## `linux_sll2_bytes`
//!
//! The twenty bytes of a value, with the reserved number 0.
//!
//! ```text
//! abbrev pub linux_sll2_bytes : LinuxSll2Value → List ℕ
//! linux_sll2_bytes s = spelled 20 (linux_sll2_number 0 s)
//! ```
//!
//! Uses: [`LinuxSll2Value`](#def.LinuxSll2Value), [`spelled`](crate::definitions::ether_base#def.spelled), [`linux_sll2_number`](#def.linux_sll2_number)
//!
//! <a id="def.cleared"></a>
//!
//! ## `cleared`
//!
//! Bytes in which the two reserved ones are 0.
//!
//! ```text
//! abbrev pub cleared : List ℕ → List ℕ
//! cleared bytes = overwritten bytes 2 (0 ∷ 0 ∷ [])
//! ```
//!
//! Uses: [`overwritten`](crate::definitions::ether_base#def.overwritten)
//!
//! <a id="def.linux_sll2_of"></a>
//!
//! ## `linux_sll2_of`
//!
//! The value in a list of at least twenty bytes.
//!
//! ```text
//! abbrev pub linux_sll2_of : List ℕ → LinuxSll2Value
//! linux_sll2_of bytes = record {
//!   protocol = number (slice_range bytes 0 2);
//!   interface_index = number (slice_range bytes 4 8);
//!   hardware_type = number (slice_range bytes 8 10);
//!   packet_type = number (slice_range bytes 10 11);
//!   address_len = number (slice_range bytes 11 12);
//!   address = number (slice_range bytes 12 20);
//! }
//! ```
//!
//! Uses: [`LinuxSll2Value`](#def.LinuxSll2Value), [`number`](crate::definitions::ether_base#def.number)
//!
//! **Refusals**
//!
//! <a id="def.LinuxSll2Refusal"></a>
//!
//! ## `LinuxSll2Refusal`
//!
//! The bytes that are required and those that are there, or the packet type that is not supported.
//!
//! ```text
//! pub data LinuxSll2Refusal : Type 0 where
//!   Short : (required len : ℕ) → LinuxSll2Refusal
//!   PacketType : ℕ → LinuxSll2Refusal
//! ```
//!
//! <a id="def.RefusesLinuxSll2"></a>
//!
//! ## `RefusesLinuxSll2`
//!
//! The rows. Packet types are those of Linux, 0 to 7 (PACKET\_ in its if\_packet.h); the format names 0 to 4 of them. No
//! hardware type is refused.
//!
//! ```text
//! pub data RefusesLinuxSll2 (bytes : List ℕ) : LinuxSll2Refusal → Type 0 where
//!   short : length bytes < 20 → RefusesLinuxSll2 bytes (Short 20 (length bytes))
//!   packet_type : (s : LinuxSll2Value) → BeginsLinuxSll2 bytes s → 7 < s.packet_type
//!       → RefusesLinuxSll2 bytes (PacketType s.packet_type)
//! ```
//!
//! Uses: [`LinuxSll2Refusal`](#def.LinuxSll2Refusal), [`Short`](#def.LinuxSll2Refusal), [`LinuxSll2Value`](#def.LinuxSll2Value), [`BeginsLinuxSll2`](#def.BeginsLinuxSll2), [`PacketType`](#def.LinuxSll2Refusal)
//!
//! <a id="def.AcceptsLinuxSll2"></a>
//!
//! ## `AcceptsLinuxSll2`
//!
//! No row holds.
//!
//! ```text
//! abbrev pub AcceptsLinuxSll2 : List ℕ → Type 0
//! AcceptsLinuxSll2 bytes = (r : LinuxSll2Refusal) → RefusesLinuxSll2 bytes r → ⊥
//! ```
//!
//! Uses: [`LinuxSll2Refusal`](#def.LinuxSll2Refusal), [`RefusesLinuxSll2`](#def.RefusesLinuxSll2)
//!
//! **Protocols**
//!
//! <a id="def.protocol_on"></a>
//!
//! ## `protocol_on`
//!
//! What a protocol number means, by the hardware type of the link: 824 netlink and 778 GRE over IP give it a meaning of
//! their own, 803 radiotap and 770 frame relay give it none; on any other link it is an ether type, or a number that
//! Linux has below these.
//!
//! ```text
//! abbrev pub protocol_on : (hardware number : ℕ) → LinuxSllProtocolType
//! protocol_on hardware number =
//!     if hardware == 824 then NetlinkProtocolType number
//!     else (if hardware == 778 then GenericRoutingEncapsulationProtocolType number
//!     else (if hardware == 803 then Ignored number
//!     else (if hardware == 770 then Ignored number
//!     else ethernet_protocol_type number)))
//! ```
//!
//! Uses: `NetlinkProtocolType` (`LinuxSllProtocolType::NetlinkProtocolType`), `GenericRoutingEncapsulationProtocolType` (`LinuxSllProtocolType::GenericRoutingEncapsulationProtocolType`), `Ignored` (`LinuxSllProtocolType::Ignored`), [`ethernet_protocol_type`](crate::definitions::ether_base#def.ethernet_protocol_type)
//!
//! <a id="def.protocol_of_header"></a>
//!
//! ## `protocol_of_header`
//!
//! ```text
//! abbrev pub protocol_of_header : List ℕ → LinuxSllProtocolType
//! protocol_of_header bytes = protocol_on (linux_sll2_of bytes).hardware_type (linux_sll2_of bytes).protocol
//! ```
//!
//! Uses: [`protocol_on`](#def.protocol_on), [`linux_sll2_of`](#def.linux_sll2_of)
//!
//! # Views
//!
//! The structs and errors of this crate as values of the format, and what bytes say beyond the numbers of their header.
//!
//! <a id="def.linux_sll2_value"></a>
//!
//! ## `linux_sll2_value`
//!
//! The address as the number of its bytes.
//!
//! ```text
//! abbrev pub linux_sll2_value : (protocol interface_index hardware_type packet_type address_len : ℕ) (address : List ℕ)
//!     → LinuxSll2Value
//! linux_sll2_value protocol interface_index hardware_type packet_type address_len address = record {
//!   protocol = protocol;
//!   interface_index = interface_index;
//!   hardware_type = hardware_type;
//!   packet_type = packet_type;
//!   address_len = address_len;
//!   address = number address;
//! }
//! ```
//!
//! Uses: [`LinuxSll2Value`](#def.LinuxSll2Value), [`number`](crate::definitions::ether_base#def.number)
//!
//! <a id="def.linux_sll2_view"></a>
//!
//! ## `linux_sll2_view`
//!
//! The protocol type as its number.
//!
//! ```text
//! abbrev pub linux_sll2_view : LinuxSll2Header → LinuxSll2Value
//! linux_sll2_view h =
//!     linux_sll2_value (protocol_number h.protocol_type) h.interface_index h.arp_hrd_type.0 h.packet_type
//!     h.sender_address_valid_length h.sender_address
//! ```
//!
//! Uses: [`LinuxSll2Value`](#def.LinuxSll2Value), [`linux_sll2_value`](#def.linux_sll2_value), [`protocol_number`](crate::definitions::ether_base#def.protocol_number)
//!
//! **Refusals**
//!
//! <a id="def.refusal_view"></a>
//!
//! ## `refusal_view`
//!
//! ```text
//! abbrev pub refusal_view : LinuxSll2Error → LinuxSll2Refusal
//! refusal_view (errors.Len required len) = Short required len
//! refusal_view (errors.PacketType n) = PacketType n
//! ```
//!
//! Uses: [`LinuxSll2Refusal`](#def.LinuxSll2Refusal), `errors` (`LinuxSll2Error`), [`Short`](#def.LinuxSll2Refusal), [`PacketType`](#def.LinuxSll2Refusal)
//!
//! <a id="def.IsRefusedSll2"></a>
//!
//! ## `IsRefusedSll2`
//!
//! Bytes are refused.
//!
//! ```text
//! abbrev pub IsRefusedSll2 : List ℕ → LinuxSll2Error → Type 0
//! IsRefusedSll2 bytes error = RefusesLinuxSll2 bytes (refusal_view error)
//! ```
//!
//! Uses: [`RefusesLinuxSll2`](#def.RefusesLinuxSll2), [`refusal_view`](#def.refusal_view)
//!
//! <a id="def.IsShort"></a>
//!
//! ## `IsShort`
//!
//! The numbers of a length error; nothing is claimed of the other error.
//!
//! ```text
//! abbrev pub IsShort : List ℕ → LinuxSll2Error → Type 0
//! IsShort bytes (errors.Len required len) = (required ≡ 20) × (len ≡ length bytes) × (length bytes < 20)
//! IsShort bytes (errors.PacketType n) = Unit {0}
//! ```
//!
//! Uses: `errors` (`LinuxSll2Error`)
//!
//! **Reading**
//!
//! <a id="def.HoldsLinuxSll2"></a>
//!
//! ## `HoldsLinuxSll2`
//!
//! Bytes that begin with a header whose packet type is supported.
//!
//! ```text
//! abbrev pub HoldsLinuxSll2 : List ℕ → Type 0
//! HoldsLinuxSll2 bytes = (20 ≤ length bytes) × ((linux_sll2_of bytes).packet_type ≤ 7)
//! ```
//!
//! Uses: [`linux_sll2_of`](#def.linux_sll2_of)
//!
//! <a id="def.valid_address"></a>
//!
//! ## `valid_address`
//!
//! The bytes of the address field that the header counts as valid, at most eight.
//!
//! ```text
//! abbrev pub valid_address : List ℕ → List ℕ
//! valid_address bytes = slice_range bytes 12 (12 + min (linux_sll2_of bytes).address_len 8)
//! ```
//!
//! Uses: [`linux_sll2_of`](#def.linux_sll2_of)
//!
//! <a id="def.start_in"></a>
//!
//! ## `start_in`
//!
//! What a walk of the payload starts with: its ether type, if its protocol type has one.
//!
//! ```text
//! abbrev pub start_in : List ℕ → Option Start
//! start_in bytes = option_map (λ n. starts.EtherType (record { 0 = n })) (told_ether_type (protocol_of_header bytes))
//! ```
//!
//! Uses: `starts` (`Start`), [`told_ether_type`](crate::definitions::ether_base#def.told_ether_type), [`protocol_of_header`](#def.protocol_of_header)
//!
//! <a id="def.HasOwnType"></a>
//!
//! ## `HasOwnType`
//!
//! The hardware type gives the protocol number this protocol type.
//!
//! ```text
//! abbrev pub HasOwnType : LinuxSll2Header → Type 0
//! HasOwnType h = protocol_on h.arp_hrd_type.0 (protocol_number h.protocol_type) ≡ h.protocol_type
//! ```
//!
//! Uses: [`protocol_on`](#def.protocol_on), [`protocol_number`](crate::definitions::ether_base#def.protocol_number)
//!
//! <a id="def.HoldsHeader"></a>
//!
//! ## `HoldsHeader`
//!
//! Twenty bytes hold a header.
//!
//! ```text
//! pub record HoldsHeader (bytes : List ℕ) (h : LinuxSll2Header) : Type 0 where
//!   pub accepted : AcceptsLinuxSll2 bytes
//!   pub value : IsLinuxSll2 bytes (linux_sll2_view h)
//!   pub address : h.sender_address ≡ slice_range bytes 12 20
//!   pub protocol : h.protocol_type ≡ protocol_of_header bytes
//! ```
//!
//! Uses: [`AcceptsLinuxSll2`](#def.AcceptsLinuxSll2), [`IsLinuxSll2`](#def.IsLinuxSll2), [`linux_sll2_view`](#def.linux_sll2_view), [`protocol_of_header`](#def.protocol_of_header)
//!
//! <a id="def.AnswersHeader"></a>
//!
//! ## `AnswersHeader`
//!
//! What reading twenty bytes returns: the header that they hold, or the row that refuses them.
//!
//! ```text
//! abbrev pub AnswersHeader : List ℕ → Result LinuxSll2Header LinuxSll2Error → Type 0
//! AnswersHeader bytes result = MatchResult result (HoldsHeader bytes) (IsRefusedSll2 bytes)
//! ```
//!
//! Uses: [`HoldsHeader`](#def.HoldsHeader), [`IsRefusedSll2`](#def.IsRefusedSll2)
//!
