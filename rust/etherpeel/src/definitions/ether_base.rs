//! Bytes and the numbers that they spell, the formats of headers, and why a header is refused.
//!
//! # Bytes
//!
//! Lists of bytes, and the numbers that they spell: the first byte is the most significant one, as on the wire.
//!
//! <a id="def.IsBytes"></a>
//!
//! ## `IsBytes`
//!
//! Each element is from 0 to 255.
//!
//! ```text
//! abbrev pub IsBytes : List ℕ → Type 0
//! IsBytes bytes = (i : ℕ) → slice_index bytes i < 256
//! ```
//!
//! <a id="def.number"></a>
//!
//! ## `number`
//!
//! The number whose digits to the base 256 are the bytes, the most significant one first.
//!
//! ```text
//! abbrev pub number : List ℕ → ℕ
//! number [] = 0
//! number (b ∷ bytes) = b * 256 ^ length bytes + number bytes
//! ```
//!
//! <a id="def.spelled"></a>
//!
//! ## `spelled`
//!
//! The k bytes whose number is n, for an n below 256 ^ k.
//!
//! ```text
//! unfoldable pub spelled : ℕ → ℕ → List ℕ
//! spelled zero n = []
//! spelled (suc k) n = n / 256 ^ k % 256 ∷ spelled k n
//! ```
//!
//! <a id="def.bit"></a>
//!
//! ## `bit`
//!
//! A flag as the number of its bit.
//!
//! ```text
//! abbrev pub bit : Bool → ℕ
//! bit false = 0
//! bit true = 1
//! ```
//!
//! <a id="def.overwritten"></a>
//!
//! ## `overwritten`
//!
//! A list in which these bytes, from a place on, replace as many of its own.
//!
//! ```text
//! abbrev pub overwritten : List ℕ → ℕ → List ℕ → List ℕ
//! overwritten list at bytes = take at list ++ bytes ++ drop (at + length bytes) list
//! ```
//!
//! # Formats: Ethernet II
//!
//! The Ethernet II header (IEEE 802.3, 3.2.3 to 3.2.6, with the type in place of the length; DIX Ethernet 2.0).
//!
//! <a id="def.Ethernet2Value"></a>
//!
//! ## `Ethernet2Value`
//!
//! ```text
//! pub record Ethernet2Value : Type 0 where
//!   pub destination : ℕ
//!   pub source : ℕ
//!   pub ether_type : ℕ
//! ```
//!
//! <a id="def.ethernet2_number"></a>
//!
//! ## `ethernet2_number`
//!
//! Destination 6 bytes, source 6 bytes, ether type 2 bytes.
//!
//! ```text
//! abbrev pub ethernet2_number : Ethernet2Value → ℕ
//! ethernet2_number e = e.destination * 2 ^ 64 + e.source * 2 ^ 16 + e.ether_type
//! ```
//!
//! Uses: [`Ethernet2Value`](#def.Ethernet2Value)
//!
//! <a id="def.FitsEthernet2"></a>
//!
//! ## `FitsEthernet2`
//!
//! ```text
//! pub record FitsEthernet2 (e : Ethernet2Value) : Type 0 where
//!   pub destination : e.destination < 2 ^ 48
//!   pub source : e.source < 2 ^ 48
//!   pub ether_type : e.ether_type < 2 ^ 16
//! ```
//!
//! Uses: [`Ethernet2Value`](#def.Ethernet2Value)
//!
//! <a id="def.IsEthernet2"></a>
//!
//! ## `IsEthernet2`
//!
//! Fourteen bytes mean a value.
//!
//! ```text
//! pub record IsEthernet2 (bytes : List ℕ) (e : Ethernet2Value) : Type 0 where
//!   pub sum : number bytes ≡ ethernet2_number e
//!   pub fits : FitsEthernet2 e
//! ```
//!
//! Uses: [`Ethernet2Value`](#def.Ethernet2Value), [`number`](#def.number), [`ethernet2_number`](#def.ethernet2_number), [`FitsEthernet2`](#def.FitsEthernet2)
//!
//! <a id="def.ethernet2_bytes"></a>
//!
//! ## `ethernet2_bytes`
//!
//! The fourteen bytes of a value.
//!
//! ```text
//! abbrev pub ethernet2_bytes : Ethernet2Value → List ℕ
//! ethernet2_bytes e = spelled 14 (ethernet2_number e)
//! ```
//!
//! Uses: [`Ethernet2Value`](#def.Ethernet2Value), [`spelled`](#def.spelled), [`ethernet2_number`](#def.ethernet2_number)
//!
//! <a id="def.ethernet2_of"></a>
//!
//! ## `ethernet2_of`
//!
//! The value in a list of at least fourteen bytes.
//!
//! ```text
//! abbrev pub ethernet2_of : List ℕ → Ethernet2Value
//! ethernet2_of bytes = record {
//!   destination = number (slice_range bytes 0 6);
//!   source = number (slice_range bytes 6 12);
//!   ether_type = number (slice_range bytes 12 14);
//! }
//! ```
//!
//! Uses: [`Ethernet2Value`](#def.Ethernet2Value), [`number`](#def.number)
//!
//! # Formats: VLAN
//!
//! The VLAN tag without its own ether type: tag control information (IEEE 802.1Q, 9.6), and the ether type that follows.
//!
//! <a id="def.vlan_ether_types"></a>
//!
//! ## `vlan_ether_types`
//!
//! The ether types that announce a VLAN tag: of a customer tag and of a service tag (IEEE 802.1Q, table 9-1), and the
//! older number for double tagging.
//!
//! ```text
//! abbrev pub vlan_ether_types : List ℕ
//! vlan_ether_types = 0x8100 ∷ 0x88A8 ∷ 0x9100 ∷ []
//! ```
//!
//! <a id="def.is_vlan_ether_type"></a>
//!
//! ## `is_vlan_ether_type`
//!
//! Whether an ether type is one of them.
//!
//! ```text
//! abbrev pub is_vlan_ether_type : ℕ → Bool
//! is_vlan_ether_type ether_type = list_any (nat_eq ether_type) vlan_ether_types
//! ```
//!
//! Uses: [`vlan_ether_types`](#def.vlan_ether_types)
//!
//! <a id="def.VlanValue"></a>
//!
//! ## `VlanValue`
//!
//! Priority code point, drop eligible indicator, VLAN identifier.
//!
//! ```text
//! pub record VlanValue : Type 0 where
//!   pub pcp : ℕ
//!   pub dei : ℕ
//!   pub vid : ℕ
//!   pub ether_type : ℕ
//! ```
//!
//! <a id="def.vlan_number"></a>
//!
//! ## `vlan_number`
//!
//! PCP 3 bits, DEI 1 bit, VID 12 bits, ether type 16 bits.
//!
//! ```text
//! abbrev pub vlan_number : VlanValue → ℕ
//! vlan_number v = v.pcp * 2 ^ 29 + v.dei * 2 ^ 28 + v.vid * 2 ^ 16 + v.ether_type
//! ```
//!
//! Uses: [`VlanValue`](#def.VlanValue)
//!
//! <a id="def.FitsVlan"></a>
//!
//! ## `FitsVlan`
//!
//! ```text
//! pub record FitsVlan (v : VlanValue) : Type 0 where
//!   pub pcp : v.pcp < 8
//!   pub dei : v.dei < 2
//!   pub vid : v.vid < 4096
//!   pub ether_type : v.ether_type < 2 ^ 16
//! ```
//!
//! Uses: [`VlanValue`](#def.VlanValue)
//!
//! <a id="def.IsVlan"></a>
//!
//! ## `IsVlan`
//!
//! Four bytes mean a value.
//!
//! ```text
//! pub record IsVlan (bytes : List ℕ) (v : VlanValue) : Type 0 where
//!   pub sum : number bytes ≡ vlan_number v
//!   pub fits : FitsVlan v
//! ```
//!
//! Uses: [`VlanValue`](#def.VlanValue), [`number`](#def.number), [`vlan_number`](#def.vlan_number), [`FitsVlan`](#def.FitsVlan)
//!
//! <a id="def.vlan_bytes"></a>
//!
//! ## `vlan_bytes`
//!
//! The four bytes of a value.
//!
//! ```text
//! abbrev pub vlan_bytes : VlanValue → List ℕ
//! vlan_bytes v = spelled 4 (vlan_number v)
//! ```
//!
//! Uses: [`VlanValue`](#def.VlanValue), [`spelled`](#def.spelled), [`vlan_number`](#def.vlan_number)
//!
//! <a id="def.vlan_of"></a>
//!
//! ## `vlan_of`
//!
//! The value in a list of at least four bytes.
//!
//! ```text
//! abbrev pub vlan_of : List ℕ → VlanValue
//! vlan_of bytes = let control = number (slice_range bytes 0 2) in record {
//!   pcp = control / 2 ^ 13;
//!   dei = control / 2 ^ 12 % 2;
//!   vid = control % 2 ^ 12;
//!   ether_type = number (slice_range bytes 2 4);
//! }
//! ```
//!
//! Uses: [`VlanValue`](#def.VlanValue), [`number`](#def.number)
//!
//! # Formats: Linux SLL
//!
//! The header of Linux cooked capture, version 1 (LINKTYPE\_LINUX\_SLL of the tcpdump group).
//!
//! <a id="def.LinuxSllValue"></a>
//!
//! ## `LinuxSllValue`
//!
//! ```text
//! pub record LinuxSllValue : Type 0 where
//!   pub packet_type : ℕ
//!   pub hardware_type : ℕ
//!   pub address_len : ℕ
//!   pub address : ℕ
//!   pub protocol : ℕ
//! ```
//!
//! <a id="def.linux_sll_number"></a>
//!
//! ## `linux_sll_number`
//!
//! Packet type 2 bytes, ARPHRD\_ type 2 bytes, address length 2 bytes, address 8 bytes, protocol type 2 bytes.
//!
//! ```text
//! abbrev pub linux_sll_number : LinuxSllValue → ℕ
//! linux_sll_number s = s.packet_type * 2 ^ 112 + s.hardware_type * 2 ^ 96 + s.address_len * 2 ^ 80 + s.address * 2 ^ 16
//!     + s.protocol
//! ```
//!
//! Uses: [`LinuxSllValue`](#def.LinuxSllValue)
//!
//! <a id="def.FitsLinuxSll"></a>
//!
//! ## `FitsLinuxSll`
//!
//! ```text
//! pub record FitsLinuxSll (s : LinuxSllValue) : Type 0 where
//!   pub packet_type : s.packet_type < 2 ^ 16
//!   pub hardware_type : s.hardware_type < 2 ^ 16
//!   pub address_len : s.address_len < 2 ^ 16
//!   pub address : s.address < 2 ^ 64
//!   pub protocol : s.protocol < 2 ^ 16
//! ```
//!
//! Uses: [`LinuxSllValue`](#def.LinuxSllValue)
//!
//! <a id="def.IsLinuxSll"></a>
//!
//! ## `IsLinuxSll`
//!
//! Sixteen bytes mean a value.
//!
//! ```text
//! pub record IsLinuxSll (bytes : List ℕ) (s : LinuxSllValue) : Type 0 where
//!   pub sum : number bytes ≡ linux_sll_number s
//!   pub fits : FitsLinuxSll s
//! ```
//!
//! Uses: [`LinuxSllValue`](#def.LinuxSllValue), [`number`](#def.number), [`linux_sll_number`](#def.linux_sll_number), [`FitsLinuxSll`](#def.FitsLinuxSll)
//!
//! <a id="def.BeginsLinuxSll"></a>
//!
//! ## `BeginsLinuxSll`
//!
//! A list begins with the sixteen bytes of a value.
//!
//! ```text
//! abbrev pub BeginsLinuxSll : List ℕ → LinuxSllValue → Type 0
//! BeginsLinuxSll bytes s = IsLinuxSll (slice_range bytes 0 16) s
//! ```
//!
//! Uses: [`LinuxSllValue`](#def.LinuxSllValue), [`IsLinuxSll`](#def.IsLinuxSll)
//!
//! <a id="def.linux_sll_bytes"></a>
//!
//! ## `linux_sll_bytes`
//!
//! The sixteen bytes of a value.
//!
//! ```text
//! abbrev pub linux_sll_bytes : LinuxSllValue → List ℕ
//! linux_sll_bytes s = spelled 16 (linux_sll_number s)
//! ```
//!
//! Uses: [`LinuxSllValue`](#def.LinuxSllValue), [`spelled`](#def.spelled), [`linux_sll_number`](#def.linux_sll_number)
//!
//! <a id="def.linux_sll_of"></a>
//!
//! ## `linux_sll_of`
//!
//! The value in a list of at least sixteen bytes.
//!
//! ```text
//! abbrev pub linux_sll_of : List ℕ → LinuxSllValue
//! linux_sll_of bytes = record {
//!   packet_type = number (slice_range bytes 0 2);
//!   hardware_type = number (slice_range bytes 2 4);
//!   address_len = number (slice_range bytes 4 6);
//!   address = number (slice_range bytes 6 14);
//!   protocol = number (slice_range bytes 14 16);
//! }
//! ```
//!
//! Uses: [`LinuxSllValue`](#def.LinuxSllValue), [`number`](#def.number)
//!
//! <a id="def.is_supported"></a>
//!
//! ## `is_supported`
//!
//! The hardware types that are supported: 824 netlink, 778 GRE over IP, 803 radiotap, 770 frame relay, 1 Ethernet.
//!
//! ```text
//! abbrev pub is_supported : ℕ → Bool
//! is_supported hardware = nat_eq hardware 824 || nat_eq hardware 778 || nat_eq hardware 803 || nat_eq hardware 770
//!     || nat_eq hardware 1
//! ```
//!
//! # Formats: Linux SLL protocol type
//!
//! What the protocol number of a cooked capture means, by the hardware type of its link.
//!
//! <a id="def.ethernet_protocol_type"></a>
//!
//! ## `ethernet_protocol_type`
//!
//! On Ethernet a number is one of the nonstandard ones, or else an ether type.
//!
//! ```text
//! abbrev pub ethernet_protocol_type : ℕ → LinuxSllProtocolType
//! ethernet_protocol_type number =
//!     if is_nonstandard number then LinuxNonstandardEtherType number else EtherType (record { 0 = number })
//! ```
//!
//! Uses: [`is_nonstandard`](#def.is_nonstandard), `LinuxNonstandardEtherType` (`LinuxSllProtocolType::LinuxNonstandardEtherType`), `EtherType` (`LinuxSllProtocolType::EtherType`)
//!
//! <a id="def.link_protocol_of"></a>
//!
//! ## `link_protocol_of`
//!
//! What it means on a supported link other than Ethernet (LINKTYPE\_LINUX\_SLL): 824 netlink and 778 GRE over IP give it a
//! meaning, 803 radiotap and 770 frame relay do not.
//!
//! ```text
//! abbrev pub link_protocol_of : ℕ → ℕ → LinuxSllProtocolType
//! link_protocol_of hardware number =
//!     if hardware == 824 then NetlinkProtocolType number
//!     else (if hardware == 778 then GenericRoutingEncapsulationProtocolType number else Ignored number)
//! ```
//!
//! Uses: `NetlinkProtocolType` (`LinuxSllProtocolType::NetlinkProtocolType`), `GenericRoutingEncapsulationProtocolType` (`LinuxSllProtocolType::GenericRoutingEncapsulationProtocolType`), `Ignored` (`LinuxSllProtocolType::Ignored`)
//!
//! <a id="def.protocol_of"></a>
//!
//! ## `protocol_of`
//!
//! What it means on a supported link; 1 is Ethernet.
//!
//! ```text
//! abbrev pub protocol_of : ℕ → ℕ → LinuxSllProtocolType
//! protocol_of hardware number = if hardware == 1 then ethernet_protocol_type number else link_protocol_of hardware number
//! ```
//!
//! Uses: [`ethernet_protocol_type`](#def.ethernet_protocol_type), [`link_protocol_of`](#def.link_protocol_of)
//!
//! <a id="def.protocol_type_of"></a>
//!
//! ## `protocol_type_of`
//!
//! ```text
//! abbrev pub protocol_type_of : ArpHardwareId → ℕ → Result LinuxSllProtocolType HeaderError
//! protocol_type_of hardware number =
//!     if is_supported hardware.0 then Ok (protocol_of hardware.0 number) else Err (UnsupportedArpHardwareId hardware)
//! ```
//!
//! Uses: [`is_supported`](#def.is_supported), [`protocol_of`](#def.protocol_of), `UnsupportedArpHardwareId` (`HeaderError::UnsupportedArpHardwareId`)
//!
//! <a id="def.protocol_number"></a>
//!
//! ## `protocol_number`
//!
//! ```text
//! abbrev pub protocol_number : LinuxSllProtocolType → ℕ
//! protocol_number (Ignored number) = number
//! protocol_number (NetlinkProtocolType number) = number
//! protocol_number (GenericRoutingEncapsulationProtocolType number) = number
//! protocol_number (EtherType ether_type) = ether_type.0
//! protocol_number (LinuxNonstandardEtherType number) = number
//! ```
//!
//! Uses: `Ignored` (`LinuxSllProtocolType::Ignored`), `NetlinkProtocolType` (`LinuxSllProtocolType::NetlinkProtocolType`), `GenericRoutingEncapsulationProtocolType` (`LinuxSllProtocolType::GenericRoutingEncapsulationProtocolType`), `EtherType` (`LinuxSllProtocolType::EtherType`), `LinuxNonstandardEtherType` (`LinuxSllProtocolType::LinuxNonstandardEtherType`)
//!
//! <a id="def.with_number"></a>
//!
//! ## `with_number`
//!
//! The protocol type of the same link with another number.
//!
//! ```text
//! abbrev pub with_number : LinuxSllProtocolType → ℕ → LinuxSllProtocolType
//! with_number (Ignored old) number = Ignored number
//! with_number (NetlinkProtocolType old) number = NetlinkProtocolType number
//! with_number (GenericRoutingEncapsulationProtocolType old) number = GenericRoutingEncapsulationProtocolType number
//! with_number (EtherType old) number = ethernet_protocol_type number
//! with_number (LinuxNonstandardEtherType old) number = ethernet_protocol_type number
//! ```
//!
//! Uses: `Ignored` (`LinuxSllProtocolType::Ignored`), `NetlinkProtocolType` (`LinuxSllProtocolType::NetlinkProtocolType`), `GenericRoutingEncapsulationProtocolType` (`LinuxSllProtocolType::GenericRoutingEncapsulationProtocolType`), `EtherType` (`LinuxSllProtocolType::EtherType`), [`ethernet_protocol_type`](#def.ethernet_protocol_type), `LinuxNonstandardEtherType` (`LinuxSllProtocolType::LinuxNonstandardEtherType`)
//!
//! <a id="def.told_ether_type"></a>
//!
//! ## `told_ether_type`
//!
//! The ether type in a protocol type: its own, or a number that Linux has in the same place.
//!
//! ```text
//! abbrev pub told_ether_type : LinuxSllProtocolType → Option ℕ
//! told_ether_type (Ignored number) = None
//! told_ether_type (NetlinkProtocolType number) = None
//! told_ether_type (GenericRoutingEncapsulationProtocolType number) = None
//! told_ether_type (EtherType ether_type) = Some ether_type.0
//! told_ether_type (LinuxNonstandardEtherType number) = Some number
//! ```
//!
//! Uses: `Ignored` (`LinuxSllProtocolType::Ignored`), `NetlinkProtocolType` (`LinuxSllProtocolType::NetlinkProtocolType`), `GenericRoutingEncapsulationProtocolType` (`LinuxSllProtocolType::GenericRoutingEncapsulationProtocolType`), `EtherType` (`LinuxSllProtocolType::EtherType`), `LinuxNonstandardEtherType` (`LinuxSllProtocolType::LinuxNonstandardEtherType`)
//!
//! # Formats: MACsec
//!
//! The MACsec SecTag (IEEE 802.1AE, 9.3) without its own ether type, with the ether type that follows it if that can be
//! read.
//!
//! **The first two bytes (9.5 tag control information, 9.6 association number, 9.7 short length)**
//!
//! <a id="def.SecTagFront"></a>
//!
//! ## `SecTagFront`
//!
//! ```text
//! pub record SecTagFront : Type 0 where
//!   pub version : ℕ
//!   pub end_station : ℕ
//!   pub sci_present : ℕ
//!   pub single_copy_broadcast : ℕ
//!   pub encrypted : ℕ
//!   pub changed : ℕ
//!   pub association_number : ℕ
//!   pub reserved : ℕ
//!   pub short_len : ℕ
//! ```
//!
//! <a id="def.sec_tag_front_number"></a>
//!
//! ## `sec_tag_front_number`
//!
//! V, ES, SC, SCB, E, C, two bits AN; two reserved bits, six bits SL.
//!
//! ```text
//! abbrev pub sec_tag_front_number : SecTagFront → ℕ
//! sec_tag_front_number t = t.version * 2 ^ 15 + t.end_station * 2 ^ 14 + t.sci_present * 2 ^ 13 + t.single_copy_broadcast
//!     * 2 ^ 12 + t.encrypted * 2 ^ 11 + t.changed * 2 ^ 10 + t.association_number * 2 ^ 8 + t.reserved * 2 ^ 6
//!     + t.short_len
//! ```
//!
//! Uses: [`SecTagFront`](#def.SecTagFront)
//!
//! <a id="def.FitsSecTagFront"></a>
//!
//! ## `FitsSecTagFront`
//!
//! ```text
//! pub record FitsSecTagFront (t : SecTagFront) : Type 0 where
//!   pub version : t.version < 2
//!   pub end_station : t.end_station < 2
//!   pub sci_present : t.sci_present < 2
//!   pub single_copy_broadcast : t.single_copy_broadcast < 2
//!   pub encrypted : t.encrypted < 2
//!   pub changed : t.changed < 2
//!   pub association_number : t.association_number < 4
//!   pub reserved : t.reserved < 4
//!   pub short_len : t.short_len < 64
//! ```
//!
//! Uses: [`SecTagFront`](#def.SecTagFront)
//!
//! <a id="def.BeginsSecTag"></a>
//!
//! ## `BeginsSecTag`
//!
//! A list begins with two bytes that mean a front.
//!
//! ```text
//! pub record BeginsSecTag (bytes : List ℕ) (t : SecTagFront) : Type 0 where
//!   pub sum : number (slice_range bytes 0 2) ≡ sec_tag_front_number t
//!   pub fits : FitsSecTagFront t
//! ```
//!
//! Uses: [`SecTagFront`](#def.SecTagFront), [`number`](#def.number), [`sec_tag_front_number`](#def.sec_tag_front_number), [`FitsSecTagFront`](#def.FitsSecTagFront)
//!
//! **Lengths**
//!
//! <a id="def.ether_type_len"></a>
//!
//! ## `ether_type_len`
//!
//! The length of the ether type, which can be read exactly if E and C are 0.
//!
//! ```text
//! abbrev pub ether_type_len : ℕ → ℕ → ℕ
//! ether_type_len zero zero = 2
//! ether_type_len _ _ = 0
//! ```
//!
//! <a id="def.sec_tag_len"></a>
//!
//! ## `sec_tag_len`
//!
//! The header's length, 6 to 16: two bytes, the packet number (9.8), the SCI if there is one (9.9), the ether type.
//!
//! ```text
//! abbrev pub sec_tag_len : SecTagFront → ℕ
//! sec_tag_len t = 6 + 8 * t.sci_present + ether_type_len t.encrypted t.changed
//! ```
//!
//! Uses: [`SecTagFront`](#def.SecTagFront), [`ether_type_len`](#def.ether_type_len)
//!
//! <a id="def.known_len"></a>
//!
//! ## `known_len`
//!
//! The length of the payload that a short length names. The short length also counts the ether type after the tag, if
//! that can be read. It names no length if it is 0 or smaller than that ether type.
//!
//! ```text
//! abbrev pub known_len : (ether_type short : ℕ) → Option ℕ
//! known_len ether_type short = if nat_eq short 0 || nat_lt short ether_type then None else Some (short - ether_type)
//! ```
//!
//! <a id="def.known_payload_len"></a>
//!
//! ## `known_payload_len`
//!
//! ```text
//! abbrev pub known_payload_len : SecTagFront → Option ℕ
//! known_payload_len t = known_len (ether_type_len t.encrypted t.changed) t.short_len
//! ```
//!
//! Uses: [`SecTagFront`](#def.SecTagFront), [`known_len`](#def.known_len), [`ether_type_len`](#def.ether_type_len)
//!
//! **A tag as a value**
//!
//! <a id="def.PayloadType"></a>
//!
//! ## `PayloadType`
//!
//! ```text
//! pub data PayloadType : Type 0 where
//!   Unmodified : (ether_type : ℕ) → PayloadType
//!   Modified : PayloadType
//!   EncryptedUnmodified : PayloadType
//!   Encrypted : PayloadType
//! ```
//!
//! <a id="def.SecTagValue"></a>
//!
//! ## `SecTagValue`
//!
//! The version and the reserved bits are no part of it.
//!
//! ```text
//! pub record SecTagValue : Type 0 where
//!   pub payload_type : PayloadType
//!   pub end_station : ℕ
//!   pub single_copy_broadcast : ℕ
//!   pub association_number : ℕ
//!   pub short_len : ℕ
//!   pub packet_number : ℕ
//!   pub sci : Option ℕ
//! ```
//!
//! Uses: [`PayloadType`](#def.PayloadType)
//!
//! <a id="def.encrypted_of"></a>
//!
//! ## `encrypted_of`
//!
//! E.
//!
//! ```text
//! abbrev pub encrypted_of : PayloadType → ℕ
//! encrypted_of EncryptedUnmodified = 1
//! encrypted_of Encrypted = 1
//! encrypted_of _ = 0
//! ```
//!
//! Uses: [`PayloadType`](#def.PayloadType), [`EncryptedUnmodified`](#def.PayloadType), [`Encrypted`](#def.PayloadType)
//!
//! <a id="def.changed_of"></a>
//!
//! ## `changed_of`
//!
//! C.
//!
//! ```text
//! abbrev pub changed_of : PayloadType → ℕ
//! changed_of Modified = 1
//! changed_of Encrypted = 1
//! changed_of _ = 0
//! ```
//!
//! Uses: [`PayloadType`](#def.PayloadType), [`Modified`](#def.PayloadType), [`Encrypted`](#def.PayloadType)
//!
//! <a id="def.sci_present_of"></a>
//!
//! ## `sci_present_of`
//!
//! SC.
//!
//! ```text
//! abbrev pub sci_present_of : Option ℕ → ℕ
//! sci_present_of None = 0
//! sci_present_of (Some sci) = 1
//! ```
//!
//! <a id="def.sec_tag_front_of"></a>
//!
//! ## `sec_tag_front_of`
//!
//! The front of a tag with this version and these reserved bits.
//!
//! ```text
//! abbrev pub sec_tag_front_of : ℕ → ℕ → SecTagValue → SecTagFront
//! sec_tag_front_of version reserved t = record {
//!   version = version;
//!   end_station = t.end_station;
//!   sci_present = sci_present_of t.sci;
//!   single_copy_broadcast = t.single_copy_broadcast;
//!   encrypted = encrypted_of t.payload_type;
//!   changed = changed_of t.payload_type;
//!   association_number = t.association_number;
//!   reserved = reserved;
//!   short_len = t.short_len;
//! }
//! ```
//!
//! Uses: [`SecTagValue`](#def.SecTagValue), [`SecTagFront`](#def.SecTagFront), [`sci_present_of`](#def.sci_present_of), [`encrypted_of`](#def.encrypted_of), [`changed_of`](#def.changed_of)
//!
//! <a id="def.HasSci"></a>
//!
//! ## `HasSci`
//!
//! The SCI, if there is one, follows the first six bytes.
//!
//! ```text
//! abbrev pub HasSci : List ℕ → Option ℕ → Type 0
//! HasSci bytes None = Unit {0}
//! HasSci bytes (Some sci) = number (slice_range bytes 6 14) ≡ sci
//! ```
//!
//! Uses: [`number`](#def.number)
//!
//! <a id="def.HasEtherType"></a>
//!
//! ## `HasEtherType`
//!
//! The ether type, if it can be read, begins at a place.
//!
//! ```text
//! abbrev pub HasEtherType : List ℕ → ℕ → PayloadType → Type 0
//! HasEtherType bytes at (Unmodified ether_type) = number (slice_range bytes at (at + 2)) ≡ ether_type
//! HasEtherType bytes at _ = Unit {0}
//! ```
//!
//! Uses: [`PayloadType`](#def.PayloadType), [`Unmodified`](#def.PayloadType), [`number`](#def.number)
//!
//! <a id="def.IsSecTag"></a>
//!
//! ## `IsSecTag`
//!
//! The bytes of a tag mean a value.
//!
//! ```text
//! pub record IsSecTag (bytes : List ℕ) (t : SecTagValue) : Type 0 where
//!   pub version : ℕ
//!   pub reserved : ℕ
//!   pub front : BeginsSecTag bytes (sec_tag_front_of version reserved t)
//!   pub packet_number : number (slice_range bytes 2 6) ≡ t.packet_number
//!   pub sci : HasSci bytes t.sci
//!   pub ether_type : HasEtherType bytes (6 + 8 * sci_present_of t.sci) t.payload_type
//! ```
//!
//! Uses: [`SecTagValue`](#def.SecTagValue), [`BeginsSecTag`](#def.BeginsSecTag), [`sec_tag_front_of`](#def.sec_tag_front_of), [`number`](#def.number), [`HasSci`](#def.HasSci), [`HasEtherType`](#def.HasEtherType), [`sci_present_of`](#def.sci_present_of)
//!
//! **Reading**
//!
//! <a id="def.sec_tag_front_at"></a>
//!
//! ## `sec_tag_front_at`
//!
//! The front whose number this is.
//!
//! ```text
//! abbrev pub sec_tag_front_at : ℕ → SecTagFront
//! sec_tag_front_at n = record {
//!   version = n / 2 ^ 15;
//!   end_station = n / 2 ^ 14 % 2;
//!   sci_present = n / 2 ^ 13 % 2;
//!   single_copy_broadcast = n / 2 ^ 12 % 2;
//!   encrypted = n / 2 ^ 11 % 2;
//!   changed = n / 2 ^ 10 % 2;
//!   association_number = n / 2 ^ 8 % 4;
//!   reserved = n / 2 ^ 6 % 4;
//!   short_len = n % 2 ^ 6;
//! }
//! ```
//!
//! Uses: [`SecTagFront`](#def.SecTagFront)
//!
//! <a id="def.sec_tag_front_in"></a>
//!
//! ## `sec_tag_front_in`
//!
//! The front in a list of at least two bytes.
//!
//! ```text
//! abbrev pub sec_tag_front_in : List ℕ → SecTagFront
//! sec_tag_front_in bytes = sec_tag_front_at (number (slice_range bytes 0 2))
//! ```
//!
//! Uses: [`SecTagFront`](#def.SecTagFront), [`sec_tag_front_at`](#def.sec_tag_front_at), [`number`](#def.number)
//!
//! <a id="def.payload_type_for"></a>
//!
//! ## `payload_type_for`
//!
//! The payload type by E and C; the ether type is part of it only if both are 0.
//!
//! ```text
//! abbrev pub payload_type_for : (encrypted changed ether_type : ℕ) → PayloadType
//! payload_type_for zero zero ether_type = Unmodified ether_type
//! payload_type_for zero (suc changed) ether_type = Modified
//! payload_type_for (suc encrypted) zero ether_type = EncryptedUnmodified
//! payload_type_for (suc encrypted) (suc changed) ether_type = Encrypted
//! ```
//!
//! Uses: [`PayloadType`](#def.PayloadType), [`Unmodified`](#def.PayloadType), [`Modified`](#def.PayloadType), [`EncryptedUnmodified`](#def.PayloadType), [`Encrypted`](#def.PayloadType)
//!
//! <a id="def.sci_for"></a>
//!
//! ## `sci_for`
//!
//! The SCI if SC is 1.
//!
//! ```text
//! abbrev pub sci_for : (sci_present sci : ℕ) → Option ℕ
//! sci_for zero sci = None
//! sci_for (suc present) sci = Some sci
//! ```
//!
//! <a id="def.sec_tag_with"></a>
//!
//! ## `sec_tag_with`
//!
//! The value of a list with this front.
//!
//! ```text
//! abbrev pub sec_tag_with : SecTagFront → List ℕ → SecTagValue
//! sec_tag_with front bytes = let at = 6 + 8 * front.sci_present in record {
//!   payload_type = payload_type_for front.encrypted front.changed (number (slice_range bytes at (at + 2)));
//!   end_station = front.end_station;
//!   single_copy_broadcast = front.single_copy_broadcast;
//!   association_number = front.association_number;
//!   short_len = front.short_len;
//!   packet_number = number (slice_range bytes 2 6);
//!   sci = sci_for front.sci_present (number (slice_range bytes 6 14));
//! }
//! ```
//!
//! Uses: [`SecTagFront`](#def.SecTagFront), [`SecTagValue`](#def.SecTagValue), [`payload_type_for`](#def.payload_type_for), [`number`](#def.number), [`sci_for`](#def.sci_for)
//!
//! <a id="def.sec_tag_of"></a>
//!
//! ## `sec_tag_of`
//!
//! The value in a list that is at least as long as its front says.
//!
//! ```text
//! abbrev pub sec_tag_of : List ℕ → SecTagValue
//! sec_tag_of bytes = sec_tag_with (sec_tag_front_in bytes) bytes
//! ```
//!
//! Uses: [`SecTagValue`](#def.SecTagValue), [`sec_tag_with`](#def.sec_tag_with), [`sec_tag_front_in`](#def.sec_tag_front_in)
//!
//! **Ranges and bytes**
//!
//! <a id="def.FitsSci"></a>
//!
//! ## `FitsSci`
//!
//! ```text
//! abbrev pub FitsSci : Option ℕ → Type 0
//! FitsSci None = Unit {0}
//! FitsSci (Some sci) = sci < 2 ^ 64
//! ```
//!
//! <a id="def.FitsPayloadType"></a>
//!
//! ## `FitsPayloadType`
//!
//! ```text
//! abbrev pub FitsPayloadType : PayloadType → Type 0
//! FitsPayloadType (Unmodified ether_type) = ether_type < 2 ^ 16
//! FitsPayloadType Modified = Unit {0}
//! FitsPayloadType EncryptedUnmodified = Unit {0}
//! FitsPayloadType Encrypted = Unit {0}
//! ```
//!
//! Uses: [`PayloadType`](#def.PayloadType), [`Unmodified`](#def.PayloadType), [`Modified`](#def.PayloadType), [`EncryptedUnmodified`](#def.PayloadType), [`Encrypted`](#def.PayloadType)
//!
//! <a id="def.FitsSecTag"></a>
//!
//! ## `FitsSecTag`
//!
//! ```text
//! pub record FitsSecTag (t : SecTagValue) : Type 0 where
//!   pub front : FitsSecTagFront (sec_tag_front_of 0 0 t)
//!   pub packet_number : t.packet_number < 2 ^ 32
//!   pub sci : FitsSci t.sci
//!   pub payload_type : FitsPayloadType t.payload_type
//! ```
//!
//! Uses: [`SecTagValue`](#def.SecTagValue), [`FitsSecTagFront`](#def.FitsSecTagFront), [`sec_tag_front_of`](#def.sec_tag_front_of), [`FitsSci`](#def.FitsSci), [`FitsPayloadType`](#def.FitsPayloadType)
//!
//! <a id="def.sci_bytes"></a>
//!
//! ## `sci_bytes`
//!
//! ```text
//! abbrev pub sci_bytes : Option ℕ → List ℕ
//! sci_bytes None = []
//! sci_bytes (Some sci) = spelled 8 sci
//! ```
//!
//! Uses: [`spelled`](#def.spelled)
//!
//! <a id="def.ether_type_bytes"></a>
//!
//! ## `ether_type_bytes`
//!
//! ```text
//! abbrev pub ether_type_bytes : PayloadType → List ℕ
//! ether_type_bytes (Unmodified ether_type) = spelled 2 ether_type
//! ether_type_bytes _ = []
//! ```
//!
//! Uses: [`PayloadType`](#def.PayloadType), [`Unmodified`](#def.PayloadType), [`spelled`](#def.spelled)
//!
//! <a id="def.sec_tag_bytes"></a>
//!
//! ## `sec_tag_bytes`
//!
//! The bytes of a value, with version and reserved bits 0.
//!
//! ```text
//! abbrev pub sec_tag_bytes : SecTagValue → List ℕ
//! sec_tag_bytes t = spelled 2 (sec_tag_front_number (sec_tag_front_of 0 0 t)) ++ spelled 4 t.packet_number
//!     ++ sci_bytes t.sci ++ ether_type_bytes t.payload_type
//! ```
//!
//! Uses: [`SecTagValue`](#def.SecTagValue), [`spelled`](#def.spelled), [`sec_tag_front_number`](#def.sec_tag_front_number), [`sec_tag_front_of`](#def.sec_tag_front_of), [`sci_bytes`](#def.sci_bytes), [`ether_type_bytes`](#def.ether_type_bytes)
//!
//! # Formats: ARP
//!
//! The packet of the Address Resolution Protocol (RFC 826, "Packet format").
//!
//! <a id="def.ArpValue"></a>
//!
//! ## `ArpValue`
//!
//! Three numbers and four addresses.
//!
//! ```text
//! pub record ArpValue : Type 0 where
//!   pub hardware_type : ℕ
//!   pub protocol_type : ℕ
//!   pub operation : ℕ
//!   pub sender_hardware : List ℕ
//!   pub sender_protocol : List ℕ
//!   pub target_hardware : List ℕ
//!   pub target_protocol : List ℕ
//! ```
//!
//! **The first eight bytes**
//!
//! <a id="def.ArpFront"></a>
//!
//! ## `ArpFront`
//!
//! ```text
//! pub record ArpFront : Type 0 where
//!   pub hardware_type : ℕ
//!   pub protocol_type : ℕ
//!   pub hardware_size : ℕ
//!   pub protocol_size : ℕ
//!   pub operation : ℕ
//! ```
//!
//! <a id="def.arp_front_number"></a>
//!
//! ## `arp_front_number`
//!
//! Hardware type 2 bytes, protocol type 2 bytes, the two sizes 1 byte each, operation 2 bytes.
//!
//! ```text
//! abbrev pub arp_front_number : ArpFront → ℕ
//! arp_front_number a = a.hardware_type * 2 ^ 48 + a.protocol_type * 2 ^ 32 + a.hardware_size * 2 ^ 24 + a.protocol_size
//!     * 2 ^ 16 + a.operation
//! ```
//!
//! Uses: [`ArpFront`](#def.ArpFront)
//!
//! <a id="def.FitsArpFront"></a>
//!
//! ## `FitsArpFront`
//!
//! ```text
//! pub record FitsArpFront (a : ArpFront) : Type 0 where
//!   pub hardware_type : a.hardware_type < 2 ^ 16
//!   pub protocol_type : a.protocol_type < 2 ^ 16
//!   pub hardware_size : a.hardware_size < 256
//!   pub protocol_size : a.protocol_size < 256
//!   pub operation : a.operation < 2 ^ 16
//! ```
//!
//! Uses: [`ArpFront`](#def.ArpFront)
//!
//! <a id="def.BeginsArp"></a>
//!
//! ## `BeginsArp`
//!
//! A list begins with eight bytes that mean a front.
//!
//! ```text
//! pub record BeginsArp (bytes : List ℕ) (a : ArpFront) : Type 0 where
//!   pub sum : number (slice_range bytes 0 8) ≡ arp_front_number a
//!   pub fits : FitsArpFront a
//! ```
//!
//! Uses: [`ArpFront`](#def.ArpFront), [`number`](#def.number), [`arp_front_number`](#def.arp_front_number), [`FitsArpFront`](#def.FitsArpFront)
//!
//! <a id="def.arp_len"></a>
//!
//! ## `arp_len`
//!
//! A packet's length, 8 to 1028.
//!
//! ```text
//! abbrev pub arp_len : ArpFront → ℕ
//! arp_len a = 8 + 2 * a.hardware_size + 2 * a.protocol_size
//! ```
//!
//! Uses: [`ArpFront`](#def.ArpFront)
//!
//! **The whole packet**
//!
//! <a id="def.arp_front_of"></a>
//!
//! ## `arp_front_of`
//!
//! ```text
//! abbrev pub arp_front_of : ArpValue → ArpFront
//! arp_front_of a = record {
//!   hardware_type = a.hardware_type;
//!   protocol_type = a.protocol_type;
//!   hardware_size = length a.sender_hardware;
//!   protocol_size = length a.sender_protocol;
//!   operation = a.operation;
//! }
//! ```
//!
//! Uses: [`ArpValue`](#def.ArpValue), [`ArpFront`](#def.ArpFront)
//!
//! <a id="def.bytes_at"></a>
//!
//! ## `bytes_at`
//!
//! n bytes from a place on.
//!
//! ```text
//! abbrev pub bytes_at : List ℕ → ℕ → ℕ → List ℕ
//! bytes_at bytes at n = slice_range bytes at (at + n)
//! ```
//!
//! <a id="def.IsArp"></a>
//!
//! ## `IsArp`
//!
//! The bytes of a packet mean a value: the four addresses follow the first eight bytes.
//!
//! ```text
//! pub record IsArp (bytes : List ℕ) (a : ArpValue) : Type 0 where
//!   pub front : BeginsArp bytes (arp_front_of a)
//!   pub sender_hardware : bytes_at bytes 8 (length a.sender_hardware) ≡ a.sender_hardware
//!   pub sender_protocol : bytes_at bytes (8 + length a.sender_hardware) (length a.sender_protocol) ≡ a.sender_protocol
//!   pub target_hardware : bytes_at bytes (8 + length a.sender_hardware + length a.sender_protocol)
//!       (length a.sender_hardware) ≡ a.target_hardware
//!   pub target_protocol : bytes_at bytes (8 + 2 * length a.sender_hardware + length a.sender_protocol)
//!       (length a.sender_protocol) ≡ a.target_protocol
//! ```
//!
//! Uses: [`ArpValue`](#def.ArpValue), [`BeginsArp`](#def.BeginsArp), [`arp_front_of`](#def.arp_front_of), [`bytes_at`](#def.bytes_at)
//!
//! <a id="def.FitsArp"></a>
//!
//! ## `FitsArp`
//!
//! The addresses are bytes, and the two of a kind have the same length, which fits in a byte.
//!
//! ```text
//! pub record FitsArp (a : ArpValue) : Type 0 where
//!   pub front : FitsArpFront (arp_front_of a)
//!   pub hardware : length a.target_hardware ≡ length a.sender_hardware
//!   pub protocol : length a.target_protocol ≡ length a.sender_protocol
//!   pub sender_hardware : IsBytes a.sender_hardware
//!   pub sender_protocol : IsBytes a.sender_protocol
//!   pub target_hardware : IsBytes a.target_hardware
//!   pub target_protocol : IsBytes a.target_protocol
//! ```
//!
//! Uses: [`ArpValue`](#def.ArpValue), [`FitsArpFront`](#def.FitsArpFront), [`arp_front_of`](#def.arp_front_of), [`IsBytes`](#def.IsBytes)
//!
//! <a id="def.arp_bytes"></a>
//!
//! ## `arp_bytes`
//!
//! The bytes of a value.
//!
//! ```text
//! abbrev pub arp_bytes : ArpValue → List ℕ
//! arp_bytes a = spelled 8 (arp_front_number (arp_front_of a)) ++ a.sender_hardware ++ a.sender_protocol
//!     ++ a.target_hardware ++ a.target_protocol
//! ```
//!
//! Uses: [`ArpValue`](#def.ArpValue), [`spelled`](#def.spelled), [`arp_front_number`](#def.arp_front_number), [`arp_front_of`](#def.arp_front_of)
//!
//! **Reading**
//!
//! <a id="def.arp_front_in"></a>
//!
//! ## `arp_front_in`
//!
//! The front in a list of at least eight bytes.
//!
//! ```text
//! abbrev pub arp_front_in : List ℕ → ArpFront
//! arp_front_in bytes = record {
//!   hardware_type = number (slice_range bytes 0 2);
//!   protocol_type = number (slice_range bytes 2 4);
//!   hardware_size = slice_index bytes 4;
//!   protocol_size = slice_index bytes 5;
//!   operation = number (slice_range bytes 6 8);
//! }
//! ```
//!
//! Uses: [`ArpFront`](#def.ArpFront), [`number`](#def.number)
//!
//! <a id="def.arp_with"></a>
//!
//! ## `arp_with`
//!
//! The packet that a list begins with, if this is its front.
//!
//! ```text
//! abbrev pub arp_with : ArpFront → List ℕ → ArpValue
//! arp_with front bytes = record {
//!   hardware_type = front.hardware_type;
//!   protocol_type = front.protocol_type;
//!   operation = front.operation;
//!   sender_hardware = bytes_at bytes 8 front.hardware_size;
//!   sender_protocol = bytes_at bytes (8 + front.hardware_size) front.protocol_size;
//!   target_hardware = bytes_at bytes (8 + front.hardware_size + front.protocol_size) front.hardware_size;
//!   target_protocol = bytes_at bytes (8 + 2 * front.hardware_size + front.protocol_size) front.protocol_size;
//! }
//! ```
//!
//! Uses: [`ArpFront`](#def.ArpFront), [`ArpValue`](#def.ArpValue), [`bytes_at`](#def.bytes_at)
//!
//! <a id="def.arp_of"></a>
//!
//! ## `arp_of`
//!
//! The packet in a list that is at least as long as its front says.
//!
//! ```text
//! abbrev pub arp_of : List ℕ → ArpValue
//! arp_of bytes = arp_with (arp_front_in bytes) bytes
//! ```
//!
//! Uses: [`ArpValue`](#def.ArpValue), [`arp_with`](#def.arp_with), [`arp_front_in`](#def.arp_front_in)
//!
//! # Formats: kind
//!
//! <a id="def.Kind"></a>
//!
//! ## `Kind`
//!
//! The kinds of units.
//!
//! ```text
//! pub data Kind : Type 0 where
//!   Ethernet2 : Kind
//!   Ethernet2Fcs : Kind
//!   LinuxSll : Kind
//!   Vlan : Kind
//!   Macsec : Kind
//!   Arp : Kind
//! ```
//!
//! # Formats: header
//!
//! A header of any kind as a value, the bytes that mean it, and the bytes that it is written as.
//!
//! <a id="def.Header"></a>
//!
//! ## `Header`
//!
//! ```text
//! pub data Header : Type 0 where
//!   Ethernet2 : Ethernet2Value → Header
//!   Ethernet2Fcs : Ethernet2Value → Header
//!   LinuxSll : LinuxSllValue → Header
//!   Vlan : VlanValue → Header
//!   Macsec : SecTagValue → Header
//!   Arp : ArpValue → Header
//! ```
//!
//! Uses: [`Ethernet2Value`](#def.Ethernet2Value), [`LinuxSllValue`](#def.LinuxSllValue), [`VlanValue`](#def.VlanValue), [`SecTagValue`](#def.SecTagValue), [`ArpValue`](#def.ArpValue)
//!
//! <a id="def.kind_of"></a>
//!
//! ## `kind_of`
//!
//! ```text
//! abbrev pub kind_of : Header → Kind
//! kind_of (Ethernet2 e) = kinds.Ethernet2
//! kind_of (Ethernet2Fcs e) = kinds.Ethernet2Fcs
//! kind_of (LinuxSll s) = kinds.LinuxSll
//! kind_of (Vlan v) = kinds.Vlan
//! kind_of (Macsec t) = kinds.Macsec
//! kind_of (Arp a) = kinds.Arp
//! ```
//!
//! Uses: [`Header`](#def.Header), [`Kind`](#def.Kind), [`Ethernet2`](#def.Header), [`kinds.Ethernet2`](#def.Kind), [`Ethernet2Fcs`](#def.Header), [`kinds.Ethernet2Fcs`](#def.Kind), [`LinuxSll`](#def.Header), [`kinds.LinuxSll`](#def.Kind), [`Vlan`](#def.Header), [`kinds.Vlan`](#def.Kind), [`Macsec`](#def.Header), [`kinds.Macsec`](#def.Kind), [`Arp`](#def.Header), [`kinds.Arp`](#def.Kind)
//!
//! **Lengths**
//!
//! <a id="def.header_len"></a>
//!
//! ## `header_len`
//!
//! ```text
//! abbrev pub header_len : Header → ℕ
//! header_len (Ethernet2 e) = 14
//! header_len (Ethernet2Fcs e) = 14
//! header_len (LinuxSll s) = 16
//! header_len (Vlan v) = 4
//! header_len (Macsec t) = sec_tag_len (sec_tag_front_of 0 0 t)
//! header_len (Arp a) = arp_len (arp_front_of a)
//! ```
//!
//! Uses: [`Header`](#def.Header), [`Ethernet2`](#def.Header), [`Ethernet2Fcs`](#def.Header), [`LinuxSll`](#def.Header), [`Vlan`](#def.Header), [`Macsec`](#def.Header), [`sec_tag_len`](#def.sec_tag_len), [`sec_tag_front_of`](#def.sec_tag_front_of), [`Arp`](#def.Header), [`arp_len`](#def.arp_len), [`arp_front_of`](#def.arp_front_of)
//!
//! <a id="def.payload_len"></a>
//!
//! ## `payload_len`
//!
//! The payload's length, if the header names it.
//!
//! ```text
//! abbrev pub payload_len : Header → Option ℕ
//! payload_len (Macsec t) = known_payload_len (sec_tag_front_of 0 0 t)
//! payload_len _ = None
//! ```
//!
//! Uses: [`Header`](#def.Header), [`Macsec`](#def.Header), [`known_payload_len`](#def.known_payload_len), [`sec_tag_front_of`](#def.sec_tag_front_of)
//!
//! <a id="def.trailer_len"></a>
//!
//! ## `trailer_len`
//!
//! The length of a frame check sequence, which follows the payload and is not part of it.
//!
//! ```text
//! abbrev pub trailer_len : Header → ℕ
//! trailer_len (Ethernet2Fcs e) = 4
//! trailer_len _ = 0
//! ```
//!
//! Uses: [`Header`](#def.Header), [`Ethernet2Fcs`](#def.Header)
//!
//! <a id="def.unit_len"></a>
//!
//! ## `unit_len`
//!
//! The length of a unit: that of its header, and that of its payload if the header names it.
//!
//! ```text
//! abbrev pub unit_len : Header → ℕ
//! unit_len h = header_len h + unwrap_or (payload_len h) 0
//! ```
//!
//! Uses: [`Header`](#def.Header), [`header_len`](#def.header_len), [`payload_len`](#def.payload_len)
//!
//! **Meaning**
//!
//! <a id="def.Spells"></a>
//!
//! ## `Spells`
//!
//! These bytes mean the header, if they are as many as it has.
//!
//! ```text
//! abbrev pub Spells : List ℕ → Header → Type 0
//! Spells bytes (Ethernet2 e) = IsEthernet2 bytes e
//! Spells bytes (Ethernet2Fcs e) = IsEthernet2 bytes e
//! Spells bytes (LinuxSll s) = IsLinuxSll bytes s
//! Spells bytes (Vlan v) = IsVlan bytes v
//! Spells bytes (Macsec t) = IsSecTag bytes t
//! Spells bytes (Arp a) = IsArp bytes a
//! ```
//!
//! Uses: [`Header`](#def.Header), [`Ethernet2`](#def.Header), [`IsEthernet2`](#def.IsEthernet2), [`Ethernet2Fcs`](#def.Header), [`LinuxSll`](#def.Header), [`IsLinuxSll`](#def.IsLinuxSll), [`Vlan`](#def.Header), [`IsVlan`](#def.IsVlan), [`Macsec`](#def.Header), [`IsSecTag`](#def.IsSecTag), [`Arp`](#def.Header), [`IsArp`](#def.IsArp)
//!
//! <a id="def.Means"></a>
//!
//! ## `Means`
//!
//! A list begins with a header.
//!
//! ```text
//! pub record Means (bytes : List ℕ) (h : Header) : Type 0 where
//!   pub whole : header_len h ≤ length bytes
//!   pub spells : Spells (slice_range bytes 0 (header_len h)) h
//! ```
//!
//! Uses: [`Header`](#def.Header), [`header_len`](#def.header_len), [`Spells`](#def.Spells)
//!
//! **Writing**
//!
//! <a id="def.FitsHeader"></a>
//!
//! ## `FitsHeader`
//!
//! Its numbers are in their ranges.
//!
//! ```text
//! abbrev pub FitsHeader : Header → Type 0
//! FitsHeader (Ethernet2 e) = FitsEthernet2 e
//! FitsHeader (Ethernet2Fcs e) = FitsEthernet2 e
//! FitsHeader (LinuxSll s) = FitsLinuxSll s
//! FitsHeader (Vlan v) = FitsVlan v
//! FitsHeader (Macsec t) = FitsSecTag t
//! FitsHeader (Arp a) = FitsArp a
//! ```
//!
//! Uses: [`Header`](#def.Header), [`Ethernet2`](#def.Header), [`FitsEthernet2`](#def.FitsEthernet2), [`Ethernet2Fcs`](#def.Header), [`LinuxSll`](#def.Header), [`FitsLinuxSll`](#def.FitsLinuxSll), [`Vlan`](#def.Header), [`FitsVlan`](#def.FitsVlan), [`Macsec`](#def.Header), [`FitsSecTag`](#def.FitsSecTag), [`Arp`](#def.Header), [`FitsArp`](#def.FitsArp)
//!
//! <a id="def.header_bytes"></a>
//!
//! ## `header_bytes`
//!
//! The bytes of a header.
//!
//! ```text
//! abbrev pub header_bytes : Header → List ℕ
//! header_bytes (Ethernet2 e) = ethernet2_bytes e
//! header_bytes (Ethernet2Fcs e) = ethernet2_bytes e
//! header_bytes (LinuxSll s) = linux_sll_bytes s
//! header_bytes (Vlan v) = vlan_bytes v
//! header_bytes (Macsec t) = sec_tag_bytes t
//! header_bytes (Arp a) = arp_bytes a
//! ```
//!
//! Uses: [`Header`](#def.Header), [`Ethernet2`](#def.Header), [`ethernet2_bytes`](#def.ethernet2_bytes), [`Ethernet2Fcs`](#def.Header), [`LinuxSll`](#def.Header), [`linux_sll_bytes`](#def.linux_sll_bytes), [`Vlan`](#def.Header), [`vlan_bytes`](#def.vlan_bytes), [`Macsec`](#def.Header), [`sec_tag_bytes`](#def.sec_tag_bytes), [`Arp`](#def.Header), [`arp_bytes`](#def.arp_bytes)
//!
//! # Formats: refusal
//!
//! The table of refusals: the bytes for which a unit of a kind is refused, and the error.
//!
//! <a id="def.Refusal"></a>
//!
//! ## `Refusal`
//!
//! The bytes that are required and those that are there, or what is wrong with their content.
//!
//! ```text
//! pub data Refusal : Type 0 where
//!   Length : (required len : ℕ) → LenSource → Layer → Refusal
//!   UnsupportedPacketType : ℕ → Refusal
//!   UnsupportedHardwareType : ℕ → Refusal
//!   UnexpectedVersion : Refusal
//!   InvalidShortLen : Refusal
//! ```
//!
//! <a id="def.IsTooShort"></a>
//!
//! ## `IsTooShort`
//!
//! E and C are 0, and the short length is too small for the two bytes of the ether type that it counts (IEEE 802.1AE,
//! 9.7).
//!
//! ```text
//! pub record IsTooShort (t : SecTagFront) : Type 0 where
//!   pub encrypted : t.encrypted ≡ 0
//!   pub changed : t.changed ≡ 0
//!   pub short_len : t.short_len ≡ 1
//! ```
//!
//! Uses: [`SecTagFront`](#def.SecTagFront)
//!
//! <a id="def.Refuses"></a>
//!
//! ## `Refuses`
//!
//! The rows of the table; `bound` is what gave the number of the bytes.
//!
//! ```text
//! pub data Refuses (bound : LenSource) (bytes : List ℕ) : Kind → Refusal → Type 0 where
//!   ethernet2 : length bytes < 14
//!       → Refuses bound bytes kinds.Ethernet2 (Length 14 (length bytes) bound layers.Ethernet2Header)
//!   ethernet2_fcs : length bytes < 18
//!       → Refuses bound bytes kinds.Ethernet2Fcs (Length 18 (length bytes) bound layers.Ethernet2Header)
//!   linux_sll : length bytes < 16
//!       → Refuses bound bytes kinds.LinuxSll (Length 16 (length bytes) bound layers.LinuxSllHeader)
//!   linux_sll_packet_type : (s : LinuxSllValue) → 16 ≤ length bytes → BeginsLinuxSll bytes s → 7 < s.packet_type
//!       → Refuses bound bytes kinds.LinuxSll (UnsupportedPacketType s.packet_type)
//!   linux_sll_hardware_type : (s : LinuxSllValue) → 16 ≤ length bytes → BeginsLinuxSll bytes s → s.packet_type ≤ 7
//!       → is_supported s.hardware_type ≡ false
//!       → Refuses bound bytes kinds.LinuxSll (UnsupportedHardwareType s.hardware_type)
//!   vlan : length bytes < 4 → Refuses bound bytes kinds.Vlan (Length 4 (length bytes) bound layers.VlanHeader)
//!   macsec : length bytes < 6 → Refuses bound bytes kinds.Macsec (Length 6 (length bytes) bound layers.MacsecHeader)
//!   macsec_version : (t : SecTagFront) → 6 ≤ length bytes → BeginsSecTag bytes t → t.version ≡ 1
//!       → Refuses bound bytes kinds.Macsec UnexpectedVersion
//!   macsec_short_len : (t : SecTagFront) → 6 ≤ length bytes → BeginsSecTag bytes t → t.version ≡ 0 → IsTooShort t
//!       → Refuses bound bytes kinds.Macsec InvalidShortLen
//!   macsec_header : (t : SecTagFront) → 6 ≤ length bytes → BeginsSecTag bytes t → t.version ≡ 0 → (IsTooShort t → ⊥)
//!       → length bytes < sec_tag_len t
//!       → Refuses bound bytes kinds.Macsec (Length (sec_tag_len t) (length bytes) bound layers.MacsecHeader)
//!   macsec_packet : (t : SecTagFront) (p : ℕ) → BeginsSecTag bytes t → t.version ≡ 0 → known_payload_len t ≡ Some p
//!       → sec_tag_len t ≤ length bytes → length bytes < sec_tag_len t + p
//!       → Refuses bound bytes kinds.Macsec
//!       (Length (sec_tag_len t + p) (length bytes) sources.MacsecShortLength layers.MacsecPacket)
//!   arp : length bytes < 8 → Refuses bound bytes kinds.Arp (Length 8 (length bytes) bound layers.Arp)
//!   arp_addresses : (a : ArpFront) → 8 ≤ length bytes → BeginsArp bytes a → length bytes < arp_len a
//!       → Refuses bound bytes kinds.Arp (Length (arp_len a) (length bytes) sources.ArpAddrLengths layers.Arp)
//! ```
//!
//! Uses: [`Kind`](#def.Kind), [`Refusal`](#def.Refusal), [`kinds.Ethernet2`](#def.Kind), [`Length`](#def.Refusal), `layers` (`Layer`), [`kinds.Ethernet2Fcs`](#def.Kind), [`kinds.LinuxSll`](#def.Kind), [`LinuxSllValue`](#def.LinuxSllValue), [`BeginsLinuxSll`](#def.BeginsLinuxSll), [`UnsupportedPacketType`](#def.Refusal), [`is_supported`](#def.is_supported), [`UnsupportedHardwareType`](#def.Refusal), [`kinds.Vlan`](#def.Kind), [`kinds.Macsec`](#def.Kind), [`SecTagFront`](#def.SecTagFront), [`BeginsSecTag`](#def.BeginsSecTag), [`UnexpectedVersion`](#def.Refusal), [`IsTooShort`](#def.IsTooShort), [`InvalidShortLen`](#def.Refusal), [`sec_tag_len`](#def.sec_tag_len), [`known_payload_len`](#def.known_payload_len), `sources` (`LenSource`), [`kinds.Arp`](#def.Kind), [`ArpFront`](#def.ArpFront), [`BeginsArp`](#def.BeginsArp), [`arp_len`](#def.arp_len)
//!
//! <a id="def.Accepts"></a>
//!
//! ## `Accepts`
//!
//! No row holds.
//!
//! ```text
//! abbrev pub Accepts : LenSource → List ℕ → Kind → Type 0
//! Accepts bound bytes kind = (r : Refusal) → Refuses bound bytes kind r → ⊥
//! ```
//!
//! Uses: [`Kind`](#def.Kind), [`Refusal`](#def.Refusal), [`Refuses`](#def.Refuses)
//!
//! **Of a header alone, without the payload whose length it names**
//!
//! <a id="def.IsOfPayload"></a>
//!
//! ## `IsOfPayload`
//!
//! The row is about that payload.
//!
//! ```text
//! abbrev pub IsOfPayload : Refusal → Type 0
//! IsOfPayload (Length required len source layer) = layer ≡ layers.MacsecPacket
//! IsOfPayload (UnsupportedPacketType n) = ⊥
//! IsOfPayload (UnsupportedHardwareType n) = ⊥
//! IsOfPayload UnexpectedVersion = ⊥
//! IsOfPayload InvalidShortLen = ⊥
//! ```
//!
//! Uses: [`Refusal`](#def.Refusal), [`Length`](#def.Refusal), `layers` (`Layer`), [`UnsupportedPacketType`](#def.Refusal), [`UnsupportedHardwareType`](#def.Refusal), [`UnexpectedVersion`](#def.Refusal), [`InvalidShortLen`](#def.Refusal)
//!
//! <a id="def.RefusesHeader"></a>
//!
//! ## `RefusesHeader`
//!
//! A row of the header holds.
//!
//! ```text
//! pub record RefusesHeader (bound : LenSource) (bytes : List ℕ) (kind : Kind) (r : Refusal) : Type 0 where
//!   pub row : Refuses bound bytes kind r
//!   pub of_header : IsOfPayload r → ⊥
//! ```
//!
//! Uses: [`Kind`](#def.Kind), [`Refusal`](#def.Refusal), [`Refuses`](#def.Refuses), [`IsOfPayload`](#def.IsOfPayload)
//!
//! <a id="def.AcceptsHeader"></a>
//!
//! ## `AcceptsHeader`
//!
//! No row of the header holds.
//!
//! ```text
//! abbrev pub AcceptsHeader : LenSource → List ℕ → Kind → Type 0
//! AcceptsHeader bound bytes kind = (r : Refusal) → RefusesHeader bound bytes kind r → ⊥
//! ```
//!
//! Uses: [`Kind`](#def.Kind), [`Refusal`](#def.Refusal), [`RefusesHeader`](#def.RefusesHeader)
//!
//! # Formats: refused length
//!
//! A length error as the row of the table that holds.
//!
//! <a id="def.IsRefusedLen"></a>
//!
//! ## `IsRefusedLen`
//!
//! A slice is refused as a unit of a kind: all five fields of the error, which counts from the slice's start.
//!
//! ```text
//! pub record IsRefusedLen (bytes : List ℕ) (kind : Kind) (e : LenError) : Type 0 where
//!   pub row : Refuses sources.Slice bytes kind (Length e.required_len e.len e.len_source e.layer)
//!   pub start : e.layer_start_offset ≡ 0
//! ```
//!
//! Uses: [`Kind`](#def.Kind), [`Refuses`](#def.Refuses), `sources` (`LenSource`), [`Length`](#def.Refusal)
//!
//! <a id="def.OnLen"></a>
//!
//! ## `OnLen`
//!
//! `holds` is true of a length error; nothing is claimed of other errors.
//!
//! ```text
//! abbrev pub OnLen : {C : Type 0} → HeaderSliceError C → (LenError → Type 0) → Type 0
//! OnLen (Len e) holds = holds e
//! OnLen (Content c) holds = Unit {0}
//! ```
//!
//! Uses: `Len` (`HeaderSliceError::Len`), `Content` (`HeaderSliceError::Content`)
//!
//! # Enumerations: ether type
//!
//! The ether types with a description (IEEE 802, 9.2), and how an ether type is shown.
//!
//! <a id="def.ether_type_descriptions"></a>
//!
//! ## `ether_type_descriptions`
//!
//! The ether types that have a description.
//!
//! ```text
//! abbrev pub ether_type_descriptions : List (ℕ × List ℕ)
//! ether_type_descriptions =
//!     (0x0800, codes "Internet Protocol version 4 (IPv4)") ∷
//!     (0x86DD, codes "Internet Protocol Version 6 (IPV6)") ∷
//!     (0x0806, codes "Address Resolution Protocol (ARP)") ∷
//!     (0x0842, codes "Wake on LAN") ∷
//!     (0x8100, codes "Customer VLAN Tag (C-TAG) as defined in IEEE Std 802.1Q") ∷
//!     (0x88A8, codes "IEEE Std 802.1Q - Service VLAN tag identifier (S-Tag)") ∷
//!     (0x88E5, codes "IEEE Std 802.1AE - Media Access Control Security") ∷
//!     (0x9100, codes "VLAN Double Tagged Frame") ∷
//!     []
//! ```
//!
//! <a id="def.ether_type_description"></a>
//!
//! ## `ether_type_description`
//!
//! ```text
//! unfoldable pub ether_type_description : ℕ → Option (List ℕ)
//! ether_type_description number = description_in ether_type_descriptions number
//! ```
//!
//! Uses: [`description_in`](#def.description_in), [`ether_type_descriptions`](#def.ether_type_descriptions)
//!
//! # Enumerations: ARP hardware identifier
//!
//! The hardware types with a description, and how a hardware type is shown.
//!
//! <a id="def.assigned_descriptions"></a>
//!
//! ## `assigned_descriptions`
//!
//! The hardware types that ARP has numbers for (IANA, "ARP Hardware Types").
//!
//! ```text
//! unfoldable pub assigned_descriptions : List (ℕ × List ℕ)
//! assigned_descriptions =
//!     (0, codes "from KA9Q: NET/ROM pseudo") ∷
//!     (1, codes "Ethernet") ∷
//!     (2, codes "Experimental Ethernet") ∷
//!     (3, codes "AX.25 Level 2") ∷
//!     (4, codes "PROnet token ring") ∷
//!     (5, codes "Chaosnet") ∷
//!     (6, codes "IEEE 802.2 Ethernet/TR/TB") ∷
//!     (7, codes "ARCnet") ∷
//!     (8, codes "APPLEtalk or Hyperchannel") ∷
//!     (9, codes "Lanstar") ∷
//!     (10, codes "Autonet Short Address") ∷
//!     (11, codes "LocalTalk") ∷
//!     (12, codes "LocalNet") ∷
//!     (13, codes "Ultra link") ∷
//!     (14, codes "SMDS") ∷
//!     (15, codes "Frame Relay DLCI") ∷
//!     (16, codes "Asynchronous Transmission Mode (ATM) JXB2") ∷
//!     (17, codes "HDLC") ∷
//!     (18, codes "Fibre Channel") ∷
//!     (19, codes "ATM") ∷
//!     (20, codes "Serial Line") ∷
//!     (21, codes "Asynchronous Transmission Mode (ATM)") ∷
//!     (22, codes "MIL-STD-188-220") ∷
//!     (23, codes "Metricom STRIP (new IANA id)") ∷
//!     (24, codes "IEEE 1394 IPv4 - RFC 2734") ∷
//!     (25, codes "MAPOS") ∷
//!     (26, codes "Twinaxial") ∷
//!     (27, codes "EUI-64") ∷
//!     (28, codes "HIPARP") ∷
//!     (29, codes "IP and ARP over ISO 7816-3") ∷
//!     (30, codes "ARPSec") ∷
//!     (31, codes "IPsec tunnel") ∷
//!     (32, codes "InfiniBand") ∷
//!     (33, codes "TIA-102 Project 25 Common Air Interface (CAI)") ∷
//!     (34, codes "Wiegand Interface") ∷
//!     (35, codes "Pure IP") ∷
//!     (36, codes "HW_EXP1") ∷
//!     (37, codes "HFI") ∷
//!     (38, codes "Unified Bus (UB)") ∷
//!     []
//! ```
//!
//! <a id="def.link_descriptions"></a>
//!
//! ## `link_descriptions`
//!
//! The link types that Linux numbers from 256 on.
//!
//! ```text
//! unfoldable pub link_descriptions : List (ℕ × List ℕ)
//! link_descriptions =
//!     (256, codes "SLIP") ∷
//!     (257, codes "CSLIP") ∷
//!     (258, codes "SLIP6") ∷
//!     (259, codes "CSLIP6") ∷
//!     (260, codes "Notional KISS type") ∷
//!     (264, codes "ADAPT") ∷
//!     (270, codes "ROSE") ∷
//!     (271, codes "CCITT X.25") ∷
//!     (272, codes "Boards with X.25 in firmware") ∷
//!     (280, codes "Controller Area Network") ∷
//!     (512, codes "PPP") ∷
//!     (513, codes "Cisco HDLC") ∷
//!     (516, codes "LAPB") ∷
//!     (517, codes "Digital's DDCMP protocol") ∷
//!     (518, codes "Raw HDLC") ∷
//!     (519, codes "Raw IP") ∷
//!     []
//! ```
//!
//! <a id="def.device_descriptions"></a>
//!
//! ## `device_descriptions`
//!
//! The devices that Linux numbers from 768 on.
//!
//! ```text
//! unfoldable pub device_descriptions : List (ℕ × List ℕ)
//! device_descriptions =
//!     (768, codes "IPIP tunnel") ∷
//!     (769, codes "IP6IP6 tunnel") ∷
//!     (770, codes "Frame Relay Access Device") ∷
//!     (771, codes "SKIP vif") ∷
//!     (772, codes "Loopback device") ∷
//!     (773, codes "Localtalk device") ∷
//!     (774, codes "Fiber Distributed Data Interface") ∷
//!     (775, codes "AP1000 BIF") ∷
//!     (776, codes "sit0 device - IPv6-in-IPv4") ∷
//!     (777, codes "IP over DDP tunneller") ∷
//!     (778, codes "GRE over IP") ∷
//!     (779, codes "PIMSM register interface") ∷
//!     (780, codes "High Performance Parallel Interface") ∷
//!     (781, codes "Nexus 64Mbps Ash") ∷
//!     (782, codes "Acorn Econet") ∷
//!     (783, codes "Linux-IrDA") ∷
//!     (784, codes "Point to point fibrechannel") ∷
//!     (785, codes "Fibrechannel arbitrated loop") ∷
//!     (786, codes "Fibrechannel public loop") ∷
//!     (787, codes "Fibrechannel fabric") ∷
//!     (800, codes "Magic type ident for TR") ∷
//!     (801, codes "IEEE 802.11") ∷
//!     (802, codes "IEEE 802.11 + Prism2 header") ∷
//!     (803, codes "IEEE 802.11 + radiotap header") ∷
//!     (804, codes "IEEE 802.15.4") ∷
//!     (805, codes "IEEE 802.15.4 network monitor") ∷
//!     (820, codes "PhoNet media type") ∷
//!     (821, codes "PhoNet pipe header") ∷
//!     (822, codes "CAIF media type") ∷
//!     (823, codes "GRE over IPv6") ∷
//!     (824, codes "Netlink header") ∷
//!     (825, codes "IPv6 over LoWPAN") ∷
//!     (826, codes "Vsock monitor header") ∷
//!     (65535, codes "Void type, nothing is known") ∷
//!     (65534, codes "zero header length") ∷
//!     []
//! ```
//!
//! <a id="def.arp_hardware_description"></a>
//!
//! ## `arp_hardware_description`
//!
//! ```text
//! unfoldable pub arp_hardware_description : ℕ → Option (List ℕ)
//! arp_hardware_description number =
//!     description_in (assigned_descriptions ++ link_descriptions ++ device_descriptions) number
//! ```
//!
//! Uses: [`description_in`](#def.description_in), [`assigned_descriptions`](#def.assigned_descriptions), [`link_descriptions`](#def.link_descriptions), [`device_descriptions`](#def.device_descriptions)
//!
//! # Enumerations: Linux nonstandard ether type
//!
//! Protocols that Linux numbers below the ether types.
//!
//! <a id="def.nonstandard_descriptions"></a>
//!
//! ## `nonstandard_descriptions`
//!
//! The numbers that Linux gives to protocols without an ether type (`ETH_P_` in its if\_ether.h, below 0x0600).
//!
//! ```text
//! abbrev pub nonstandard_descriptions : List (ℕ × List ℕ)
//! nonstandard_descriptions =
//!     (0x01, codes "Dummy type for 802.3 frames") ∷
//!     (0x02, codes "Dummy protocol id for AX.25") ∷
//!     (0x03, codes "Every packet") ∷
//!     (0x04, codes "802.2 frames") ∷
//!     (0x05, codes "SNAP: Internal only") ∷
//!     (0x06, codes "DEC DDCMP: Internal only") ∷
//!     (0x07, codes "Dummy type for WAN PPP frames") ∷
//!     (0x08, codes "Dummy type for PPP MP frames") ∷
//!     (0x09, codes "Localtalk pseudo type") ∷
//!     (0x0C, codes "CAN: Controller Area Network") ∷
//!     (0x0D, codes "CANFD: CAN flexible data rate") ∷
//!     (0x0E, codes "CANXL: eXtended frame Length") ∷
//!     (0x10, codes "Dummy type for Atalk over PPP") ∷
//!     (0x11, codes "802.2 frames") ∷
//!     (0x15, codes "Mobitex") ∷
//!     (0x16, codes "Card specific control frames") ∷
//!     (0x17, codes "Linux-IrDA") ∷
//!     (0x18, codes "Acorn Econet") ∷
//!     (0x19, codes "HDLC frames") ∷
//!     (0x1A, codes "1A for ArcNet") ∷
//!     (0x1B, codes "Distributed Switch Arch") ∷
//!     (0x1C, codes "Trailer switch tagging") ∷
//!     (0xF5, codes "Nokia Phonet frame") ∷
//!     (0xF6, codes "IEEE802.15.4 frame") ∷
//!     (0xF7, codes "ST-Ericsson CAIF protocol") ∷
//!     (0xF8, codes "Multiplexed DSA protocol") ∷
//!     (0xF9, codes "Qualcomm multiplexing and aggregation protocol") ∷
//!     (0xFA, codes "Management component transport protocol packets") ∷
//!     []
//! ```
//!
//! <a id="def.nonstandard_description"></a>
//!
//! ## `nonstandard_description`
//!
//! ```text
//! abbrev pub nonstandard_description : ℕ → Option (List ℕ)
//! nonstandard_description number = description_in nonstandard_descriptions number
//! ```
//!
//! Uses: [`description_in`](#def.description_in), [`nonstandard_descriptions`](#def.nonstandard_descriptions)
//!
//! <a id="def.is_nonstandard"></a>
//!
//! ## `is_nonstandard`
//!
//! ```text
//! abbrev pub is_nonstandard : ℕ → Bool
//! is_nonstandard number = is_some (nonstandard_description number)
//! ```
//!
//! Uses: [`nonstandard_description`](#def.nonstandard_description)
//!
//! # Enumerations: layer
//!
//! How layers are named in errors, and their order.
//!
//! <a id="def.LayerTexts"></a>
//!
//! ## `LayerTexts`
//!
//! How a layer is named: the title of its errors, and its name within a text.
//!
//! ```text
//! pub record LayerTexts : Type 0 where
//!   pub title : List ℕ
//!   pub name : List ℕ
//! ```
//!
//! <a id="def.layer_texts"></a>
//!
//! ## `layer_texts`
//!
//! ```text
//! abbrev pub layer_texts : Layer → LayerTexts
//! layer_texts LinuxSllHeader =
//!     record { title = codes "Linux Cooked Capture v1 Error"; name = codes "Linux Cooked Capture v1 header" }
//! layer_texts Ethernet2Header = record { title = codes "Ethernet 2 Header Error"; name = codes "Ethernet 2 header" }
//! layer_texts EtherPayload = record { title = codes "Payload with Ether Type Error"; name = codes "Ether type payload" }
//! layer_texts VlanHeader = record { title = codes "VLAN Header Error"; name = codes "VLAN header" }
//! layer_texts MacsecHeader = record { title = codes "MACsec Header Error"; name = codes "MACsec header" }
//! layer_texts MacsecPacket = record { title = codes "MACsec Packet Error"; name = codes "MACsec packet" }
//! layer_texts IpHeader = record { title = codes "IP Header Error"; name = codes "IP header" }
//! layer_texts Ipv4Header = record { title = codes "IPv4 Header Error"; name = codes "IPv4 header" }
//! layer_texts Ipv4Packet = record { title = codes "IPv4 Packet Error"; name = codes "IPv4 packet" }
//! layer_texts IpAuthHeader =
//!     record { title = codes "IP Authentication Header Error"; name = codes "IP Authentication header" }
//! layer_texts Ipv6Header = record { title = codes "IPv6 Header Error"; name = codes "IPv6 header" }
//! layer_texts Ipv6Packet = record { title = codes "IPv6 Packet Error"; name = codes "IPv6 packet" }
//! layer_texts Ipv6ExtHeader = record { title = codes "IPv6 Extension Header Error"; name = codes "IPv6 extension header" }
//! layer_texts Ipv6HopByHopHeader =
//!     record { title = codes "IPv6 Hop-by-Hop Option Header Error"; name = codes "IPv6 hop-by-hop option header" }
//! layer_texts Ipv6DestOptionsHeader =
//!     record { title = codes "IPv6 Destination Options Header Error"; name = codes "IPv6 destination options header" }
//! layer_texts Ipv6RouteHeader = record { title = codes "IPv6 Routing Header Error"; name = codes "IPv6 routing header" }
//! layer_texts Ipv6FragHeader = record { title = codes "IPv6 Fragment Header Error"; name = codes "IPv6 fragment header" }
//! layer_texts UdpHeader = record { title = codes "UDP Header Error"; name = codes "UDP header" }
//! layer_texts UdpPayload = record { title = codes "UDP Payload Error"; name = codes "UDP payload" }
//! layer_texts TcpHeader = record { title = codes "TCP Header Error"; name = codes "TCP header" }
//! layer_texts Icmpv4 = record { title = codes "ICMP Packet Error"; name = codes "ICMP packet" }
//! layer_texts Icmpv4Timestamp = record { title = codes "ICMP Timestamp Error"; name = codes "ICMP timestamp message" }
//! layer_texts Icmpv4TimestampReply =
//!     record { title = codes "ICMP Timestamp Reply Error"; name = codes "ICMP timestamp reply message" }
//! layer_texts Icmpv6 = record { title = codes "ICMPv6 Packet Error"; name = codes "ICMPv6 packet" }
//! layer_texts Arp =
//!     record {
//!       title = codes "Address Resolution Protocol Packet Error";
//!       name = codes "Address Resolution Protocol packet";
//!     }
//! ```
//!
//! Uses: [`LayerTexts`](#def.LayerTexts), `LinuxSllHeader` (`Layer::LinuxSllHeader`), `Ethernet2Header` (`Layer::Ethernet2Header`), `EtherPayload` (`Layer::EtherPayload`), `VlanHeader` (`Layer::VlanHeader`), `MacsecHeader` (`Layer::MacsecHeader`), `MacsecPacket` (`Layer::MacsecPacket`), `IpHeader` (`Layer::IpHeader`), `Ipv4Header` (`Layer::Ipv4Header`), `Ipv4Packet` (`Layer::Ipv4Packet`), `IpAuthHeader` (`Layer::IpAuthHeader`), `Ipv6Header` (`Layer::Ipv6Header`), `Ipv6Packet` (`Layer::Ipv6Packet`), `Ipv6ExtHeader` (`Layer::Ipv6ExtHeader`), `Ipv6HopByHopHeader` (`Layer::Ipv6HopByHopHeader`), `Ipv6DestOptionsHeader` (`Layer::Ipv6DestOptionsHeader`), `Ipv6RouteHeader` (`Layer::Ipv6RouteHeader`), `Ipv6FragHeader` (`Layer::Ipv6FragHeader`), `UdpHeader` (`Layer::UdpHeader`), `UdpPayload` (`Layer::UdpPayload`), `TcpHeader` (`Layer::TcpHeader`), `Icmpv4` (`Layer::Icmpv4`), `Icmpv4Timestamp` (`Layer::Icmpv4Timestamp`), `Icmpv4TimestampReply` (`Layer::Icmpv4TimestampReply`), `Icmpv6` (`Layer::Icmpv6`), `Arp` (`Layer::Arp`)
//!
//! <a id="def.layer_title"></a>
//!
//! ## `layer_title`
//!
//! ```text
//! abbrev pub layer_title : Layer → List ℕ
//! layer_title layer = (layer_texts layer).title
//! ```
//!
//! Uses: [`layer_texts`](#def.layer_texts)
//!
//! # Enumerations: bounded field
//!
//! Fields with a greatest number.
//!
//! <a id="def.too_big"></a>
//!
//! ## `too_big`
//!
//! The refusal of a number that is above a field's greatest.
//!
//! ```text
//! abbrev pub too_big : (number greatest : ℕ) → ValueType → ValueTooBigError ℕ
//! too_big number greatest value_type = record { actual = number; max_allowed = greatest; value_type = value_type }
//! ```
//!
//! # Texts: number text
//!
//! Numbers as text, and descriptions in a table.
//!
//! <a id="def.description_in"></a>
//!
//! ## `description_in`
//!
//! The description of a number: that of the first row that begins with it.
//!
//! ```text
//! abbrev pub description_in : List (ℕ × List ℕ) → ℕ → Option (List ℕ)
//! description_in [] number = None
//! description_in (row ∷ rows) number = if number == row.0 then Some row.1 else description_in rows number
//! ```
//!
//! <a id="def.hex_byte"></a>
//!
//! ## `hex_byte`
//!
//! A byte as two hexadecimal digits, in upper case or in lower case.
//!
//! ```text
//! abbrev pub hex_byte : (upper : Bool) → ℕ → List ℕ
//! hex_byte upper n = digit_glyph upper (n / 16) ∷ digit_glyph upper (n % 16) ∷ []
//! ```
//!
//! <a id="def.hex_number"></a>
//!
//! ## `hex_number`
//!
//! `0x` and the four upper-case hexadecimal digits of a number below 65536.
//!
//! ```text
//! unfoldable pub hex_number : ℕ → List ℕ
//! hex_number number =
//!     codes "0x"
//!     ++ (digit_glyph true (number / 4096) ∷ digit_glyph true (number / 256 % 16) ∷ digit_glyph true (number / 16 % 16)
//!     ∷ digit_glyph true (number % 16) ∷ [])
//! ```
//!
//! # Texts: header slice error
//!
//! Why a header can't be read from a slice, for contents of any format.
//!
//! <a id="def.FitsMoved"></a>
//!
//! ## `FitsMoved`
//!
//! The start of a length error still fits in 64 bits after the move; a content error has no start.
//!
//! ```text
//! abbrev pub FitsMoved : {E : Type 0} → ℕ → HeaderSliceError E → Type 0
//! FitsMoved offset (Len error) = error.layer_start_offset + offset < 2 ^ 64
//! FitsMoved offset (Content error) = Unit {0}
//! ```
//!
//! Uses: `Len` (`HeaderSliceError::Len`), `Content` (`HeaderSliceError::Content`)
//!
//! <a id="def.moved"></a>
//!
//! ## `moved`
//!
//! The error of a header that starts `offset` bytes later.
//!
//! ```text
//! abbrev pub moved : {E : Type 0} → ℕ → HeaderSliceError E → HeaderSliceError E
//! moved offset (Len error) = Len (record error { layer_start_offset = error.layer_start_offset + offset })
//! moved offset (Content error) = Content error
//! ```
//!
//! Uses: `Len` (`HeaderSliceError::Len`), `Content` (`HeaderSliceError::Content`)
//!
//! # Write front
//!
//! Writing to the front of a slice, and lending the bytes after it to the caller.
//!
//! <a id="def.IsRest"></a>
//!
//! ## `IsRest`
//!
//! The bytes after the first `required`, as they were.
//!
//! ```text
//! pub record IsRest (required : ℕ) (slice : List ℕ) (rest : MutBor (List ℕ)) : Type 0 where
//!   pub room : required ≤ length slice
//!   pub same : rest.now ≡ drop required slice
//! ```
//!
//! <a id="def.IsRefusedSpace"></a>
//!
//! ## `IsRefusedSpace`
//!
//! All four fields of the error, which counts from the slice's start.
//!
//! ```text
//! pub record IsRefusedSpace (required : ℕ) (layer : Layer) (slice : List ℕ) (e : SliceWriteSpaceError) : Type 0 where
//!   pub short : length slice < required
//!   pub error : e ≡ record { required_len = required; len = length slice; layer = layer; layer_start_offset = 0 }
//! ```
//!
//! <a id="def.AnswersRest"></a>
//!
//! ## `AnswersRest`
//!
//! The rest if the slice has room for `required` bytes of a layer, else the refusal.
//!
//! ```text
//! abbrev pub AnswersRest : ℕ → Layer → List ℕ → Result (MutBor (List ℕ)) SliceWriteSpaceError → Type 0
//! AnswersRest required layer slice result =
//!     MatchResult result (IsRest required slice) (IsRefusedSpace required layer slice)
//! ```
//!
//! Uses: [`IsRest`](#def.IsRest), [`IsRefusedSpace`](#def.IsRefusedSpace)
//!
//! <a id="def.LendsRest"></a>
//!
//! ## `LendsRest`
//!
//! Afterwards the slice holds these bytes, and after them what was left in the rest; if it was refused, it is unchanged.
//!
//! ```text
//! abbrev pub LendsRest : List ℕ → MutBor (List ℕ) → Result (MutBor (List ℕ)) SliceWriteSpaceError → Fml
//! LendsRest bytes slice result = LendsIfOk (Array u8 0) (Array u8 0) slice result (λ rest. bytes ++ rest) slice.now
//! ```
//!
