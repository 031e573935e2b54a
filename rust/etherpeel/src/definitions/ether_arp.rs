//! Views of ARP packets.
//!
//! # ARP
//!
//! Bytes that hold a packet of the Address Resolution Protocol (RFC 826, "Packet format").
//!
//! <a id="def.BeginsWithArp"></a>
//!
//! ## `BeginsWithArp`
//!
//! A list begins with the eight bytes of a front and its addresses.
//!
//! ```text
//! pub record BeginsWithArp (bytes : List ℕ) : Type 0 where
//!   pub front : 8 ≤ length bytes
//!   pub whole : arp_len (arp_front_in bytes) ≤ length bytes
//! ```
//!
//! Uses: [`arp_len`](crate::definitions::ether_base#def.arp_len), [`arp_front_in`](crate::definitions::ether_base#def.arp_front_in)
//!
//! # ARP addresses
//!
//! The addresses that a packet can't hold: it has one size for both addresses of a kind, and a size is one byte (RFC
//! 826, "Packet format").
//!
//! <a id="def.RefusesHwAddrs"></a>
//!
//! ## `RefusesHwAddrs`
//!
//! The rows for two hardware addresses of these lengths.
//!
//! ```text
//! pub data RefusesHwAddrs (sender target : ℕ) : ArpHwAddrError → Type 0 where
//!   hw_unequal : (sender ≡ target → ⊥) → RefusesHwAddrs sender target (hw.LenNonMatching sender target)
//!   hw_too_long : sender ≡ target → 255 < sender → RefusesHwAddrs sender target (hw.LenTooBig sender)
//! ```
//!
//! Uses: `hw` (`ArpHwAddrError`)
//!
//! <a id="def.RefusesProtoAddrs"></a>
//!
//! ## `RefusesProtoAddrs`
//!
//! The rows for two protocol addresses of these lengths.
//!
//! ```text
//! pub data RefusesProtoAddrs (sender target : ℕ) : ArpProtoAddrError → Type 0 where
//!   proto_unequal : (sender ≡ target → ⊥) → RefusesProtoAddrs sender target (proto.LenNonMatching sender target)
//!   proto_too_long : sender ≡ target → 255 < sender → RefusesProtoAddrs sender target (proto.LenTooBig sender)
//! ```
//!
//! Uses: `proto` (`ArpProtoAddrError`)
//!
//! <a id="def.RefusesAddrs"></a>
//!
//! ## `RefusesAddrs`
//!
//! The rows for all four: lengths that differ are refused before lengths above 255.
//!
//! ```text
//! pub data RefusesAddrs (sender_hw sender_proto target_hw target_proto : ℕ) : ArpNewError → Type 0 where
//!   hardware_unequal : (sender_hw ≡ target_hw → ⊥)
//!       → RefusesAddrs sender_hw sender_proto target_hw target_proto (HwAddr (hw.LenNonMatching sender_hw target_hw))
//!   protocol_unequal : sender_hw ≡ target_hw → (sender_proto ≡ target_proto → ⊥)
//!       → RefusesAddrs sender_hw sender_proto target_hw target_proto
//!       (ProtoAddr (proto.LenNonMatching sender_proto target_proto))
//!   hardware_too_long : sender_hw ≡ target_hw → sender_proto ≡ target_proto → 255 < sender_hw
//!       → RefusesAddrs sender_hw sender_proto target_hw target_proto (HwAddr (hw.LenTooBig sender_hw))
//!   protocol_too_long : sender_hw ≡ target_hw → sender_proto ≡ target_proto → sender_hw ≤ 255 → 255 < sender_proto
//!       → RefusesAddrs sender_hw sender_proto target_hw target_proto (ProtoAddr (proto.LenTooBig sender_proto))
//! ```
//!
//! Uses: `HwAddr` (`ArpNewError::HwAddr`), `hw` (`ArpHwAddrError`), `ProtoAddr` (`ArpNewError::ProtoAddr`), `proto` (`ArpProtoAddrError`)
//!
//! <a id="def.AcceptsHwAddrs"></a>
//!
//! ## `AcceptsHwAddrs`
//!
//! No row holds.
//!
//! ```text
//! abbrev pub AcceptsHwAddrs : ℕ → ℕ → Type 0
//! AcceptsHwAddrs sender target = (e : ArpHwAddrError) → RefusesHwAddrs sender target e → ⊥
//! ```
//!
//! Uses: [`RefusesHwAddrs`](#def.RefusesHwAddrs)
//!
//! <a id="def.AcceptsProtoAddrs"></a>
//!
//! ## `AcceptsProtoAddrs`
//!
//! ```text
//! abbrev pub AcceptsProtoAddrs : ℕ → ℕ → Type 0
//! AcceptsProtoAddrs sender target = (e : ArpProtoAddrError) → RefusesProtoAddrs sender target e → ⊥
//! ```
//!
//! Uses: [`RefusesProtoAddrs`](#def.RefusesProtoAddrs)
//!
//! <a id="def.AcceptsAddrs"></a>
//!
//! ## `AcceptsAddrs`
//!
//! ```text
//! abbrev pub AcceptsAddrs : ℕ → ℕ → ℕ → ℕ → Type 0
//! AcceptsAddrs sender_hw sender_proto target_hw target_proto =
//!     (e : ArpNewError) → RefusesAddrs sender_hw sender_proto target_hw target_proto e → ⊥
//! ```
//!
//! Uses: [`RefusesAddrs`](#def.RefusesAddrs)
//!
//! <a id="def.AnswersHwAddrs"></a>
//!
//! ## `AnswersHwAddrs`
//!
//! The answer to two addresses of a kind, or to all four: a refusal exactly if a row holds, and that row.
//!
//! ```text
//! abbrev pub AnswersHwAddrs : {A : Type 0} → (sender target : ℕ) → Result A ArpHwAddrError → Type 0
//! AnswersHwAddrs sender target result =
//!     MatchResult result (λ _. AcceptsHwAddrs sender target) (RefusesHwAddrs sender target)
//! ```
//!
//! Uses: [`AcceptsHwAddrs`](#def.AcceptsHwAddrs), [`RefusesHwAddrs`](#def.RefusesHwAddrs)
//!
//! <a id="def.AnswersProtoAddrs"></a>
//!
//! ## `AnswersProtoAddrs`
//!
//! ```text
//! abbrev pub AnswersProtoAddrs : {A : Type 0} → (sender target : ℕ) → Result A ArpProtoAddrError → Type 0
//! AnswersProtoAddrs sender target result =
//!     MatchResult result (λ _. AcceptsProtoAddrs sender target) (RefusesProtoAddrs sender target)
//! ```
//!
//! Uses: [`AcceptsProtoAddrs`](#def.AcceptsProtoAddrs), [`RefusesProtoAddrs`](#def.RefusesProtoAddrs)
//!
//! <a id="def.AnswersAddrs"></a>
//!
//! ## `AnswersAddrs`
//!
//! ```text
//! abbrev pub AnswersAddrs : {A : Type 0} → (sender_hw sender_proto target_hw target_proto : ℕ) → Result A ArpNewError
//!     → Type 0
//! AnswersAddrs sender_hw sender_proto target_hw target_proto result =
//!     MatchResult result (λ _. AcceptsAddrs sender_hw sender_proto target_hw target_proto)
//!     (RefusesAddrs sender_hw sender_proto target_hw target_proto)
//! ```
//!
//! Uses: [`AcceptsAddrs`](#def.AcceptsAddrs), [`RefusesAddrs`](#def.RefusesAddrs)
//!
//! # ARP Ethernet IPv4
//!
//! Packets of Ethernet and IPv4: hardware type 1 and 6 bytes (RFC 826), protocol type 0x0800 (RFC 894) and 4 bytes.
//!
//! <a id="def.eth_ipv4_view"></a>
//!
//! ## `eth_ipv4_view`
//!
//! The packet as a value; 2048 is 0x0800.
//!
//! ```text
//! abbrev pub eth_ipv4_view : ArpEthIpv4Packet → ArpValue
//! eth_ipv4_view p = record {
//!   hardware_type = 1;
//!   protocol_type = 2048;
//!   operation = p.operation.0;
//!   sender_hardware = p.sender_mac;
//!   sender_protocol = p.sender_ipv4;
//!   target_hardware = p.target_mac;
//!   target_protocol = p.target_ipv4;
//! }
//! ```
//!
//! Uses: [`ArpValue`](crate::definitions::ether_base#def.ArpValue)
//!
//! <a id="def.eth_ipv4_bytes"></a>
//!
//! ## `eth_ipv4_bytes`
//!
//! Its 28 bytes: hardware type 1, protocol type 2048, sizes 6 and 4, the operation, and the four addresses.
//!
//! ```text
//! abbrev pub eth_ipv4_bytes : ArpEthIpv4Packet → List ℕ
//! eth_ipv4_bytes p = spelled 8 (1 * 2 ^ 48 + 2048 * 2 ^ 32 + 6 * 2 ^ 24 + 4 * 2 ^ 16 + p.operation.0) ++ p.sender_mac
//!     ++ p.sender_ipv4 ++ p.target_mac ++ p.target_ipv4
//! ```
//!
//! Uses: [`spelled`](crate::definitions::ether_base#def.spelled)
//!
//! <a id="def.RefusesEthIpv4"></a>
//!
//! ## `RefusesEthIpv4`
//!
//! The rows for a value that is not of Ethernet and IPv4, each with what the value has instead.
//!
//! ```text
//! pub data RefusesEthIpv4 (a : ArpValue) : ArpEthIpv4FromError → Type 0 where
//!   hardware_type : (a.hardware_type ≡ 1 → ⊥)
//!       → RefusesEthIpv4 a (NonMatchingHwType (record { 0 = a.hardware_type }))
//!   protocol_type : a.hardware_type ≡ 1 → (a.protocol_type ≡ 2048 → ⊥)
//!       → RefusesEthIpv4 a (NonMatchingProtocolType (record { 0 = a.protocol_type }))
//!   hardware_size : a.hardware_type ≡ 1 → a.protocol_type ≡ 2048 → (length a.sender_hardware ≡ 6 → ⊥)
//!       → RefusesEthIpv4 a (NonMatchingHwAddrSize (length a.sender_hardware))
//!   protocol_size : a.hardware_type ≡ 1 → a.protocol_type ≡ 2048 → length a.sender_hardware ≡ 6
//!       → (length a.sender_protocol ≡ 4 → ⊥)
//!       → RefusesEthIpv4 a (NonMatchingProtoAddrSize (length a.sender_protocol))
//! ```
//!
//! Uses: [`ArpValue`](crate::definitions::ether_base#def.ArpValue), `NonMatchingHwType` (`ArpEthIpv4FromError::NonMatchingHwType`), `NonMatchingProtocolType` (`ArpEthIpv4FromError::NonMatchingProtocolType`), `NonMatchingHwAddrSize` (`ArpEthIpv4FromError::NonMatchingHwAddrSize`), `NonMatchingProtoAddrSize` (`ArpEthIpv4FromError::NonMatchingProtoAddrSize`)
//!
//! <a id="def.AcceptsEthIpv4"></a>
//!
//! ## `AcceptsEthIpv4`
//!
//! No row holds.
//!
//! ```text
//! abbrev pub AcceptsEthIpv4 : ArpValue → Type 0
//! AcceptsEthIpv4 a = (e : ArpEthIpv4FromError) → RefusesEthIpv4 a e → ⊥
//! ```
//!
//! Uses: [`ArpValue`](crate::definitions::ether_base#def.ArpValue), [`RefusesEthIpv4`](#def.RefusesEthIpv4)
//!
//! <a id="def.ReadsEthIpv4"></a>
//!
//! ## `ReadsEthIpv4`
//!
//! A value is read as a packet of Ethernet and IPv4.
//!
//! ```text
//! pub record ReadsEthIpv4 (a : ArpValue) (p : ArpEthIpv4Packet) : Type 0 where
//!   pub accepted : AcceptsEthIpv4 a
//!   pub value : a ≡ eth_ipv4_view p
//! ```
//!
//! Uses: [`ArpValue`](crate::definitions::ether_base#def.ArpValue), [`AcceptsEthIpv4`](#def.AcceptsEthIpv4), [`eth_ipv4_view`](#def.eth_ipv4_view)
//!
//! <a id="def.AnswersEthIpv4"></a>
//!
//! ## `AnswersEthIpv4`
//!
//! What reading a value returns.
//!
//! ```text
//! abbrev pub AnswersEthIpv4 : ArpValue → Result ArpEthIpv4Packet ArpEthIpv4FromError → Type 0
//! AnswersEthIpv4 a result = MatchResult result (ReadsEthIpv4 a) (RefusesEthIpv4 a)
//! ```
//!
//! Uses: [`ArpValue`](crate::definitions::ether_base#def.ArpValue), [`ReadsEthIpv4`](#def.ReadsEthIpv4), [`RefusesEthIpv4`](#def.RefusesEthIpv4)
//!
