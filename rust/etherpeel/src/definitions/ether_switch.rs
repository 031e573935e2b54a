//! The forwarding of a bridge with VLANs.
//!
//! # Ports
//!
//! Sets of ports, as the ports that they have.
//!
//! <a id="def.has"></a>
//!
//! ## `has`
//!
//! Whether a set has a port.
//!
//! ```text
//! abbrev pub has : PortSet → (port : ℕ) → Bool
//! has set port = nat_eq (slice_index set.words (port / 64) / 2 ^ (port % 64) % 2) 1
//! ```
//!
//! <a id="def.IsSet"></a>
//!
//! ## `IsSet`
//!
//! A set that has the ports for which this holds.
//!
//! ```text
//! abbrev pub IsSet : PortSet → (ℕ → Bool) → Type 0
//! IsSet set holds = (port : ℕ) → port < 256 → has set port ≡ holds port
//! ```
//!
//! Uses: [`has`](#def.has)
//!
//! # VLANs
//!
//! The VLANs of a bridge.
//!
//! <a id="def.no_ports"></a>
//!
//! ## `no_ports`
//!
//! The empty set.
//!
//! ```text
//! abbrev pub no_ports : PortSet
//! no_ports = record { words = replicate 4 0 }
//! ```
//!
//! <a id="def.no_vlan"></a>
//!
//! ## `no_vlan`
//!
//! A VLAN without ports.
//!
//! ```text
//! abbrev pub no_vlan : VlanConfig
//! no_vlan = record { members = no_ports; untagged = no_ports; first_bucket = 0; buckets = 0 }
//! ```
//!
//! Uses: [`no_ports`](#def.no_ports)
//!
//! <a id="def.row_of"></a>
//!
//! ## `row_of`
//!
//! The configuration of a VLAN.
//!
//! ```text
//! abbrev pub row_of : List VlanConfig → (vid : ℕ) → VlanConfig
//! row_of vlans vid = slice_index_or vlans vid no_vlan
//! ```
//!
//! Uses: [`no_vlan`](#def.no_vlan)
//!
//! <a id="def.are_in_order"></a>
//!
//! ## `are_in_order`
//!
//! Whether the part of each VLAN that has one begins at the end of those before it, or later; and the first one at
//! `end`, or later.
//!
//! ```text
//! abbrev pub are_in_order : (end : ℕ) → List VlanConfig → Bool
//! are_in_order end [] = true
//! are_in_order end (vlan ∷ vlans) =
//!     if nat_eq vlan.buckets 0 then are_in_order end vlans
//!     else (nat_le end vlan.first_bucket && are_in_order (vlan.first_bucket + vlan.buckets) vlans)
//! ```
//!
//! # SipHash
//!
//! SipHash-1-3 (Aumasson and Bernstein, "SipHash: a fast short-input PRF", 2012, sections 2.1 to 2.4).
//!
//! <a id="def.plus"></a>
//!
//! ## `plus`
//!
//! The sum of two words.
//!
//! ```text
//! abbrev pub plus : ℕ → ℕ → ℕ
//! plus m n = (m + n) % 2 ^ 64
//! ```
//!
//! <a id="def.initial"></a>
//!
//! ## `initial`
//!
//! The state for a key of two words (2.2, step 1): the constants spell "somepseudorandomlygeneratedbytes".
//!
//! ```text
//! abbrev pub initial : (key : List ℕ) → State
//! initial key = record {
//!   a = bit_xor (slice_index key 0) 0x736F6D6570736575;
//!   b = bit_xor (slice_index key 1) 0x646F72616E646F6D;
//!   c = bit_xor (slice_index key 0) 0x6C7967656E657261;
//!   d = bit_xor (slice_index key 1) 0x7465646279746573;
//! }
//! ```
//!
//! Uses: [`State`](#def.State)
//!
//! <a id="def.half_round"></a>
//!
//! ## `half_round`
//!
//! SipRound (2.2, figure 2.1), in two halves.
//!
//! ```text
//! abbrev pub half_round : State → State
//! half_round s =
//!     let a = plus s.a s.b in
//!     let c = plus s.c s.d in
//!     record {
//!       a = rotate_left w64 a 32;
//!       b = bit_xor (rotate_left w64 s.b 13) a;
//!       c = c;
//!       d = bit_xor (rotate_left w64 s.d 16) c;
//!     }
//! ```
//!
//! Uses: [`State`](#def.State), [`plus`](#def.plus)
//!
//! <a id="def.round"></a>
//!
//! ## `round`
//!
//! ```text
//! abbrev pub round : State → State
//! round s =
//!     let t = half_round s in
//!     let a = plus t.a t.d in
//!     let c = plus t.c t.b in
//!     record {
//!       a = a;
//!       b = bit_xor (rotate_left w64 t.b 17) c;
//!       c = rotate_left w64 c 32;
//!       d = bit_xor (rotate_left w64 t.d 21) a;
//!     }
//! ```
//!
//! Uses: [`State`](#def.State), [`half_round`](#def.half_round), [`plus`](#def.plus)
//!
//! <a id="def.compressed"></a>
//!
//! ## `compressed`
//!
//! One round with a word (2.2, step 2).
//!
//! ```text
//! abbrev pub compressed : (word : ℕ) → State → State
//! compressed word s =
//!     let t = round (record s { d = bit_xor s.d word }) in
//!     record t { a = bit_xor t.a word }
//! ```
//!
//! Uses: [`State`](#def.State), [`round`](#def.round)
//!
//! <a id="def.finished"></a>
//!
//! ## `finished`
//!
//! Three rounds at the end (2.2, step 3).
//!
//! ```text
//! abbrev pub finished : State → ℕ
//! finished s =
//!     let t = round (round (round (record s { c = bit_xor s.c 0xFF }))) in
//!     bit_xor (bit_xor (bit_xor t.a t.b) t.c) t.d
//! ```
//!
//! Uses: [`State`](#def.State), [`round`](#def.round)
//!
//! <a id="def.sip_hash"></a>
//!
//! ## `sip_hash`
//!
//! The hash of a message of one word.
//!
//! ```text
//! abbrev pub sip_hash : (key : List ℕ) → (word : ℕ) → ℕ
//! sip_hash key word = finished (compressed word (initial key))
//! ```
//!
//! Uses: [`finished`](#def.finished), [`compressed`](#def.compressed), [`initial`](#def.initial)
//!
//! # Bridge kinds
//!
//! Kinds of bridges: the tags that they read and write, and the addresses to which they forward no frame.
//!
//! <a id="def.tpid_of"></a>
//!
//! ## `tpid_of`
//!
//! The ether type that announces a customer tag or a service tag (IEEE 802.1Q, table 9-1).
//!
//! ```text
//! abbrev pub tpid_of : BridgeKind → ℕ
//! tpid_of Customer = 0x8100
//! tpid_of Provider = 0x88A8
//! ```
//!
//! Uses: `Customer` (`BridgeKind::Customer`), `Provider` (`BridgeKind::Provider`)
//!
//! <a id="def.reserved_digits"></a>
//!
//! ## `reserved_digits`
//!
//! The last hexadecimal digits of the reserved addresses, from 01-80-C2-00-00-00 on (IEEE 802.1Q, tables 8-1 and 8-2).
//!
//! ```text
//! abbrev pub reserved_digits : BridgeKind → List ℕ
//! reserved_digits Customer = 0 ∷ 1 ∷ 2 ∷ 3 ∷ 4 ∷ 5 ∷ 6 ∷ 7 ∷ 8 ∷ 9 ∷ 0xA ∷ 0xB ∷ 0xC ∷ 0xD ∷ 0xE ∷ 0xF ∷ []
//! reserved_digits Provider = 1 ∷ 2 ∷ 3 ∷ 4 ∷ 5 ∷ 6 ∷ 7 ∷ 8 ∷ 9 ∷ 0xA ∷ 0xE ∷ []
//! ```
//!
//! Uses: `Customer` (`BridgeKind::Customer`), `Provider` (`BridgeKind::Provider`)
//!
//! <a id="def.is_reserved"></a>
//!
//! ## `is_reserved`
//!
//! Whether a bridge of this kind forwards no frame to the address.
//!
//! ```text
//! abbrev pub is_reserved : BridgeKind → (address : ℕ) → Bool
//! is_reserved kind address = list_any (λ digit. nat_eq address (0x0180C2000000 + digit)) (reserved_digits kind)
//! ```
//!
//! Uses: [`reserved_digits`](#def.reserved_digits)
//!
//! # Arrivals
//!
//! What a bridge reads of a frame that comes in, and why a port refuses it.
//!
//! <a id="def.Front"></a>
//!
//! ## `Front`
//!
//! The header of a frame, and the tag after it if that is of the bridge's kind.
//!
//! ```text
//! pub record Front : Type 0 where
//!   pub link : Ethernet2Value
//!   pub tag : Option VlanValue
//! ```
//!
//! Uses: [`Ethernet2Value`](crate::definitions::ether_base#def.Ethernet2Value), [`VlanValue`](crate::definitions::ether_base#def.VlanValue)
//!
//! <a id="def.tagged_front"></a>
//!
//! ## `tagged_front`
//!
//! The front of a frame whose header announces a tag.
//!
//! ```text
//! abbrev pub tagged_front : Ethernet2Value → Option VlanValue → Result Front Discarded
//! tagged_front e None = Err CutTag
//! tagged_front e (Some tag) = Ok (record { link = e; tag = Some tag })
//! ```
//!
//! Uses: [`Ethernet2Value`](crate::definitions::ether_base#def.Ethernet2Value), [`VlanValue`](crate::definitions::ether_base#def.VlanValue), [`Front`](#def.Front), `CutTag` (`Discarded::CutTag`)
//!
//! <a id="def.front_in"></a>
//!
//! ## `front_in`
//!
//! > `tagged_front`: the front of a frame whose header announces a tag
//!
//! .. by its header, and a tag directly after it.
//!
//! ```text
//! abbrev pub front_in : BridgeKind → Option Ethernet2Value → Option VlanValue → Result Front Discarded
//! front_in kind None tag = Err NoHeader
//! front_in kind (Some e) tag =
//!     if nat_eq e.ether_type (tpid_of kind) then tagged_front e tag else Ok (record { link = e; tag = None })
//! ```
//!
//! Uses: [`Ethernet2Value`](crate::definitions::ether_base#def.Ethernet2Value), [`VlanValue`](crate::definitions::ether_base#def.VlanValue), [`Front`](#def.Front), `NoHeader` (`Discarded::NoHeader`), [`tpid_of`](#def.tpid_of), [`tagged_front`](#def.tagged_front)
//!
//! <a id="def.front_of"></a>
//!
//! ## `front_of`
//!
//! The front of a frame with these headers.
//!
//! ```text
//! abbrev pub front_of : BridgeKind → List Header → Result Front Discarded
//! front_of kind hs = front_in kind (first_ethernet2 hs) (outer_tag hs)
//! ```
//!
//! Uses: [`Header`](crate::definitions::ether_base#def.Header), [`Front`](#def.Front), [`front_in`](#def.front_in), [`first_ethernet2`](crate::definitions::ether_packet#def.first_ethernet2), [`outer_tag`](crate::definitions::ether_packet#def.outer_tag)
//!
//! <a id="def.tagging_by"></a>
//!
//! ## `tagging_by`
//!
//! How a frame names its VLAN (IEEE 802.1Q, 3).
//!
//! ```text
//! abbrev pub tagging_by : Option VlanValue → Tagging
//! tagging_by None = Untagged
//! tagging_by (Some tag) = if nat_eq tag.vid 0 then PriorityTagged else VlanTagged
//! ```
//!
//! Uses: [`VlanValue`](crate::definitions::ether_base#def.VlanValue), [`Tagging`](#def.Tagging), [`Untagged`](#def.Tagging), [`PriorityTagged`](#def.Tagging), [`VlanTagged`](#def.Tagging)
//!
//! <a id="def.tagging_of"></a>
//!
//! ## `tagging_of`
//!
//! ```text
//! abbrev pub tagging_of : Front → Tagging
//! tagging_of f = tagging_by f.tag
//! ```
//!
//! Uses: [`Front`](#def.Front), [`Tagging`](#def.Tagging), [`tagging_by`](#def.tagging_by)
//!
//! <a id="def.admits"></a>
//!
//! ## `admits`
//!
//! Whether a port accepts such frames (IEEE 802.1Q, 6.9).
//!
//! ```text
//! abbrev pub admits : AcceptableFrames → Tagging → Bool
//! admits All t = true
//! admits OnlyVlanTagged VlanTagged = true
//! admits OnlyVlanTagged t = false
//! admits OnlyUntaggedAndPriorityTagged VlanTagged = false
//! admits OnlyUntaggedAndPriorityTagged t = true
//! admits OnlyUntagged Untagged = true
//! admits OnlyUntagged t = false
//! ```
//!
//! Uses: [`Tagging`](#def.Tagging), `All` (`AcceptableFrames::All`), `OnlyVlanTagged` (`AcceptableFrames::OnlyVlanTagged`), [`VlanTagged`](#def.Tagging), `OnlyUntaggedAndPriorityTagged` (`AcceptableFrames::OnlyUntaggedAndPriorityTagged`), `OnlyUntagged` (`AcceptableFrames::OnlyUntagged`), [`Untagged`](#def.Tagging)
//!
//! <a id="def.vlan_by"></a>
//!
//! ## `vlan_by`
//!
//! The VLAN of the tag, or else that of the port (IEEE 802.1Q, 6.9); 4095 is not a VLAN (IEEE 802.1Q, table 9-2).
//!
//! ```text
//! abbrev pub vlan_by : (pvid : ℕ) → Option VlanValue → Option ℕ
//! vlan_by pvid None = Some pvid
//! vlan_by pvid (Some tag) =
//!     if nat_eq tag.vid 0 then Some pvid else (if nat_eq tag.vid 4095 then None else Some tag.vid)
//! ```
//!
//! Uses: [`VlanValue`](crate::definitions::ether_base#def.VlanValue)
//!
//! <a id="def.vlan_of"></a>
//!
//! ## `vlan_of`
//!
//! ```text
//! abbrev pub vlan_of : (pvid : ℕ) → Front → Option ℕ
//! vlan_of pvid f = vlan_by pvid f.tag
//! ```
//!
//! Uses: [`Front`](#def.Front), [`vlan_by`](#def.vlan_by)
//!
//! <a id="def.priority_by"></a>
//!
//! ## `priority_by`
//!
//! The priority in the tag, or else that of the port.
//!
//! ```text
//! abbrev pub priority_by : (default_priority : ℕ) → Option VlanValue → ℕ
//! priority_by p None = p
//! priority_by p (Some tag) = tag.pcp
//! ```
//!
//! Uses: [`VlanValue`](crate::definitions::ether_base#def.VlanValue)
//!
//! <a id="def.priority_of"></a>
//!
//! ## `priority_of`
//!
//! ```text
//! abbrev pub priority_of : (default_priority : ℕ) → Front → ℕ
//! priority_of p f = priority_by p f.tag
//! ```
//!
//! Uses: [`Front`](#def.Front), [`priority_by`](#def.priority_by)
//!
//! <a id="def.drop_eligible_by"></a>
//!
//! ## `drop_eligible_by`
//!
//! Whether the tag says that the frame may be dropped first.
//!
//! ```text
//! abbrev pub drop_eligible_by : Option VlanValue → Bool
//! drop_eligible_by None = false
//! drop_eligible_by (Some tag) = nat_eq tag.dei 1
//! ```
//!
//! Uses: [`VlanValue`](crate::definitions::ether_base#def.VlanValue)
//!
//! <a id="def.is_drop_eligible"></a>
//!
//! ## `is_drop_eligible`
//!
//! ```text
//! abbrev pub is_drop_eligible : Front → Bool
//! is_drop_eligible f = drop_eligible_by f.tag
//! ```
//!
//! Uses: [`Front`](#def.Front), [`drop_eligible_by`](#def.drop_eligible_by)
//!
//! <a id="def.is_group"></a>
//!
//! ## `is_group`
//!
//! Whether the address is a group address: the lowest bit of its first byte is 1 (IEEE 802.3, 3.2.3).
//!
//! ```text
//! abbrev pub is_group : (address : ℕ) → Bool
//! is_group address = nat_eq (address / 2 ^ 40 % 2) 1
//! ```
//!
//! <a id="def.is_station"></a>
//!
//! ## `is_station`
//!
//! Whether the address is that of a single station.
//!
//! ```text
//! abbrev pub is_station : (address : ℕ) → Bool
//! is_station address = not (is_group address) && not (nat_eq address 0)
//! ```
//!
//! Uses: [`is_group`](#def.is_group)
//!
//! <a id="def.first_reason"></a>
//!
//! ## `first_reason`
//!
//! The first reason that applies.
//!
//! ```text
//! abbrev pub first_reason : List (Bool × Discarded) → Option Discarded
//! first_reason [] = None
//! first_reason (row ∷ rows) = if row.0 then Some row.1 else first_reason rows
//! ```
//!
//! <a id="def.second_tag_by"></a>
//!
//! ## `second_tag_by`
//!
//! Whether the tag is followed by another one of the bridge's kind.
//!
//! ```text
//! abbrev pub second_tag_by : BridgeKind → Option VlanValue → Bool
//! second_tag_by kind None = false
//! second_tag_by kind (Some tag) = nat_eq tag.ether_type (tpid_of kind)
//! ```
//!
//! Uses: [`VlanValue`](crate::definitions::ether_base#def.VlanValue), [`tpid_of`](#def.tpid_of)
//!
//! <a id="def.has_second_tag"></a>
//!
//! ## `has_second_tag`
//!
//! ```text
//! abbrev pub has_second_tag : BridgeKind → Front → Bool
//! has_second_tag kind f = second_tag_by kind f.tag
//! ```
//!
//! Uses: [`Front`](#def.Front), [`second_tag_by`](#def.second_tag_by)
//!
//! <a id="def.refusal"></a>
//!
//! ## `refusal`
//!
//! Why a port refuses a frame, if it does (IEEE 802.1Q, 6.9 and 8.6.2).
//!
//! ```text
//! abbrev pub refusal : BridgeKind → PortConfig → (is_member : Bool) → Front → Option Discarded
//! refusal kind port is_member f = first_reason (
//!     (not (admits port.frame_types (tagging_of f)), FrameType) ∷
//!     (port.refuses_second_tag && has_second_tag kind f, SecondTag) ∷
//!     (port.ingress_filtering && not is_member, NotAMember) ∷
//!     [])
//! ```
//!
//! Uses: [`Front`](#def.Front), [`first_reason`](#def.first_reason), [`admits`](#def.admits), [`tagging_of`](#def.tagging_of), `FrameType` (`Discarded::FrameType`), [`has_second_tag`](#def.has_second_tag), `SecondTag` (`Discarded::SecondTag`), `NotAMember` (`Discarded::NotAMember`)
//!
//! <a id="def.arrived"></a>
//!
//! ## `arrived`
//!
//! What is read of a frame of a VLAN.
//!
//! ```text
//! abbrev pub arrived : PortConfig → Front → (vid : ℕ) → Arrived
//! arrived port f vid = record {
//!   vlan = vid;
//!   priority = priority_of port.default_priority f;
//!   drop_eligible = is_drop_eligible f;
//!   source = f.link.source;
//!   destination = f.link.destination;
//! }
//! ```
//!
//! Uses: [`Front`](#def.Front), [`Arrived`](#def.Arrived), [`priority_of`](#def.priority_of), [`is_drop_eligible`](#def.is_drop_eligible)
//!
//! <a id="def.arrival_in"></a>
//!
//! ## `arrival_in`
//!
//! ```text
//! abbrev pub arrival_in : PortConfig → Front → Option ℕ → Result Arrived Discarded
//! arrival_in port f None = Err ReservedIdentifier
//! arrival_in port f (Some vid) = if is_station f.link.source then Ok (arrived port f vid) else Err Source
//! ```
//!
//! Uses: [`Front`](#def.Front), [`Arrived`](#def.Arrived), `ReservedIdentifier` (`Discarded::ReservedIdentifier`), [`is_station`](#def.is_station), [`arrived`](#def.arrived), `Source` (`Discarded::Source`)
//!
//! # Stations
//!
//! The table of stations: what it holds after a sighting, and what it says of a station (IEEE 802.1Q, 8.7 and 8.8.3).
//!
//! **A bucket**
//!
//! <a id="def.no_sighting"></a>
//!
//! ## `no_sighting`
//!
//! A free place; its address is not one of a station.
//!
//! ```text
//! abbrev pub no_sighting : Sighting
//! no_sighting = record { address = 0; time = 0; port = 0 }
//! ```
//!
//! <a id="def.no_sightings"></a>
//!
//! ## `no_sightings`
//!
//! A bucket whose places are all free.
//!
//! ```text
//! abbrev pub no_sightings : StationBucket
//! no_sightings = record { first = no_sighting; second = no_sighting; third = no_sighting; fourth = no_sighting }
//! ```
//!
//! Uses: [`no_sighting`](#def.no_sighting)
//!
//! <a id="def.places"></a>
//!
//! ## `places`
//!
//! The places of a bucket.
//!
//! ```text
//! abbrev pub places : StationBucket → List Sighting
//! places b = b.first ∷ b.second ∷ b.third ∷ b.fourth ∷ []
//! ```
//!
//! <a id="def.with_place"></a>
//!
//! ## `with_place`
//!
//! The bucket with a sighting in the place of this number.
//!
//! ```text
//! abbrev pub with_place : (n : ℕ) → Sighting → StationBucket → StationBucket
//! with_place n s b =
//!     if nat_eq n 0 then record b { first = s }
//!     else (if nat_eq n 1 then record b { second = s }
//!     else (if nat_eq n 2 then record b { third = s }
//!     else record b { fourth = s }))
//! ```
//!
//! <a id="def.is_of"></a>
//!
//! ## `is_of`
//!
//! Whether a sighting is one of a station.
//!
//! ```text
//! abbrev pub is_of : (address : ℕ) → Sighting → Bool
//! is_of address s = nat_eq s.address address
//! ```
//!
//! <a id="def.is_live"></a>
//!
//! ## `is_live`
//!
//! Whether a sighting is one of a station, and at most the ageing time ago (IEEE 802.1Q, 8.8.3).
//!
//! ```text
//! abbrev pub is_live : (ageing_time now : ℕ) → Sighting → Bool
//! is_live ageing_time now s = not (nat_eq s.address 0) && nat_le (now - s.time) ageing_time
//! ```
//!
//! <a id="def.is_free"></a>
//!
//! ## `is_free`
//!
//! ```text
//! abbrev pub is_free : (ageing_time now : ℕ) → Sighting → Bool
//! is_free ageing_time now s = not (is_live ageing_time now s)
//! ```
//!
//! Uses: [`is_live`](#def.is_live)
//!
//! <a id="def.count"></a>
//!
//! ## `count`
//!
//! How many of these sightings pass.
//!
//! ```text
//! abbrev pub count : (Sighting → Bool) → List Sighting → ℕ
//! count test l = sum_by (λ s. bit (test s)) l
//! ```
//!
//! Uses: [`bit`](crate::definitions::ether_base#def.bit)
//!
//! <a id="def.at_port"></a>
//!
//! ## `at_port`
//!
//! How many of these sightings are at a port.
//!
//! ```text
//! abbrev pub at_port : (port : ℕ) → List Sighting → ℕ
//! at_port port l = count (λ s. nat_eq s.port port) l
//! ```
//!
//! Uses: [`count`](#def.count)
//!
//! <a id="def.leaves_before"></a>
//!
//! ## `leaves_before`
//!
//! Of these sightings, whether s leaves before t: there are more at its port, or as many, and it is older.
//!
//! ```text
//! abbrev pub leaves_before : List Sighting → (s t : Sighting) → Bool
//! leaves_before l s t =
//!     nat_lt (at_port t.port l) (at_port s.port l)
//!     || (nat_eq (at_port t.port l) (at_port s.port l) && nat_lt s.time t.time)
//! ```
//!
//! Uses: [`at_port`](#def.at_port)
//!
//! <a id="def.first_to_leave"></a>
//!
//! ## `first_to_leave`
//!
//! The place m or n, whichever sighting leaves first.
//!
//! ```text
//! abbrev pub first_to_leave : (all bucket : List Sighting) → (m n : ℕ) → ℕ
//! first_to_leave all bucket m n =
//!     if leaves_before all (slice_index_or bucket n no_sighting) (slice_index_or bucket m no_sighting) then n else m
//! ```
//!
//! Uses: [`leaves_before`](#def.leaves_before), [`no_sighting`](#def.no_sighting)
//!
//! <a id="def.leaving"></a>
//!
//! ## `leaving`
//!
//! The place of the sighting that leaves for another one.
//!
//! ```text
//! abbrev pub leaving : Sighting → List Sighting → ℕ
//! leaving s bucket =
//!     let all = s ∷ bucket in
//!     first_to_leave all bucket (first_to_leave all bucket (first_to_leave all bucket 0 1) 2) 3
//! ```
//!
//! Uses: [`first_to_leave`](#def.first_to_leave)
//!
//! <a id="def.first_place"></a>
//!
//! ## `first_place`
//!
//! The number of the first place that passes.
//!
//! ```text
//! abbrev pub first_place : (Sighting → Bool) → List Sighting → Option ℕ
//! first_place test [] = None
//! first_place test (s ∷ bucket) = if test s then Some 0 else option_map suc (first_place test bucket)
//! ```
//!
//! <a id="def.place_for"></a>
//!
//! ## `place_for`
//!
//! The place for a sighting: that of its station; or else the first free one, where a sighting has aged, too; or else
//! that of the sighting that leaves.
//!
//! ```text
//! abbrev pub place_for : (ageing_time : ℕ) → Sighting → List Sighting → ℕ
//! place_for ageing_time s bucket =
//!     unwrap_or (first_place (is_of s.address) bucket)
//!     (unwrap_or (first_place (is_free ageing_time s.time) bucket) (leaving s bucket))
//! ```
//!
//! Uses: [`first_place`](#def.first_place), [`is_of`](#def.is_of), [`is_free`](#def.is_free), [`leaving`](#def.leaving)
//!
//! **The buckets of a station**
//!
//! <a id="def.hash_of"></a>
//!
//! ## `hash_of`
//!
//! The two buckets, of n, for an address: one of the first half of them and one of the second half, by bits 0 to 31 and
//! by bits 32 to 63 of its hash. That is the hash of the six bytes of the address, the last one first (SipHash, 2.2,
//! step 2: their number is in the highest byte of the word).
//!
//! ```text
//! abbrev pub hash_of : (key : List ℕ) → (address : ℕ) → ℕ
//! hash_of key address = sip_hash key (6 * 2 ^ 56 + address)
//! ```
//!
//! Uses: [`sip_hash`](#def.sip_hash)
//!
//! <a id="def.scaled"></a>
//!
//! ## `scaled`
//!
//! ```text
//! abbrev pub scaled : (n half : ℕ) → ℕ
//! scaled n half = half * (n - n / 2) / 2 ^ 32
//! ```
//!
//! <a id="def.first_bucket"></a>
//!
//! ## `first_bucket`
//!
//! ```text
//! abbrev pub first_bucket : (key : List ℕ) → VlanConfig → (address : ℕ) → ℕ
//! first_bucket key vlan address = vlan.first_bucket + scaled vlan.buckets (hash_of key address % 2 ^ 32)
//! ```
//!
//! Uses: [`scaled`](#def.scaled), [`hash_of`](#def.hash_of)
//!
//! <a id="def.second_bucket"></a>
//!
//! ## `second_bucket`
//!
//! ```text
//! abbrev pub second_bucket : (key : List ℕ) → VlanConfig → (address : ℕ) → ℕ
//! second_bucket key vlan address =
//!     vlan.first_bucket + (vlan.buckets / 2 + scaled vlan.buckets (hash_of key address / 2 ^ 32 % 2 ^ 32))
//! ```
//!
//! Uses: [`scaled`](#def.scaled), [`hash_of`](#def.hash_of)
//!
//! <a id="def.has_part"></a>
//!
//! ## `has_part`
//!
//! Whether a table of n buckets has those of a VLAN.
//!
//! ```text
//! abbrev pub has_part : (n : ℕ) → VlanConfig → Bool
//! has_part n vlan = nat_lt 0 vlan.buckets && nat_le (vlan.first_bucket + vlan.buckets) n
//! ```
//!
//! <a id="def.places_at"></a>
//!
//! ## `places_at`
//!
//! The places of the bucket at an index.
//!
//! ```text
//! abbrev pub places_at : List StationBucket → ℕ → List Sighting
//! places_at table at = places (slice_index_or table at no_sightings)
//! ```
//!
//! Uses: [`places`](#def.places), [`no_sightings`](#def.no_sightings)
//!
//! **Learning**
//!
//! <a id="def.bucket_for"></a>
//!
//! ## `bucket_for`
//!
//! Of two buckets the one for a sighting: the one in which its station is, or else the one with fewer live sightings.
//!
//! ```text
//! abbrev pub bucket_for : (ageing_time : ℕ) → Sighting → (first second : List Sighting) → (m n : ℕ) → ℕ
//! bucket_for ageing_time s first second m n =
//!     if list_any (is_of s.address) first then m
//!     else (if list_any (is_of s.address) second then n
//!     else (if nat_lt (count (is_live ageing_time s.time) second) (count (is_live ageing_time s.time) first) then n
//!     else m))
//! ```
//!
//! Uses: [`is_of`](#def.is_of), [`count`](#def.count), [`is_live`](#def.is_live)
//!
//! <a id="def.put_at"></a>
//!
//! ## `put_at`
//!
//! The table with a sighting in the bucket at an index.
//!
//! ```text
//! abbrev pub put_at : (ageing_time : ℕ) → Sighting → List StationBucket → ℕ → List StationBucket
//! put_at ageing_time s table at =
//!     let bucket = slice_index_or table at no_sightings in
//!     slice_set table at (with_place (place_for ageing_time s (places bucket)) s bucket)
//! ```
//!
//! Uses: [`no_sightings`](#def.no_sightings), [`with_place`](#def.with_place), [`place_for`](#def.place_for), [`places`](#def.places)
//!
//! <a id="def.learned"></a>
//!
//! ## `learned`
//!
//! The table after a sighting of a station in a VLAN.
//!
//! ```text
//! abbrev pub learned : (key : List ℕ) → (ageing_time : ℕ) → VlanConfig → Sighting → List StationBucket
//!     → List StationBucket
//! learned key ageing_time vlan s table =
//!     let m = first_bucket key vlan s.address in
//!     let n = second_bucket key vlan s.address in
//!     if has_part (length table) vlan
//!     then put_at ageing_time s table (bucket_for ageing_time s (places_at table m) (places_at table n) m n)
//!     else table
//! ```
//!
//! Uses: [`first_bucket`](#def.first_bucket), [`second_bucket`](#def.second_bucket), [`has_part`](#def.has_part), [`put_at`](#def.put_at), [`bucket_for`](#def.bucket_for), [`places_at`](#def.places_at)
//!
//! **Finding**
//!
//! <a id="def.sighting_of"></a>
//!
//! ## `sighting_of`
//!
//! The sighting of a station in a VLAN.
//!
//! ```text
//! abbrev pub sighting_of : (key : List ℕ) → VlanConfig → (address : ℕ) → List StationBucket → Option Sighting
//! sighting_of key vlan address table =
//!     if has_part (length table) vlan && is_station address
//!     then find (is_of address)
//!     (places_at table (first_bucket key vlan address) ++ places_at table (second_bucket key vlan address))
//!     else None
//! ```
//!
//! Uses: [`has_part`](#def.has_part), [`is_station`](#def.is_station), [`is_of`](#def.is_of), [`places_at`](#def.places_at), [`first_bucket`](#def.first_bucket), [`second_bucket`](#def.second_bucket)
//!
//! <a id="def.port_at"></a>
//!
//! ## `port_at`
//!
//! The port of a sighting, if that was at most the ageing time ago.
//!
//! ```text
//! abbrev pub port_at : (ageing_time now : ℕ) → Sighting → Option ℕ
//! port_at ageing_time now s = if nat_le (now - s.time) ageing_time then Some s.port else None
//! ```
//!
//! <a id="def.known_port"></a>
//!
//! ## `known_port`
//!
//! The port at which a station of a VLAN is known to be.
//!
//! ```text
//! abbrev pub known_port : (key : List ℕ) → (ageing_time now : ℕ) → VlanConfig → (address : ℕ) → List StationBucket
//!     → Option ℕ
//! known_port key ageing_time now vlan address table =
//!     option_and_then (port_at ageing_time now) (sighting_of key vlan address table)
//! ```
//!
//! Uses: [`port_at`](#def.port_at), [`sighting_of`](#def.sighting_of)
//!
//! **Forgetting**
//!
//! <a id="def.is_forgotten"></a>
//!
//! ## `is_forgotten`
//!
//! Whether a sighting is forgotten.
//!
//! ```text
//! abbrev pub is_forgotten : Forgotten → Sighting → Bool
//! is_forgotten All s = true
//! is_forgotten (Port port) s = nat_eq s.port port
//! is_forgotten (Station address) s = is_of (number address) s
//! ```
//!
//! Uses: `All` (`Forgotten::All`), `Port` (`Forgotten::Port`), `Station` (`Forgotten::Station`), [`is_of`](#def.is_of), [`number`](crate::definitions::ether_base#def.number)
//!
//! <a id="def.unless_forgotten"></a>
//!
//! ## `unless_forgotten`
//!
//! ```text
//! abbrev pub unless_forgotten : Forgotten → Sighting → Sighting
//! unless_forgotten which s = if is_forgotten which s then no_sighting else s
//! ```
//!
//! Uses: [`is_forgotten`](#def.is_forgotten), [`no_sighting`](#def.no_sighting)
//!
//! <a id="def.without"></a>
//!
//! ## `without`
//!
//! A bucket without the sightings that are forgotten.
//!
//! ```text
//! abbrev pub without : Forgotten → StationBucket → StationBucket
//! without which b = record {
//!   first = unless_forgotten which b.first;
//!   second = unless_forgotten which b.second;
//!   third = unless_forgotten which b.third;
//!   fourth = unless_forgotten which b.fourth;
//! }
//! ```
//!
//! Uses: [`unless_forgotten`](#def.unless_forgotten)
//!
//! # Relaying
//!
//! Where a bridge sends a frame (IEEE 802.1Q, 8.6 and 8.8), and what it learns from it.
//!
//! <a id="def.Settings"></a>
//!
//! ## `Settings`
//!
//! The settings of a bridge, as its fields.
//!
//! ```text
//! pub record Settings : Type 0 where
//!   pub kind : BridgeKind
//!   pub ageing_time : ℕ
//!   pub key : List ℕ
//!   pub ports : PortStates
//!   pub vlans : List VlanConfig
//!   pub entries : List StaticEntry
//!   pub forwarded : ℕ
//! ```
//!
//! <a id="def.settings_of"></a>
//!
//! ## `settings_of`
//!
//! ```text
//! abbrev pub settings_of : Bridge → Settings
//! settings_of b = record {
//!   kind = b.kind;
//!   ageing_time = b.ageing_time;
//!   key = b.key;
//!   ports = b.ports.now;
//!   vlans = b.vlans.now;
//!   entries = b.static_entries.now;
//!   forwarded = b.forwarded;
//! }
//! ```
//!
//! Uses: [`Settings`](#def.Settings)
//!
//! <a id="def.Event"></a>
//!
//! ## `Event`
//!
//! A frame that came in: the time, the number and the configuration of the port, and its headers.
//!
//! ```text
//! pub record Event : Type 0 where
//!   pub settings : Settings
//!   pub now : ℕ
//!   pub from : ℕ
//!   pub port : PortConfig
//!   pub hs : List Header
//! ```
//!
//! Uses: [`Settings`](#def.Settings), [`Header`](crate::definitions::ether_base#def.Header)
//!
//! <a id="def.Answer"></a>
//!
//! ## `Answer`
//!
//! What is returned for a frame: its VLAN, its priority, whether it is for the bridge itself, and the ports through
//! which it leaves.
//!
//! ```text
//! pub record Answer : Type 0 where
//!   pub kind : BridgeKind
//!   pub vlan : ℕ
//!   pub priority : ℕ
//!   pub drop_eligible : Bool
//!   pub reserved : Bool
//!   pub tagged : ℕ → Bool
//!   pub untagged : ℕ → Bool
//! ```
//!
//! **Where a frame goes**
//!
//! <a id="def.is_for_bridge"></a>
//!
//! ## `is_for_bridge`
//!
//! Whether frames to an address are for the bridge itself: it is reserved, and the bridge is not told to forward them
//! (IEEE 802.1Q, 8.6.3).
//!
//! ```text
//! abbrev pub is_for_bridge : Settings → (address : ℕ) → Bool
//! is_for_bridge s address =
//!     is_reserved s.kind address && not (nat_eq (s.forwarded / 2 ^ (address % 16) % 2) 1)
//! ```
//!
//! Uses: [`Settings`](#def.Settings), [`is_reserved`](#def.is_reserved)
//!
//! <a id="def.static_ports"></a>
//!
//! ## `static_ports`
//!
//! The ports of the first entry for an address in a VLAN (IEEE 802.1Q, 8.8.1).
//!
//! ```text
//! abbrev pub static_ports : List StaticEntry → (vid address : ℕ) → Option PortSet
//! static_ports entries vid address =
//!     option_map (λ e. e.ports) (find (λ e. nat_eq e.vid vid && nat_eq (number e.address) address) entries)
//! ```
//!
//! Uses: [`number`](crate::definitions::ether_base#def.number)
//!
//! <a id="def.goes_to_known"></a>
//!
//! ## `goes_to_known`
//!
//! Whether frames to an address go to a port: by its static entry, if there is one; else those to a group go to all
//! ports, and so do those to a station that is not known. (No group is known.).
//!
//! ```text
//! abbrev pub goes_to_known : Option ℕ → (to : ℕ) → Bool
//! goes_to_known None to = true
//! goes_to_known (Some port) to = nat_eq to port
//! ```
//!
//! <a id="def.goes_to"></a>
//!
//! ## `goes_to`
//!
//! ```text
//! abbrev pub goes_to : Option PortSet → (known : Option ℕ) → (to : ℕ) → Bool
//! goes_to (Some ports) known to = has ports to
//! goes_to None known to = goes_to_known known to
//! ```
//!
//! Uses: [`has`](#def.has), [`goes_to_known`](#def.goes_to_known)
//!
//! <a id="def.may_leave"></a>
//!
//! ## `may_leave`
//!
//! Whether frames of a VLAN from one port may leave by another: this one is a member of the VLAN and forwarding (IEEE
//! 802.1Q, 8.6.1 and 8.6.4), and not both are isolated.
//!
//! ```text
//! abbrev pub may_leave : PortStates → VlanConfig → (from to : ℕ) → Bool
//! may_leave states vlan from to =
//!     has vlan.members to && has states.forwarding to
//!     && not (nat_eq to from) && not (has states.isolated from && has states.isolated to)
//! ```
//!
//! Uses: [`has`](#def.has)
//!
//! <a id="def.is_mirror"></a>
//!
//! ## `is_mirror`
//!
//! Whether a copy of a frame from one port leaves by another.
//!
//! ```text
//! abbrev pub is_mirror : PortStates → (from to : ℕ) → Bool
//! is_mirror states from to = not (nat_eq to from) && has states.mirrors to
//! ```
//!
//! Uses: [`has`](#def.has)
//!
//! <a id="def.relayed"></a>
//!
//! ## `relayed`
//!
//! The answer for a frame that is passed on.
//!
//! ```text
//! abbrev pub relayed : Settings → (from : ℕ) → Arrived → (known : Option ℕ) → Answer
//! relayed s from a known =
//!     let vlan = row_of s.vlans a.vlan in
//!     let leaves : ℕ → Bool = λ to. may_leave s.ports vlan from to
//!     && goes_to (static_ports s.entries a.vlan a.destination) known to in
//!     record {
//!       kind = s.kind;
//!       vlan = a.vlan;
//!       priority = a.priority;
//!       drop_eligible = a.drop_eligible;
//!       reserved = false;
//!       tagged = λ to. is_mirror s.ports from to || (leaves to && not (has vlan.untagged to));
//!       untagged = λ to. leaves to && has vlan.untagged to && not (is_mirror s.ports from to);
//!     }
//! ```
//!
//! Uses: [`Settings`](#def.Settings), [`Arrived`](#def.Arrived), [`Answer`](#def.Answer), [`row_of`](#def.row_of), [`may_leave`](#def.may_leave), [`goes_to`](#def.goes_to), [`static_ports`](#def.static_ports), [`is_mirror`](#def.is_mirror), [`has`](#def.has)
//!
//! <a id="def.kept"></a>
//!
//! ## `kept`
//!
//! > `relayed`: the answer for a frame that is passed on
//!
//! .. for one that is for the bridge itself.
//!
//! ```text
//! abbrev pub kept : Settings → Arrived → Answer
//! kept s a = record {
//!   kind = s.kind;
//!   vlan = a.vlan;
//!   priority = a.priority;
//!   drop_eligible = a.drop_eligible;
//!   reserved = true;
//!   tagged = λ to. false;
//!   untagged = λ to. false;
//! }
//! ```
//!
//! Uses: [`Settings`](#def.Settings), [`Arrived`](#def.Arrived), [`Answer`](#def.Answer)
//!
//! <a id="def.unless_refused"></a>
//!
//! ## `unless_refused`
//!
//! > `relayed`: the answer for a frame that is passed on
//! >
//! > `kept`: .. for one that is for the bridge itself
//!
//! .. for one that the port refuses for this reason, if there is one, or because it is not forwarding.
//!
//! ```text
//! abbrev pub unless_refused : Settings → (from : ℕ) → Option Discarded → Answer → Result Answer Discarded
//! unless_refused s from (Some reason) answer = Err reason
//! unless_refused s from None answer = if has s.ports.forwarding from then Ok answer else Err PortState
//! ```
//!
//! Uses: [`Settings`](#def.Settings), [`Answer`](#def.Answer), [`has`](#def.has), `PortState` (`Discarded::PortState`)
//!
//! <a id="def.answered"></a>
//!
//! ## `answered`
//!
//! ```text
//! abbrev pub answered : Settings → (from : ℕ) → Option Discarded → Arrived → (known : Option ℕ)
//!     → Result Answer Discarded
//! answered s from refused a known =
//!     if is_for_bridge s a.destination then Ok (kept s a) else unless_refused s from refused (relayed s from a known)
//! ```
//!
//! Uses: [`Settings`](#def.Settings), [`Arrived`](#def.Arrived), [`Answer`](#def.Answer), [`is_for_bridge`](#def.is_for_bridge), [`kept`](#def.kept), [`unless_refused`](#def.unless_refused), [`relayed`](#def.relayed)
//!
//! **What is learned**
//!
//! <a id="def.sighting"></a>
//!
//! ## `sighting`
//!
//! When and at which port a frame's source was seen.
//!
//! ```text
//! abbrev pub sighting : (now from : ℕ) → Arrived → Sighting
//! sighting now from a = record { address = a.source; time = now; port = from }
//! ```
//!
//! Uses: [`Arrived`](#def.Arrived)
//!
//! <a id="def.teaches"></a>
//!
//! ## `teaches`
//!
//! Whether a frame teaches the bridge where its source is: the port does not refuse it, and is learning (IEEE 802.1Q,
//! 8.7).
//!
//! ```text
//! abbrev pub teaches : Settings → (from : ℕ) → Option Discarded → Bool
//! teaches s from refused = is_none refused && has s.ports.learning from
//! ```
//!
//! Uses: [`Settings`](#def.Settings), [`has`](#def.has)
//!
//! <a id="def.taught"></a>
//!
//! ## `taught`
//!
//! The table after a frame.
//!
//! ```text
//! abbrev pub taught : Settings → (now from : ℕ) → Option Discarded → Arrived → List StationBucket → List StationBucket
//! taught s now from refused a table =
//!     if teaches s from refused
//!     then learned s.key s.ageing_time (row_of s.vlans a.vlan) (sighting now from a) table
//!     else table
//! ```
//!
//! Uses: [`Settings`](#def.Settings), [`Arrived`](#def.Arrived), [`teaches`](#def.teaches), [`learned`](#def.learned), [`row_of`](#def.row_of), [`sighting`](#def.sighting)
//!
//! **A frame**
//!
//! <a id="def.refused_in"></a>
//!
//! ## `refused_in`
//!
//! Why a port refuses a frame, if it does.
//!
//! ```text
//! abbrev pub refused_in : Event → Front → Arrived → Option Discarded
//! refused_in v f a = refusal v.settings.kind v.port (has (row_of v.settings.vlans a.vlan).members v.from) f
//! ```
//!
//! Uses: [`Event`](#def.Event), [`Front`](#def.Front), [`Arrived`](#def.Arrived), [`refusal`](#def.refusal), [`has`](#def.has), [`row_of`](#def.row_of)
//!
//! <a id="def.with_front"></a>
//!
//! ## `with_front`
//!
//! What is read of a frame.
//!
//! ```text
//! abbrev pub with_front : Front → Result Arrived Discarded → Result (Front × Arrived) Discarded
//! with_front f (Err reason) = Err reason
//! with_front f (Ok a) = Ok (f, a)
//! ```
//!
//! Uses: [`Front`](#def.Front), [`Arrived`](#def.Arrived)
//!
//! <a id="def.arrival_by"></a>
//!
//! ## `arrival_by`
//!
//! ```text
//! abbrev pub arrival_by : PortConfig → Result Front Discarded → Result (Front × Arrived) Discarded
//! arrival_by port (Err reason) = Err reason
//! arrival_by port (Ok f) = with_front f (arrival_in port f (vlan_of port.pvid f))
//! ```
//!
//! Uses: [`Front`](#def.Front), [`Arrived`](#def.Arrived), [`with_front`](#def.with_front), [`arrival_in`](#def.arrival_in), [`vlan_of`](#def.vlan_of)
//!
//! <a id="def.arrival"></a>
//!
//! ## `arrival`
//!
//! ```text
//! abbrev pub arrival : Event → Result (Front × Arrived) Discarded
//! arrival v = arrival_by v.port (front_of v.settings.kind v.hs)
//! ```
//!
//! Uses: [`Event`](#def.Event), [`Front`](#def.Front), [`Arrived`](#def.Arrived), [`arrival_by`](#def.arrival_by), [`front_of`](#def.front_of)
//!
//! <a id="def.after_arrival"></a>
//!
//! ## `after_arrival`
//!
//! > `vlan_in`: the VLAN of a frame, if it has one
//!
//! .. after one that was read so.
//!
//! ```text
//! abbrev pub after_arrival : Event → Result (Front × Arrived) Discarded → List StationBucket → List StationBucket
//! after_arrival v (Err reason) table = table
//! after_arrival v (Ok a) table = taught v.settings v.now v.from (refused_in v a.0 a.1) a.1 table
//! ```
//!
//! Uses: [`Event`](#def.Event), [`Front`](#def.Front), [`Arrived`](#def.Arrived), [`taught`](#def.taught), [`refused_in`](#def.refused_in)
//!
//! <a id="def.after"></a>
//!
//! ## `after`
//!
//! ```text
//! abbrev pub after : Event → List StationBucket → List StationBucket
//! after v table = after_arrival v (arrival v) table
//! ```
//!
//! Uses: [`Event`](#def.Event), [`after_arrival`](#def.after_arrival), [`arrival`](#def.arrival)
//!
//! <a id="def.answer_arrival"></a>
//!
//! ## `answer_arrival`
//!
//! What is returned for a frame, by the table after it.
//!
//! ```text
//! abbrev pub answer_arrival : Event → Result (Front × Arrived) Discarded → List StationBucket → Result Answer Discarded
//! answer_arrival v (Err reason) table = Err reason
//! answer_arrival v (Ok a) table =
//!     answered v.settings v.from (refused_in v a.0 a.1) a.1
//!     (known_port v.settings.key v.settings.ageing_time v.now (row_of v.settings.vlans a.1.vlan) a.1.destination table)
//! ```
//!
//! Uses: [`Event`](#def.Event), [`Front`](#def.Front), [`Arrived`](#def.Arrived), [`Answer`](#def.Answer), [`answered`](#def.answered), [`refused_in`](#def.refused_in), [`known_port`](#def.known_port), [`row_of`](#def.row_of)
//!
//! <a id="def.answer"></a>
//!
//! ## `answer`
//!
//! ```text
//! abbrev pub answer : Event → List StationBucket → Result Answer Discarded
//! answer v table = answer_arrival v (arrival v) (after v table)
//! ```
//!
//! Uses: [`Event`](#def.Event), [`Answer`](#def.Answer), [`answer_arrival`](#def.answer_arrival), [`arrival`](#def.arrival), [`after`](#def.after)
//!
//! **How it is returned**
//!
//! <a id="def.IsAnswer"></a>
//!
//! ## `IsAnswer`
//!
//! ```text
//! pub record IsAnswer (a : Answer) (r : Received) : Type 0 where
//!   pub kind : r.kind ≡ a.kind
//!   pub vlan : r.vlan ≡ a.vlan
//!   pub priority : r.priority ≡ a.priority
//!   pub drop_eligible : r.drop_eligible ≡ a.drop_eligible
//!   pub reserved : r.reserved ≡ a.reserved
//!   pub tagged : IsSet r.tagged a.tagged
//!   pub untagged : IsSet r.untagged a.untagged
//! ```
//!
//! Uses: [`Answer`](#def.Answer), [`IsSet`](#def.IsSet)
//!
//! <a id="def.Returns"></a>
//!
//! ## `Returns`
//!
//! ```text
//! abbrev pub Returns : Result Answer Discarded → Result Received Discarded → Type 0
//! Returns (Ok a) (Ok r) = IsAnswer a r
//! Returns (Err reason) (Err other) = other ≡ reason
//! Returns a r = ⊥
//! ```
//!
//! Uses: [`Answer`](#def.Answer), [`IsAnswer`](#def.IsAnswer)
//!
//! # Leaving
//!
//! In which form a frame leaves a bridge.
//!
//! <a id="def.own_tag"></a>
//!
//! ## `own_tag`
//!
//! The tag of a frame's VLAN.
//!
//! ```text
//! abbrev pub own_tag : Received → VlanValue
//! own_tag r = record { pcp = r.priority; dei = bit r.drop_eligible; vid = r.vlan; ether_type = 0 }
//! ```
//!
//! Uses: [`VlanValue`](crate::definitions::ether_base#def.VlanValue), [`bit`](crate::definitions::ether_base#def.bit)
//!
//! <a id="def.HasTag"></a>
//!
//! ## `HasTag`
//!
//! The frame with the tag of its VLAN: with its own tag, which gets this identifier, or with a tag that is put in.
//!
//! ```text
//! abbrev pub HasTag : Received → Option VlanValue → (frame : List ℕ) (hs : List Header) (e : Ending) (sent : List ℕ)
//!     → Type 0
//! HasTag r (Some tag) frame hs e sent =
//!     SetsTag (start_of starts.Ethernet2) frame hs e 0 (λ t. record t { vid = r.vlan }) sent
//! HasTag r None frame hs e sent =
//!     (buffer : List ℕ) × (drop 4 buffer ≡ frame) × IsPushed (start_of starts.Ethernet2) buffer hs e (own_tag r)
//!     (tpid_of r.kind) sent
//! ```
//!
//! Uses: [`VlanValue`](crate::definitions::ether_base#def.VlanValue), [`Header`](crate::definitions::ether_base#def.Header), [`Ending`](crate::definitions::ether_peel#def.Ending), [`SetsTag`](crate::definitions::ether_packet#def.SetsTag), [`start_of`](crate::definitions::ether_peel#def.start_of), `starts` (`Start`), [`IsPushed`](crate::definitions::ether_packet#def.IsPushed), [`own_tag`](#def.own_tag), [`tpid_of`](#def.tpid_of)
//!
//! <a id="def.HasNoTag"></a>
//!
//! ## `HasNoTag`
//!
//! The frame without its tag.
//!
//! ```text
//! abbrev pub HasNoTag : Option VlanValue → (frame : List ℕ) (hs : List Header) (e : Ending) (sent : List ℕ) → Type 0
//! HasNoTag (Some tag) frame hs e sent =
//!     (popped : VlanValue) × (moved : List ℕ) × IsPopped (start_of starts.Ethernet2) frame hs e popped moved
//!     × (sent ≡ drop 4 moved)
//! HasNoTag None frame hs e sent = sent ≡ frame
//! ```
//!
//! Uses: [`VlanValue`](crate::definitions::ether_base#def.VlanValue), [`Header`](crate::definitions::ether_base#def.Header), [`Ending`](crate::definitions::ether_peel#def.Ending), [`IsPopped`](crate::definitions::ether_packet#def.IsPopped), [`start_of`](crate::definitions::ether_peel#def.start_of), `starts` (`Start`)
//!
//! <a id="def.LeavesTagged"></a>
//!
//! ## `LeavesTagged`
//!
//! ```text
//! abbrev pub LeavesTagged : Received → Result Front Discarded → (frame : List ℕ) (hs : List Header) (e : Ending)
//!     (sent : List ℕ) → Type 0
//! LeavesTagged r (Ok f) frame hs e sent = HasTag r f.tag frame hs e sent
//! LeavesTagged r (Err reason) frame hs e sent = ⊥
//! ```
//!
//! Uses: [`Front`](#def.Front), [`Header`](crate::definitions::ether_base#def.Header), [`Ending`](crate::definitions::ether_peel#def.Ending), [`HasTag`](#def.HasTag)
//!
//! <a id="def.LeavesUntagged"></a>
//!
//! ## `LeavesUntagged`
//!
//! ```text
//! abbrev pub LeavesUntagged : Result Front Discarded → (frame : List ℕ) (hs : List Header) (e : Ending) (sent : List ℕ)
//!     → Type 0
//! LeavesUntagged (Ok f) frame hs e sent = HasNoTag f.tag frame hs e sent
//! LeavesUntagged (Err reason) frame hs e sent = ⊥
//! ```
//!
//! Uses: [`Front`](#def.Front), [`Header`](crate::definitions::ether_base#def.Header), [`Ending`](crate::definitions::ether_peel#def.Ending), [`HasNoTag`](#def.HasNoTag)
//!
//! # Types
//!
//! Types that are not public. Definitions use them as they are declared.
//!
//! <a id="def.Tagging"></a>
//!
//! ## `Tagging`
//!
//! How a frame names its VLAN (IEEE 802.1Q, 3).
//!
//! ```text
//! enum Tagging {
//!     Untagged,
//!     PriorityTagged,
//!     VlanTagged,
//! }
//! ```
//!
//! <a id="def.Arrived"></a>
//!
//! ## `Arrived`
//!
//! What a bridge reads of a frame that comes in by a port. The addresses are numbers of 48 bits.
//!
//! ```text
//! struct Arrived {
//!     pub vlan: Vlan,
//!     pub priority: VlanPcp,
//!     pub drop_eligible: bool,
//!     pub source: u64,
//!     pub destination: u64,
//! }
//! ```
//!
//! <a id="def.State"></a>
//!
//! ## `State`
//!
//! The four words of the state.
//!
//! ```text
//! struct State {
//!     a: u64,
//!     b: u64,
//!     c: u64,
//!     d: u64,
//! }
//! ```
//!
