//! Filters of packets, in words of pcap-filter(7).
//!
//! # Expressions
//!
//! Expressions, and of which packets they hold.
//!
//! <a id="def.Expression"></a>
//!
//! ## `Expression`
//!
//! ```text
//! pub data Expression : Type 0 where
//!   Test : Primitive → Expression
//!   Not : Expression → Expression
//!   Join : Operator → Expression → Expression → Expression
//! ```
//!
//! <a id="def.Joined"></a>
//!
//! ## `Joined`
//!
//! ```text
//! abbrev pub Joined : Operator → (left right : Type 0) → Type 0
//! Joined operators.And left right = left × right
//! Joined operators.Or left right = left ⊎ right
//! ```
//!
//! Uses: `operators` (`Operator`)
//!
//! <a id="def.Holds"></a>
//!
//! ## `Holds`
//!
//! ```text
//! abbrev pub Holds : Expression → Walked → Type 0
//! Holds (Test primitive) p = Matches primitive p
//! Holds (Not x) p = ¬ (Holds x p)
//! Holds (Join operator x y) p = Joined operator (Holds x p) (Holds y p)
//! ```
//!
//! Uses: [`Expression`](#def.Expression), [`Walked`](#def.Walked), [`Test`](#def.Expression), [`Matches`](#def.Matches), [`Not`](#def.Expression), [`Join`](#def.Expression), [`Joined`](#def.Joined)
//!
//! # Field tests
//!
//! What a test of a field says of the headers of a packet.
//!
//! **The value that a header gives a field, by the number of the field in the table of fields; 252 is its name**
//!
//! <a id="def.Given"></a>
//!
//! ## `Given`
//!
//! ```text
//! pub data Given : Type 0 where
//!   Number : ℕ → Given
//!   Bytes : List ℕ → Given
//! ```
//!
//! <a id="def.ethernet2_gives"></a>
//!
//! ## `ethernet2_gives`
//!
//! Ethernet II (IEEE 802.3, 3.2.3 to 3.2.6).
//!
//! ```text
//! abbrev pub ethernet2_gives : ℕ → Ethernet2Value → Option Given
//! ethernet2_gives field e =
//!     if nat_eq field 1 then Some (Bytes (spelled 6 e.destination))
//!     else (if nat_eq field 2 then Some (Bytes (spelled 6 e.source))
//!     else (if nat_eq field 3 then Some (Number e.ether_type)
//!     else (if nat_eq field 252 then Some (Bytes (codes "eth")) else None)))
//! ```
//!
//! Uses: [`Ethernet2Value`](crate::definitions::ether_base#def.Ethernet2Value), [`Given`](#def.Given), [`Bytes`](#def.Given), [`spelled`](crate::definitions::ether_base#def.spelled), [`Number`](#def.Given)
//!
//! <a id="def.linux_sll_gives"></a>
//!
//! ## `linux_sll_gives`
//!
//! Linux cooked capture v1 (LINKTYPE\_LINUX\_SLL of the tcpdump group).
//!
//! ```text
//! abbrev pub linux_sll_gives : ℕ → LinuxSllValue → Option Given
//! linux_sll_gives field s =
//!     if nat_eq field 4 then Some (Number s.packet_type)
//!     else (if nat_eq field 5 then Some (Number s.hardware_type)
//!     else (if nat_eq field 6 then Some (Number s.address_len)
//!     else (if nat_eq field 7 then Some (Bytes (spelled 8 s.address))
//!     else (if nat_eq field 8 then Some (Number s.protocol)
//!     else (if nat_eq field 252 then Some (Bytes (codes "sll")) else None)))))
//! ```
//!
//! Uses: [`LinuxSllValue`](crate::definitions::ether_base#def.LinuxSllValue), [`Given`](#def.Given), [`Number`](#def.Given), [`Bytes`](#def.Given), [`spelled`](crate::definitions::ether_base#def.spelled)
//!
//! <a id="def.vlan_gives"></a>
//!
//! ## `vlan_gives`
//!
//! A VLAN tag (IEEE 802.1Q, 9.6).
//!
//! ```text
//! abbrev pub vlan_gives : ℕ → VlanValue → Option Given
//! vlan_gives field v =
//!     if nat_eq field 9 then Some (Number v.pcp)
//!     else (if nat_eq field 10 then Some (Number v.dei)
//!     else (if nat_eq field 11 then Some (Number v.vid)
//!     else (if nat_eq field 12 then Some (Number v.ether_type)
//!     else (if nat_eq field 252 then Some (Bytes (codes "vlan")) else None))))
//! ```
//!
//! Uses: [`VlanValue`](crate::definitions::ether_base#def.VlanValue), [`Given`](#def.Given), [`Number`](#def.Given), [`Bytes`](#def.Given)
//!
//! <a id="def.readable"></a>
//!
//! ## `readable`
//!
//! The ether type after a SecTag, if it can be read.
//!
//! ```text
//! abbrev pub readable : PayloadType → Option ℕ
//! readable (Unmodified ether_type) = Some ether_type
//! readable _ = None
//! ```
//!
//! Uses: [`PayloadType`](crate::definitions::ether_base#def.PayloadType), [`Unmodified`](crate::definitions::ether_base#def.PayloadType)
//!
//! <a id="def.macsec_gives"></a>
//!
//! ## `macsec_gives`
//!
//! A SecTag (IEEE 802.1AE, 9.5 to 9.9), without its version and its reserved bits.
//!
//! ```text
//! abbrev pub macsec_gives : ℕ → SecTagFront → SecTagValue → Option Given
//! macsec_gives field front t =
//!     if nat_eq field 14 then Some (Number front.end_station)
//!     else (if nat_eq field 16 then Some (Number front.single_copy_broadcast)
//!     else (if nat_eq field 17 then Some (Number front.encrypted)
//!     else (if nat_eq field 18 then Some (Number front.changed)
//!     else (if nat_eq field 19 then Some (Number front.association_number)
//!     else (if nat_eq field 21 then Some (Number front.short_len)
//!     else (if nat_eq field 22 then Some (Number t.packet_number)
//!     else (if nat_eq field 23 then option_map (λ sci. Bytes (spelled 8 sci)) t.sci
//!     else (if nat_eq field 24 then option_map Number (readable t.payload_type)
//!     else (if nat_eq field 252 then Some (Bytes (codes "macsec")) else None)))))))))
//! ```
//!
//! Uses: [`SecTagFront`](crate::definitions::ether_base#def.SecTagFront), [`SecTagValue`](crate::definitions::ether_base#def.SecTagValue), [`Given`](#def.Given), [`Number`](#def.Given), [`Bytes`](#def.Given), [`spelled`](crate::definitions::ether_base#def.spelled), [`readable`](#def.readable)
//!
//! <a id="def.arp_gives"></a>
//!
//! ## `arp_gives`
//!
//! An ARP packet (RFC 826, "Packet format").
//!
//! ```text
//! abbrev pub arp_gives : ℕ → ArpValue → Option Given
//! arp_gives field a =
//!     if nat_eq field 25 then Some (Number a.hardware_type)
//!     else (if nat_eq field 26 then Some (Number a.protocol_type)
//!     else (if nat_eq field 27 then Some (Number (length a.sender_hardware))
//!     else (if nat_eq field 28 then Some (Number (length a.sender_protocol))
//!     else (if nat_eq field 29 then Some (Number a.operation)
//!     else (if nat_eq field 30 then Some (Bytes a.sender_hardware)
//!     else (if nat_eq field 31 then Some (Bytes a.sender_protocol)
//!     else (if nat_eq field 32 then Some (Bytes a.target_hardware)
//!     else (if nat_eq field 33 then Some (Bytes a.target_protocol)
//!     else (if nat_eq field 252 then Some (Bytes (codes "arp")) else None)))))))))
//! ```
//!
//! Uses: [`ArpValue`](crate::definitions::ether_base#def.ArpValue), [`Given`](#def.Given), [`Number`](#def.Given), [`Bytes`](#def.Given)
//!
//! <a id="def.gives"></a>
//!
//! ## `gives`
//!
//! ```text
//! abbrev pub gives : ℕ → Header → Option Given
//! gives field (headers.Ethernet2 e) = ethernet2_gives field e
//! gives field (headers.Ethernet2Fcs e) = ethernet2_gives field e
//! gives field (headers.LinuxSll s) = linux_sll_gives field s
//! gives field (headers.Vlan v) = vlan_gives field v
//! gives field (headers.Macsec t) = macsec_gives field (sec_tag_front_of 0 0 t) t
//! gives field (headers.Arp a) = arp_gives field a
//! ```
//!
//! Uses: [`Header`](crate::definitions::ether_base#def.Header), [`Given`](#def.Given), [`headers.Ethernet2`](crate::definitions::ether_base#def.Header), [`ethernet2_gives`](#def.ethernet2_gives), [`headers.Ethernet2Fcs`](crate::definitions::ether_base#def.Header), [`headers.LinuxSll`](crate::definitions::ether_base#def.Header), [`linux_sll_gives`](#def.linux_sll_gives), [`headers.Vlan`](crate::definitions::ether_base#def.Header), [`vlan_gives`](#def.vlan_gives), [`headers.Macsec`](crate::definitions::ether_base#def.Header), [`macsec_gives`](#def.macsec_gives), [`sec_tag_front_of`](crate::definitions::ether_base#def.sec_tag_front_of), [`headers.Arp`](crate::definitions::ether_base#def.Header), [`arp_gives`](#def.arp_gives)
//!
//! **A test**
//!
//! <a id="def.part_of"></a>
//!
//! ## `part_of`
//!
//! The tested part: `count` bytes from the offset `first` on, if they are there, or all bytes; of numbers the whole.
//!
//! ```text
//! abbrev pub part_of : (first count : ℕ) → Given → Option Given
//! part_of first count (Number n) = Some (Number n)
//! part_of first count (Bytes bs) =
//!     if nat_eq count 0 then Some (Bytes bs)
//!     else (if nat_le (first + count) (length bs) then Some (Bytes (slice_range bs first (first + count))) else None)
//! ```
//!
//! Uses: [`Given`](#def.Given), [`Number`](#def.Given), [`Bytes`](#def.Given)
//!
//! <a id="def.are_related"></a>
//!
//! ## `are_related`
//!
//! Two numbers are related; for `!=` it is asked whether they are equal.
//!
//! ```text
//! abbrev pub are_related : Relation → ℕ → ℕ → Bool
//! are_related relations.Exists n m = true
//! are_related relations.Equal n m = nat_eq n m
//! are_related relations.NotEqual n m = nat_eq n m
//! are_related relations.Less n m = nat_lt n m
//! are_related relations.AtMost n m = nat_le n m
//! are_related relations.Greater n m = nat_lt m n
//! are_related relations.AtLeast n m = nat_le m n
//! ```
//!
//! Uses: `relations` (`Relation`)
//!
//! <a id="def.is_hit"></a>
//!
//! ## `is_hit`
//!
//! The bits of the mask are related to the value; bytes only if they are as many as the value has.
//!
//! ```text
//! abbrev pub is_hit : FieldTest → Given → Bool
//! is_hit t (Number n) = are_related t.relation (bit_and n t.mask) t.value
//! is_hit t (Bytes bs) =
//!     nat_eq (length bs) t.len
//!     && (nat_le (length bs) 8 && are_related t.relation (bit_and (number bs) t.mask) t.value)
//! ```
//!
//! Uses: [`Given`](#def.Given), [`Number`](#def.Given), [`are_related`](#def.are_related), [`Bytes`](#def.Given), [`number`](crate::definitions::ether_base#def.number)
//!
//! <a id="def.hit_if"></a>
//!
//! ## `hit_if`
//!
//! ```text
//! abbrev pub hit_if : FieldTest → Option Given → Option Bool
//! hit_if t None = None
//! hit_if t (Some given) = option_map (is_hit t) (part_of t.first t.count given)
//! ```
//!
//! Uses: [`Given`](#def.Given), [`is_hit`](#def.is_hit), [`part_of`](#def.part_of)
//!
//! <a id="def.hit"></a>
//!
//! ## `hit`
//!
//! Whether what a header gives the tested part is related; none if it gives nothing.
//!
//! ```text
//! abbrev pub hit : FieldTest → Header → Option Bool
//! hit t h = hit_if t (gives t.field h)
//! ```
//!
//! Uses: [`Header`](crate::definitions::ether_base#def.Header), [`hit_if`](#def.hit_if), [`gives`](#def.gives)
//!
//! <a id="def.has_value"></a>
//!
//! ## `has_value`
//!
//! ```text
//! abbrev pub has_value : FieldTest → List Header → Bool
//! has_value t hs = list_any (λ h. is_some (hit t h)) hs
//! ```
//!
//! Uses: [`Header`](crate::definitions::ether_base#def.Header), [`hit`](#def.hit)
//!
//! <a id="def.has_hit"></a>
//!
//! ## `has_hit`
//!
//! ```text
//! abbrev pub has_hit : FieldTest → List Header → Bool
//! has_hit t hs = list_any (λ h. unwrap_or (hit t h) false) hs
//! ```
//!
//! Uses: [`Header`](crate::definitions::ether_base#def.Header), [`hit`](#def.hit)
//!
//! <a id="def.answer"></a>
//!
//! ## `answer`
//!
//! ```text
//! abbrev pub answer : Relation → (has_value has_hit : Bool) → Bool
//! answer relations.Exists some any = some
//! answer relations.NotEqual some any = some && not any
//! answer _ some any = any
//! ```
//!
//! Uses: `relations` (`Relation`)
//!
//! <a id="def.field_holds"></a>
//!
//! ## `field_holds`
//!
//! The test holds for these headers.
//!
//! ```text
//! abbrev pub field_holds : FieldTest → List Header → Bool
//! field_holds t hs = answer t.relation (has_value t hs) (has_hit t hs)
//! ```
//!
//! Uses: [`Header`](crate::definitions::ether_base#def.Header), [`answer`](#def.answer), [`has_value`](#def.has_value), [`has_hit`](#def.has_hit)
//!
//! **What a capture says of a packet (pcapng, 4.3)**
//!
//! <a id="def.Frame"></a>
//!
//! ## `Frame`
//!
//! The two lengths, and the time, if there is one, as the nanoseconds since the beginning of 1970.
//!
//! ```text
//! pub record Frame : Type 0 where
//!   pub captured : ℕ
//!   pub original : ℕ
//!   pub time : Option ℕ
//! ```
//!
//! <a id="def.as_number"></a>
//!
//! ## `as_number`
//!
//! A time as a number of 64 bits; the latest of them is later than all times that words can be.
//!
//! ```text
//! abbrev pub as_number : ℕ → Given
//! as_number time = Number (min time (2 ^ 64 - 1))
//! ```
//!
//! Uses: [`Given`](#def.Given), [`Number`](#def.Given)
//!
//! <a id="def.frame_gives"></a>
//!
//! ## `frame_gives`
//!
//! The value of a field of the packet, which has no number in the table of fields, and these in tests.
//!
//! ```text
//! abbrev pub frame_gives : ℕ → Frame → Option Given
//! frame_gives field f =
//!     if nat_eq field 253 then option_map as_number f.time
//!     else (if nat_eq field 254 then Some (Number f.captured)
//!     else (if nat_eq field 255 then Some (Number f.original) else None))
//! ```
//!
//! Uses: [`Frame`](#def.Frame), [`Given`](#def.Given), [`as_number`](#def.as_number), [`Number`](#def.Given)
//!
//! <a id="def.answer_if"></a>
//!
//! ## `answer_if`
//!
//! The answer where there is at most one value.
//!
//! ```text
//! abbrev pub answer_if : Relation → Option Bool → Bool
//! answer_if relation None = answer relation false false
//! answer_if relation (Some hit) = answer relation true hit
//! ```
//!
//! Uses: [`answer`](#def.answer)
//!
//! <a id="def.frame_holds"></a>
//!
//! ## `frame_holds`
//!
//! The test holds of the packet.
//!
//! ```text
//! abbrev pub frame_holds : FieldTest → Frame → Bool
//! frame_holds t f = answer_if t.relation (hit_if t (frame_gives t.field f))
//! ```
//!
//! Uses: [`Frame`](#def.Frame), [`answer_if`](#def.answer_if), [`hit_if`](#def.hit_if), [`frame_gives`](#def.frame_gives)
//!
//! # Primitives
//!
//! What a primitive says of a packet: by the headers of its one walk, which reads every tag, by the ending of that
//! walk, and by what the capture says of the packet.
//!
//! **Of a header**
//!
//! <a id="def.is_tag"></a>
//!
//! ## `is_tag`
//!
//! ```text
//! abbrev pub is_tag : Header → Bool
//! is_tag (headers.Vlan v) = true
//! is_tag _ = false
//! ```
//!
//! Uses: [`Header`](crate::definitions::ether_base#def.Header), [`headers.Vlan`](crate::definitions::ether_base#def.Header)
//!
//! <a id="def.is_sec_tag"></a>
//!
//! ## `is_sec_tag`
//!
//! ```text
//! abbrev pub is_sec_tag : Header → Bool
//! is_sec_tag (headers.Macsec t) = true
//! is_sec_tag _ = false
//! ```
//!
//! Uses: [`Header`](crate::definitions::ether_base#def.Header), [`headers.Macsec`](crate::definitions::ether_base#def.Header)
//!
//! <a id="def.is_from"></a>
//!
//! ## `is_from`
//!
//! An Ethernet II header with this source.
//!
//! ```text
//! abbrev pub is_from : ℕ → Header → Bool
//! is_from address (headers.Ethernet2 e) = nat_eq address e.source
//! is_from address (headers.Ethernet2Fcs e) = nat_eq address e.source
//! is_from address _ = false
//! ```
//!
//! Uses: [`Header`](crate::definitions::ether_base#def.Header), [`headers.Ethernet2`](crate::definitions::ether_base#def.Header), [`headers.Ethernet2Fcs`](crate::definitions::ether_base#def.Header)
//!
//! <a id="def.is_to"></a>
//!
//! ## `is_to`
//!
//! > `is_from`: an Ethernet II header with this source
//!
//! .. with this destination.
//!
//! ```text
//! abbrev pub is_to : ℕ → Header → Bool
//! is_to address (headers.Ethernet2 e) = nat_eq address e.destination
//! is_to address (headers.Ethernet2Fcs e) = nat_eq address e.destination
//! is_to address _ = false
//! ```
//!
//! Uses: [`Header`](crate::definitions::ether_base#def.Header), [`headers.Ethernet2`](crate::definitions::ether_base#def.Header), [`headers.Ethernet2Fcs`](crate::definitions::ether_base#def.Header)
//!
//! <a id="def.is_group"></a>
//!
//! ## `is_group`
//!
//! > `is_from`: an Ethernet II header with this source
//! >
//! > `is_to`: .. with this destination
//!
//! .. whose destination is a group address: the lowest bit of its first byte is 1 (IEEE 802.3, 3.2.3).
//!
//! ```text
//! abbrev pub is_group : ℕ → Bool
//! is_group address = nat_eq (address / 2 ^ 40 % 2) 1
//! ```
//!
//! <a id="def.is_to_group"></a>
//!
//! ## `is_to_group`
//!
//! ```text
//! abbrev pub is_to_group : Header → Bool
//! is_to_group (headers.Ethernet2 e) = is_group e.destination
//! is_to_group (headers.Ethernet2Fcs e) = is_group e.destination
//! is_to_group _ = false
//! ```
//!
//! Uses: [`Header`](crate::definitions::ether_base#def.Header), [`headers.Ethernet2`](crate::definitions::ether_base#def.Header), [`is_group`](#def.is_group), [`headers.Ethernet2Fcs`](crate::definitions::ether_base#def.Header)
//!
//! **Of all headers**
//!
//! <a id="def.vlan_ids"></a>
//!
//! ## `vlan_ids`
//!
//! The identifiers of the VLAN tags, outermost first.
//!
//! ```text
//! abbrev pub vlan_ids : List Header → List ℕ
//! vlan_ids [] = []
//! vlan_ids (headers.Vlan v ∷ hs) = v.vid ∷ vlan_ids hs
//! vlan_ids (h ∷ hs) = vlan_ids hs
//! ```
//!
//! Uses: [`Header`](crate::definitions::ether_base#def.Header), [`headers.Vlan`](crate::definitions::ether_base#def.Header)
//!
//! <a id="def.ether_type_of"></a>
//!
//! ## `ether_type_of`
//!
//! The ether type that announces the next unit, if one does.
//!
//! ```text
//! abbrev pub ether_type_of : Next → Option ℕ
//! ether_type_of (EtherType t) = Some t
//! ether_type_of _ = None
//! ```
//!
//! Uses: [`Next`](crate::definitions::ether_peel#def.Next), [`EtherType`](crate::definitions::ether_peel#def.Next)
//!
//! <a id="def.listed"></a>
//!
//! ## `listed`
//!
//! ```text
//! abbrev pub listed : Option ℕ → List ℕ
//! listed None = []
//! listed (Some t) = t ∷ []
//! ```
//!
//! <a id="def.ether_types"></a>
//!
//! ## `ether_types`
//!
//! The ether types that are announced at the start and after each header.
//!
//! ```text
//! abbrev pub ether_types : Next → List Header → List ℕ
//! ether_types next [] = listed (ether_type_of next)
//! ether_types next (h ∷ hs) = listed (ether_type_of next) ++ ether_types (next_after h) hs
//! ```
//!
//! Uses: [`Next`](crate::definitions::ether_peel#def.Next), [`Header`](crate::definitions::ether_base#def.Header), [`listed`](#def.listed), [`ether_type_of`](#def.ether_type_of), [`next_after`](crate::definitions::ether_peel#def.next_after)
//!
//! **Of a packet**
//!
//! <a id="def.Walked"></a>
//!
//! ## `Walked`
//!
//! ```text
//! pub record Walked : Type 0 where
//!   pub start : Next
//!   pub headers : List Header
//!   pub ending : Ending
//!   pub captured : ℕ
//!   pub original : ℕ
//!   pub time : Option ℕ
//! ```
//!
//! Uses: [`Next`](crate::definitions::ether_peel#def.Next), [`Header`](crate::definitions::ether_base#def.Header), [`Ending`](crate::definitions::ether_peel#def.Ending)
//!
//! <a id="def.frame_in"></a>
//!
//! ## `frame_in`
//!
//! What the capture says of it.
//!
//! ```text
//! abbrev pub frame_in : Walked → Frame
//! frame_in p = record { captured = p.captured; original = p.original; time = p.time }
//! ```
//!
//! Uses: [`Walked`](#def.Walked), [`Frame`](#def.Frame)
//!
//! <a id="def.nanoseconds_of"></a>
//!
//! ## `nanoseconds_of`
//!
//! The number of nanoseconds since the beginning of 1970.
//!
//! ```text
//! abbrev pub nanoseconds_of : PacketTime → ℕ
//! nanoseconds_of t = t.seconds * 10 ^ 9 + t.nanoseconds
//! ```
//!
//! <a id="def.time_of"></a>
//!
//! ## `time_of`
//!
//! ```text
//! abbrev pub time_of : Packet → Option ℕ
//! time_of packet = option_map nanoseconds_of packet.time
//! ```
//!
//! Uses: [`nanoseconds_of`](#def.nanoseconds_of)
//!
//! <a id="def.walked"></a>
//!
//! ## `walked`
//!
//! A packet with these headers and this ending.
//!
//! ```text
//! abbrev pub walked : Packet → List Header → Ending → Walked
//! walked packet hs e =
//!     record {
//!       start = next_of packet.start;
//!       headers = hs;
//!       ending = e;
//!       captured = packet.captured_len;
//!       original = packet.original_len;
//!       time = time_of packet;
//!     }
//! ```
//!
//! Uses: [`Header`](crate::definitions::ether_base#def.Header), [`Ending`](crate::definitions::ether_peel#def.Ending), [`Walked`](#def.Walked), [`next_of`](crate::definitions::ether_peel#def.next_of), [`time_of`](#def.time_of)
//!
//! <a id="def.Matches"></a>
//!
//! ## `Matches`
//!
//! What each primitive says of it.
//!
//! ```text
//! abbrev pub Matches : Primitive → Walked → Type 0
//! Matches primitives.Vlan p = IsTrue (list_any is_tag p.headers)
//! Matches (primitives.VlanId id) p = IsTrue (list_any (nat_eq id) (vlan_ids p.headers))
//! Matches (primitives.OuterVlan id) p = (inner : List ℕ) × (vlan_ids p.headers ≡ id ∷ inner)
//! Matches (primitives.InnerVlan id) p =
//!     (outer : ℕ) × (between : List ℕ) × (vlan_ids p.headers ≡ outer ∷ (between ++ id ∷ []))
//! Matches primitives.Macsec p = IsTrue (list_any is_sec_tag p.headers)
//! Matches (primitives.EtherType t) p = IsTrue (list_any (nat_eq t) (ether_types p.start p.headers))
//! Matches (primitives.Source address) p = IsTrue (list_any (is_from address) p.headers)
//! Matches (primitives.Destination address) p = IsTrue (list_any (is_to address) p.headers)
//! Matches (primitives.Host address) p = IsTrue (list_any (λ h. is_from address h || is_to address h) p.headers)
//! Matches primitives.Broadcast p = IsTrue (list_any (is_to (2 ^ 48 - 1)) p.headers)
//! Matches primitives.Multicast p = IsTrue (list_any is_to_group p.headers)
//! Matches primitives.Refused p = IsSome (refusal_of p.ending)
//! Matches primitives.Cut p = p.captured < p.original
//! Matches (primitives.Less n) p = p.original ≤ n
//! Matches (primitives.Greater n) p = n ≤ p.original
//! Matches (primitives.Field t) p = IsTrue (field_holds t p.headers)
//! Matches (primitives.Frame t) p = IsTrue (frame_holds t (frame_in p))
//! ```
//!
//! Uses: [`Walked`](#def.Walked), `primitives` (`Primitive`), [`is_tag`](#def.is_tag), [`vlan_ids`](#def.vlan_ids), [`is_sec_tag`](#def.is_sec_tag), [`ether_types`](#def.ether_types), [`is_from`](#def.is_from), [`is_to`](#def.is_to), [`is_to_group`](#def.is_to_group), [`refusal_of`](crate::definitions::ether_peel#def.refusal_of), [`field_holds`](#def.field_holds), [`frame_holds`](#def.frame_holds), [`frame_in`](#def.frame_in)
//!
//! # Postfix
//!
//! How an expression is stored: as its nodes, each after its operands.
//!
//! <a id="def.postfix"></a>
//!
//! ## `postfix`
//!
//! ```text
//! abbrev pub postfix : Expression → List Node
//! postfix (Test primitive) = nodes.Test primitive ∷ []
//! postfix (Not x) = postfix x ++ nodes.Not ∷ []
//! postfix (Join operator x y) = postfix x ++ postfix y ++ nodes.Join operator ∷ []
//! ```
//!
//! Uses: [`Expression`](#def.Expression), [`Test`](#def.Expression), `nodes` (`Node`), [`Not`](#def.Expression), [`Join`](#def.Expression)
//!
//! # Jumps
//!
//! Where the evaluation of an expression goes on after each of its primitives, which are tested from left to right.
//!
//! <a id="def.first_jump"></a>
//!
//! ## `first_jump`
//!
//! The jump of the whole expression.
//!
//! ```text
//! abbrev pub first_jump : Jump
//! first_jump = record { if_true = 255; if_false = 254 }
//! ```
//!
//! Uses: [`Jump`](#def.Jump)
//!
//! <a id="def.negated"></a>
//!
//! ## `negated`
//!
//! ```text
//! abbrev pub negated : Jump → Jump
//! negated j = record { if_true = j.if_false; if_false = j.if_true }
//! ```
//!
//! Uses: [`Jump`](#def.Jump)
//!
//! <a id="def.before"></a>
//!
//! ## `before`
//!
//! The jump of a left operand, by the index at which the right operand begins.
//!
//! ```text
//! abbrev pub before : Operator → ℕ → Jump → Jump
//! before operators.And right j = record { if_true = right; if_false = j.if_false }
//! before operators.Or right j = record { if_true = j.if_true; if_false = right }
//! ```
//!
//! Uses: [`Jump`](#def.Jump), `operators` (`Operator`)
//!
//! <a id="def.no_jump"></a>
//!
//! ## `no_jump`
//!
//! ```text
//! abbrev pub no_jump : Jump
//! no_jump = record { if_true = 0; if_false = 0 }
//! ```
//!
//! Uses: [`Jump`](#def.Jump)
//!
//! <a id="def.jump_at"></a>
//!
//! ## `jump_at`
//!
//! ```text
//! abbrev pub jump_at : List Jump → ℕ → Jump
//! jump_at js at = get_or js at no_jump
//! ```
//!
//! Uses: [`Jump`](#def.Jump), [`no_jump`](#def.no_jump)
//!
//! <a id="def.AreJumps"></a>
//!
//! ## `AreJumps`
//!
//! The jumps of the primitives of an expression whose nodes begin at an index, if this is the jump of the whole
//! expression.
//!
//! ```text
//! abbrev pub AreJumps : List Jump → ℕ → Expression → Jump → Type 0
//! AreJumps js at (Test p) j = jump_at js at ≡ j
//! AreJumps js at (Not x) j = AreJumps js at x (negated j)
//! AreJumps js at (Join operator x y) j =
//!     let right = at + length (postfix x) in
//!     AreJumps js at x (before operator right j) × AreJumps js right y j
//! ```
//!
//! Uses: [`Jump`](#def.Jump), [`Expression`](#def.Expression), [`Test`](#def.Expression), [`jump_at`](#def.jump_at), [`Not`](#def.Expression), [`negated`](#def.negated), [`Join`](#def.Expression), [`postfix`](#def.postfix), [`before`](#def.before)
//!
//! **Past primitives that ask for VLAN tags**
//!
//! <a id="def.is_of_tags"></a>
//!
//! ## `is_of_tags`
//!
//! ```text
//! abbrev pub is_of_tags : Primitive → Bool
//! is_of_tags primitives.Vlan = true
//! is_of_tags (primitives.VlanId n) = true
//! is_of_tags (primitives.OuterVlan n) = true
//! is_of_tags (primitives.InnerVlan n) = true
//! is_of_tags _ = false
//! ```
//!
//! Uses: `primitives` (`Primitive`)
//!
//! <a id="def.asks_tags"></a>
//!
//! ## `asks_tags`
//!
//! ```text
//! abbrev pub asks_tags : Node → Bool
//! asks_tags (nodes.Test p) = is_of_tags p
//! asks_tags _ = false
//! ```
//!
//! Uses: `nodes` (`Node`), [`is_of_tags`](#def.is_of_tags)
//!
//! <a id="def.Passes"></a>
//!
//! ## `Passes`
//!
//! Where the evaluation goes on from a primitive that asks for VLAN tags, if neither it nor those directly after it
//! match.
//!
//! ```text
//! pub data Passes (ns : List Node) (js : List Jump) : ℕ → ℕ → Type 0 where
//!   last : (at : ℕ) → Passes ns js at (jump_at js at).if_false
//!   more : (at past : ℕ) → (jump_at js at).if_false < length ns
//!       → ((d : Node) → asks_tags (get_or ns (jump_at js at).if_false d) ≡ true)
//!       → Passes ns js (jump_at js at).if_false past → Passes ns js at past
//! ```
//!
//! Uses: [`Jump`](#def.Jump), [`jump_at`](#def.jump_at), [`asks_tags`](#def.asks_tags)
//!
//! <a id="def.ArePassed"></a>
//!
//! ## `ArePassed`
//!
//! ```text
//! abbrev pub ArePassed : List Node → List Jump → List ℕ → Type 0
//! ArePassed ns js past = (i : ℕ) → i < length ns → Passes ns js i (get_or past i 0)
//! ```
//!
//! Uses: [`Jump`](#def.Jump), [`Passes`](#def.Passes)
//!
//! # Filter program
//!
//! A filter as numbers only: the nodes of its expression, and where the evaluation goes on after each.
//!
//! <a id="def.primitive_numbered"></a>
//!
//! ## `primitive_numbered`
//!
//! The primitive whose kind has this number; some kinds have an operand.
//!
//! ```text
//! abbrev pub primitive_numbered : (kind operand : ℕ) → Option Primitive
//! primitive_numbered kind operand =
//!     if nat_eq kind 0 then Some primitives.Vlan
//!     else (if nat_eq kind 1 then Some (primitives.VlanId (operand % 2 ^ 16))
//!     else (if nat_eq kind 2 then Some (primitives.OuterVlan (operand % 2 ^ 16))
//!     else (if nat_eq kind 3 then Some (primitives.InnerVlan (operand % 2 ^ 16))
//!     else (if nat_eq kind 4 then Some primitives.Macsec
//!     else (if nat_eq kind 5 then Some (primitives.EtherType (operand % 2 ^ 16))
//!     else (if nat_eq kind 6 then Some (primitives.Source operand)
//!     else (if nat_eq kind 7 then Some (primitives.Destination operand)
//!     else (if nat_eq kind 8 then Some (primitives.Host operand)
//!     else (if nat_eq kind 9 then Some primitives.Broadcast
//!     else (if nat_eq kind 10 then Some primitives.Multicast
//!     else (if nat_eq kind 11 then Some primitives.Refused
//!     else (if nat_eq kind 12 then Some primitives.Cut
//!     else (if nat_eq kind 13 then Some (primitives.Less (operand % 2 ^ 32))
//!     else (if nat_eq kind 14 then Some (primitives.Greater (operand % 2 ^ 32))
//!     else None))))))))))))))
//! ```
//!
//! Uses: `primitives` (`Primitive`)
//!
//! <a id="def.operator_numbered"></a>
//!
//! ## `operator_numbered`
//!
//! The operator whose kind has this number.
//!
//! ```text
//! abbrev pub operator_numbered : (kind : ℕ) → Option Node
//! operator_numbered kind =
//!     if nat_eq kind 15 then Some nodes.Not
//!     else (if nat_eq kind 16 then Some (nodes.Join operators.And)
//!     else (if nat_eq kind 17 then Some (nodes.Join operators.Or) else None))
//! ```
//!
//! Uses: `nodes` (`Node`), `operators` (`Operator`)
//!
//! <a id="def.relation_numbered"></a>
//!
//! ## `relation_numbered`
//!
//! The relation of the tests of fields whose kind has this number.
//!
//! ```text
//! abbrev pub relation_numbered : (kind : ℕ) → Option Relation
//! relation_numbered kind =
//!     if nat_eq kind 18 then Some relations.Exists
//!     else (if nat_eq kind 19 then Some relations.Equal
//!     else (if nat_eq kind 20 then Some relations.NotEqual
//!     else (if nat_eq kind 21 then Some relations.Less
//!     else (if nat_eq kind 22 then Some relations.AtMost
//!     else (if nat_eq kind 23 then Some relations.Greater
//!     else (if nat_eq kind 24 then Some relations.AtLeast else None))))))
//! ```
//!
//! Uses: `relations` (`Relation`)
//!
//! <a id="def.field_test_in"></a>
//!
//! ## `field_test_in`
//!
//! ```text
//! abbrev pub field_test_in : Relation → Instruction → FieldTest
//! field_test_in relation s = record {
//!   field = s.field;
//!   first = s.first;
//!   count = s.count;
//!   relation = relation;
//!   mask = s.mask;
//!   len = s.len;
//!   value = s.operand;
//! }
//! ```
//!
//! <a id="def.field_primitive"></a>
//!
//! ## `field_primitive`
//!
//! ```text
//! abbrev pub field_primitive : Option Relation → Instruction → Option Primitive
//! field_primitive None s = None
//! field_primitive (Some relation) s = Some (primitives.Field (field_test_in relation s))
//! ```
//!
//! Uses: `primitives` (`Primitive`), [`field_test_in`](#def.field_test_in)
//!
//! <a id="def.frame_relation_numbered"></a>
//!
//! ## `frame_relation_numbered`
//!
//! > `relation_numbered`: the relation of the tests of fields whose kind has this number
//!
//! .. of the tests of what the capture says, which have the numbers after those.
//!
//! ```text
//! abbrev pub frame_relation_numbered : (kind : ℕ) → Option Relation
//! frame_relation_numbered kind = relation_numbered (kind - 7)
//! ```
//!
//! Uses: [`relation_numbered`](#def.relation_numbered)
//!
//! <a id="def.frame_primitive"></a>
//!
//! ## `frame_primitive`
//!
//! ```text
//! abbrev pub frame_primitive : Option Relation → Instruction → Option Primitive
//! frame_primitive None s = None
//! frame_primitive (Some relation) s = Some (primitives.Frame (field_test_in relation s))
//! ```
//!
//! Uses: `primitives` (`Primitive`), [`field_test_in`](#def.field_test_in)
//!
//! <a id="def.primitive_or"></a>
//!
//! ## `primitive_or`
//!
//! ```text
//! abbrev pub primitive_or : Option Primitive → Option Primitive → Option Primitive
//! primitive_or (Some primitive) other = Some primitive
//! primitive_or None other = other
//! ```
//!
//! <a id="def.primitive_of"></a>
//!
//! ## `primitive_of`
//!
//! ```text
//! abbrev pub primitive_of : Instruction → Option Primitive
//! primitive_of s =
//!     primitive_or (primitive_numbered s.kind s.operand)
//!     (primitive_or (field_primitive (relation_numbered s.kind) s)
//!     (frame_primitive (frame_relation_numbered s.kind) s))
//! ```
//!
//! Uses: [`primitive_or`](#def.primitive_or), [`primitive_numbered`](#def.primitive_numbered), [`field_primitive`](#def.field_primitive), [`relation_numbered`](#def.relation_numbered), [`frame_primitive`](#def.frame_primitive), [`frame_relation_numbered`](#def.frame_relation_numbered)
//!
//! <a id="def.test_or"></a>
//!
//! ## `test_or`
//!
//! The primitive if there is one, else the operator.
//!
//! ```text
//! abbrev pub test_or : Option Primitive → Option Node → Option Node
//! test_or (Some primitive) operator = Some (nodes.Test primitive)
//! test_or None operator = operator
//! ```
//!
//! Uses: `nodes` (`Node`)
//!
//! <a id="def.node_of"></a>
//!
//! ## `node_of`
//!
//! ```text
//! abbrev pub node_of : Instruction → Option Node
//! node_of s = test_or (primitive_of s) (operator_numbered s.kind)
//! ```
//!
//! Uses: [`test_or`](#def.test_or), [`primitive_of`](#def.primitive_of), [`operator_numbered`](#def.operator_numbered)
//!
//! <a id="def.IsInstruction"></a>
//!
//! ## `IsInstruction`
//!
//! The instruction of a node.
//!
//! ```text
//! pub record IsInstruction (n : Node) (j : Jump) (past : ℕ) (s : Instruction) : Type 0 where
//!   pub node : node_of s ≡ Some n
//!   pub jump : s.jump ≡ j
//!   pub past_tags : s.past_tags ≡ past
//! ```
//!
//! Uses: [`Jump`](#def.Jump), [`node_of`](#def.node_of)
//!
//! <a id="def.IsProgramOf"></a>
//!
//! ## `IsProgramOf`
//!
//! The instructions of an expression: one for each of its nodes, in postfix order.
//!
//! ```text
//! pub record IsProgramOf (instructions : List Instruction) (x : Expression) : Type 0 where
//!   pub jumps : List Jump
//!   pub past : List ℕ
//!   pub are_jumps : AreJumps jumps 0 x first_jump
//!   pub are_passed : ArePassed (postfix x) jumps past
//!   pub few : length instructions ≤ 192
//!   pub count : length instructions ≡ length (postfix x)
//!   pub each : (i : ℕ) → i < length instructions → (d : Node) (e : Instruction)
//!       → IsInstruction (get_or (postfix x) i d) (jump_at jumps i) (get_or past i 0) (get_or instructions i e)
//! ```
//!
//! Uses: [`Expression`](#def.Expression), [`Jump`](#def.Jump), [`AreJumps`](#def.AreJumps), [`first_jump`](#def.first_jump), [`ArePassed`](#def.ArePassed), [`postfix`](#def.postfix), [`IsInstruction`](#def.IsInstruction), [`jump_at`](#def.jump_at)
//!
//! # Needed
//!
//! How many bytes of a frame are needed to decide a primitive.
//!
//! <a id="def.IsLonger"></a>
//!
//! ## `IsLonger`
//!
//! The packet with further bytes captured.
//!
//! ```text
//! pub record IsLonger (packet longer : Packet) : Type 0 where
//!   pub more : List ℕ
//!   pub start : longer.start ≡ packet.start
//!   pub frame : longer.frame.now ≡ packet.frame.now ++ more
//!   pub captured : longer.captured_len ≡ packet.captured_len + length more
//!   pub original : longer.original_len ≡ packet.original_len
//!   pub time : longer.time ≡ packet.time
//! ```
//!
//! <a id="def.HasMore"></a>
//!
//! ## `HasMore`
//!
//! > `IsLonger`: the packet with further bytes captured
//!
//! .. of those that were on the wire.
//!
//! ```text
//! pub record HasMore (packet longer : Packet) : Type 0 where
//!   pub captures : IsLonger packet longer
//!   pub are_bytes : IsBytes longer.frame.now
//!   pub within : longer.captured_len ≤ longer.original_len
//! ```
//!
//! Uses: [`IsLonger`](#def.IsLonger), [`IsBytes`](crate::definitions::ether_base#def.IsBytes)
//!
//! <a id="def.IsUndecided"></a>
//!
//! ## `IsUndecided`
//!
//! Some completed packet matches the primitive, and some does not.
//!
//! ```text
//! abbrev pub IsUndecided : Packet → Primitive → Type 0
//! IsUndecided packet primitive =
//!     SomeCompletion packet (Matches primitive) × SomeCompletion packet (λ w. Matches primitive w → ⊥)
//! ```
//!
//! Uses: [`SomeCompletion`](#def.SomeCompletion), [`Matches`](#def.Matches)
//!
//! <a id="def.IsDecided"></a>
//!
//! ## `IsDecided`
//!
//! Every completed packet matches it, or none does.
//!
//! ```text
//! abbrev pub IsDecided : Packet → Primitive → Type 0
//! IsDecided packet primitive =
//!     (SomeCompletion packet (λ w. Matches primitive w → ⊥) → ⊥) ⊎ (SomeCompletion packet (Matches primitive) → ⊥)
//! ```
//!
//! Uses: [`SomeCompletion`](#def.SomeCompletion), [`Matches`](#def.Matches)
//!
//! <a id="def.IsLeast"></a>
//!
//! ## `IsLeast`
//!
//! The primitive is undecided while fewer than n bytes of the frame are captured, whatever they are; some n bytes decide
//! it.
//!
//! ```text
//! pub record IsLeast (packet : Packet) (primitive : Primitive) (n : ℕ) : Type 0 where
//!   pub stays : (longer : Packet) → HasMore packet longer → length longer.frame.now < n → IsUndecided longer primitive
//!   pub decides : (longer : Packet) × HasMore packet longer × (length longer.frame.now ≡ n)
//!       × IsDecided longer primitive
//! ```
//!
//! Uses: [`HasMore`](#def.HasMore), [`IsUndecided`](#def.IsUndecided), [`IsDecided`](#def.IsDecided)
//!
//! # Deciding
//!
//! What is known of whether a packet matches, if not all of its bytes were captured.
//!
//! **The bytes that are missing**
//!
//! <a id="def.lost"></a>
//!
//! ## `lost`
//!
//! The number of missing bytes.
//!
//! ```text
//! abbrev pub lost : Packet → ℕ
//! lost packet = packet.original_len - packet.captured_len
//! ```
//!
//! <a id="def.IsOpenAt"></a>
//!
//! ## `IsOpenAt`
//!
//! A packet whose walk has this ending is open at n bytes: if its frame had that many, the packet might have further
//! headers.
//!
//! ```text
//! pub data IsOpenAt (packet : Packet) (e : Ending) (n : ℕ) : Type 0 where
//!   -- the walk ends in an open refusal that names n, and the packet had at least n bytes on the wire
//!   refused : (o : OpenRefusal e) → packet.captured_len < packet.original_len → named_len e o ≡ n → n
//!       ≤ length packet.frame.now + lost packet
//!       → IsOpenAt packet e n
//!   -- the packet has a frame check sequence, whose place is known only in the whole frame
//!   fcs : has_fcs (start_of packet.start) ≡ true → packet.captured_len < packet.original_len → n ≡ length packet.frame.now
//!       + lost packet
//!       → IsOpenAt packet e n
//! ```
//!
//! Uses: [`Ending`](crate::definitions::ether_peel#def.Ending), [`OpenRefusal`](crate::definitions::ether_peel#def.OpenRefusal), [`named_len`](crate::definitions::ether_peel#def.named_len), [`lost`](#def.lost), [`has_fcs`](crate::definitions::ether_peel#def.has_fcs), [`start_of`](crate::definitions::ether_peel#def.start_of)
//!
//! **A primitive**
//!
//! <a id="def.asks_any"></a>
//!
//! ## `asks_any`
//!
//! A test with this relation asks whether any value has it.
//!
//! ```text
//! abbrev pub asks_any : Relation → Bool
//! asks_any relations.NotEqual = false
//! asks_any _ = true
//! ```
//!
//! Uses: `relations` (`Relation`)
//!
//! **A test of a field**
//!
//! <a id="def.can_tell"></a>
//!
//! ## `can_tell`
//!
//! The test can depend on a unit of this layer, or on one after it. Fields with the numbers up to 3 are of an Ethernet
//! II
//! header, which is the first unit.
//!
//! ```text
//! abbrev pub can_tell : Layer → FieldTest → Bool
//! can_tell layers.Ethernet2Header t = true
//! can_tell layer t = not (nat_le t.field 3)
//! ```
//!
//! Uses: `layers` (`Layer`)
//!
//! <a id="def.IsFieldKnown"></a>
//!
//! ## `IsFieldKnown`
//!
//! With these headers and this ending so far, it is known whether the test of a field holds: no further headers can
//! follow; or the headers so far have a value that decides it; or it does not depend on any unit that can still follow.
//!
//! ```text
//! pub data IsFieldKnown (packet : Packet) (hs : List Header) (e : Ending) (t : FieldTest) : Type 0 where
//!   whole : ((n : ℕ) → IsOpenAt packet e n → ⊥) → IsFieldKnown packet hs e t
//!   told : has_fcs (start_of packet.start) ≡ false → IsTrue (asks_any t.relation && field_holds t hs)
//!       → IsFieldKnown packet hs e t
//!   passed : (o : OpenRefusal e) → can_tell o.layer t ≡ false → IsFieldKnown packet hs e t
//! ```
//!
//! Uses: [`Header`](crate::definitions::ether_base#def.Header), [`Ending`](crate::definitions::ether_peel#def.Ending), [`IsOpenAt`](#def.IsOpenAt), [`has_fcs`](crate::definitions::ether_peel#def.has_fcs), [`start_of`](crate::definitions::ether_peel#def.start_of), [`asks_any`](#def.asks_any), [`field_holds`](#def.field_holds), [`OpenRefusal`](crate::definitions::ether_peel#def.OpenRefusal), [`can_tell`](#def.can_tell)
//!
//! **What is known**
//!
//! <a id="def.KnowsTest"></a>
//!
//! ## `KnowsTest`
//!
//! Whatever the missing bytes are, the primitive matches the packet (true), or it does not (false). Of a test of a field
//! it is known by the headers so far.
//!
//! ```text
//! abbrev pub KnowsTest : Packet → List Header → Ending → Bool → Primitive → Type 0
//! KnowsTest packet hs e true (primitives.Field t) = IsFieldKnown packet hs e t × IsTrue (field_holds t hs)
//! KnowsTest packet hs e false (primitives.Field t) = IsFieldKnown packet hs e t × ¬ (IsTrue (field_holds t hs))
//! KnowsTest packet hs e true primitive = AtCompletions packet (Matches primitive)
//! KnowsTest packet hs e false primitive = AtCompletions packet (λ w. ¬ (Matches primitive w))
//! ```
//!
//! Uses: [`Header`](crate::definitions::ether_base#def.Header), [`Ending`](crate::definitions::ether_peel#def.Ending), `primitives` (`Primitive`), [`IsFieldKnown`](#def.IsFieldKnown), [`field_holds`](#def.field_holds), [`AtCompletions`](#def.AtCompletions), [`Matches`](#def.Matches)
//!
//! <a id="def.Knows"></a>
//!
//! ## `Knows`
//!
//! An expression is known to hold (true) or to fail (false), in Kleene's strong logic of three values.
//!
//! ```text
//! abbrev pub Knows : Packet → List Header → Ending → Bool → Expression → Type 0
//! Knows packet hs e truth (Test primitive) = KnowsTest packet hs e truth primitive
//! Knows packet hs e true (Not x) = Knows packet hs e false x
//! Knows packet hs e false (Not x) = Knows packet hs e true x
//! Knows packet hs e true (Join operators.And x y) = Knows packet hs e true x × Knows packet hs e true y
//! Knows packet hs e false (Join operators.And x y) = Knows packet hs e false x ⊎ Knows packet hs e false y
//! Knows packet hs e true (Join operators.Or x y) = Knows packet hs e true x ⊎ Knows packet hs e true y
//! Knows packet hs e false (Join operators.Or x y) = Knows packet hs e false x × Knows packet hs e false y
//! ```
//!
//! Uses: [`Header`](crate::definitions::ether_base#def.Header), [`Ending`](crate::definitions::ether_peel#def.Ending), [`Expression`](#def.Expression), [`Test`](#def.Expression), [`KnowsTest`](#def.KnowsTest), [`Not`](#def.Expression), [`Join`](#def.Expression), `operators` (`Operator`)
//!
//! <a id="def.IsUnknown"></a>
//!
//! ## `IsUnknown`
//!
//! It is known neither to hold nor to fail.
//!
//! ```text
//! pub record IsUnknown (packet : Packet) (hs : List Header) (e : Ending) (x : Expression) : Type 0 where
//!   pub not_true : Knows packet hs e true x → ⊥
//!   pub not_false : Knows packet hs e false x → ⊥
//! ```
//!
//! Uses: [`Header`](crate::definitions::ether_base#def.Header), [`Ending`](crate::definitions::ether_peel#def.Ending), [`Expression`](#def.Expression), [`Knows`](#def.Knows)
//!
//! **What is needed**
//!
//! <a id="def.NeedsTest"></a>
//!
//! ## `NeedsTest`
//!
//! The missing bytes make the primitive match or fail, and n is the least length with which it can be decided. A test of
//! a field needs the length with which the packet might have further headers.
//!
//! ```text
//! abbrev pub NeedsTest : Packet → List Header → Ending → ℕ → Primitive → Type 0
//! NeedsTest packet hs e n (primitives.Field t) = (IsFieldKnown packet hs e t → ⊥) × IsOpenAt packet e n
//! NeedsTest packet hs e n primitive = IsUndecided packet primitive × IsLeast packet primitive n
//! ```
//!
//! Uses: [`Header`](crate::definitions::ether_base#def.Header), [`Ending`](crate::definitions::ether_peel#def.Ending), `primitives` (`Primitive`), [`IsFieldKnown`](#def.IsFieldKnown), [`IsOpenAt`](#def.IsOpenAt), [`IsUndecided`](#def.IsUndecided), [`IsLeast`](#def.IsLeast)
//!
//! <a id="def.neutral"></a>
//!
//! ## `neutral`
//!
//! The truth of an operand that leaves the other's.
//!
//! ```text
//! abbrev pub neutral : Operator → Bool
//! neutral operators.And = true
//! neutral operators.Or = false
//! ```
//!
//! Uses: `operators` (`Operator`)
//!
//! <a id="def.NeedsLen"></a>
//!
//! ## `NeedsLen`
//!
//! An expression needs the least of what those of its primitives need that can still decide it.
//!
//! ```text
//! abbrev pub NeedsLen : Packet → List Header → Ending → ℕ → Expression → Type 0
//! NeedsLen packet hs e n (Test primitive) = NeedsTest packet hs e n primitive
//! NeedsLen packet hs e n (Not x) = NeedsLen packet hs e n x
//! NeedsLen packet hs e n (Join operator x y) =
//!     (Knows packet hs e (neutral operator) x × NeedsLen packet hs e n y)
//!     ⊎ (NeedsLen packet hs e n x × Knows packet hs e (neutral operator) y)
//!     ⊎ ((a : ℕ) × (b : ℕ) × NeedsLen packet hs e a x × NeedsLen packet hs e b y × (n ≡ min a b))
//! ```
//!
//! Uses: [`Header`](crate::definitions::ether_base#def.Header), [`Ending`](crate::definitions::ether_peel#def.Ending), [`Expression`](#def.Expression), [`Test`](#def.Expression), [`NeedsTest`](#def.NeedsTest), [`Not`](#def.Expression), [`Join`](#def.Expression), [`Knows`](#def.Knows), [`neutral`](#def.neutral)
//!
//! <a id="def.Says"></a>
//!
//! ## `Says`
//!
//! What each decision says.
//!
//! ```text
//! abbrev pub Says : Packet → List Header → Ending → Expression → Decision → Type 0
//! Says packet hs e x decisions.Matches = Knows packet hs e true x
//! Says packet hs e x decisions.Fails = Knows packet hs e false x
//! Says packet hs e x (decisions.Needs n) = NeedsLen packet hs e n x
//! ```
//!
//! Uses: [`Header`](crate::definitions::ether_base#def.Header), [`Ending`](crate::definitions::ether_peel#def.Ending), [`Expression`](#def.Expression), `decisions` (`Decision`), [`Knows`](#def.Knows), [`NeedsLen`](#def.NeedsLen)
//!
//! **Until the length is there**
//!
//! <a id="def.is_of_captured"></a>
//!
//! ## `is_of_captured`
//!
//! The expression asks for the captured length.
//!
//! ```text
//! abbrev pub is_of_captured : Primitive → Bool
//! is_of_captured (primitives.Frame t) = nat_eq t.field 254
//! is_of_captured _ = false
//! ```
//!
//! Uses: `primitives` (`Primitive`)
//!
//! <a id="def.asks_captured"></a>
//!
//! ## `asks_captured`
//!
//! ```text
//! abbrev pub asks_captured : Expression → Bool
//! asks_captured (Test p) = is_of_captured p
//! asks_captured (Not x) = asks_captured x
//! asks_captured (Join operator x y) = asks_captured x || asks_captured y
//! ```
//!
//! Uses: [`Expression`](#def.Expression), [`Test`](#def.Expression), [`is_of_captured`](#def.is_of_captured), [`Not`](#def.Expression), [`Join`](#def.Expression)
//!
//! <a id="def.StaysUnknown"></a>
//!
//! ## `StaysUnknown`
//!
//! While fewer than n bytes of the packet's frame are captured, the expression is still unknown, unless it asks for
//! their
//! number.
//!
//! ```text
//! abbrev pub StaysUnknown : Packet → ℕ → Expression → Type 0
//! StaysUnknown packet n x =
//!     (longer : Packet) (hs : List Header) (e : Ending) → asks_captured x ≡ false
//!     → IsLonger packet longer → IsBytes longer.frame.now → length longer.frame.now < n
//!     → Walk (start_of longer.start) longer.frame.now hs e → IsUnknown longer hs e x
//! ```
//!
//! Uses: [`Expression`](#def.Expression), [`Header`](crate::definitions::ether_base#def.Header), [`Ending`](crate::definitions::ether_peel#def.Ending), [`asks_captured`](#def.asks_captured), [`IsLonger`](#def.IsLonger), [`IsBytes`](crate::definitions::ether_base#def.IsBytes), [`Walk`](crate::definitions::ether_peel#def.Walk), [`start_of`](crate::definitions::ether_peel#def.start_of), [`IsUnknown`](#def.IsUnknown)
//!
//! # Evaluation
//!
//! The values of the expressions that are read, as a stack.
//!
//! **Of a packet that was cut**
//!
//! <a id="def.decided"></a>
//!
//! ## `decided`
//!
//! The decision of a truth.
//!
//! ```text
//! abbrev pub decided : Bool → Decision
//! decided true = Matches
//! decided false = Fails
//! ```
//!
//! Uses: `Matches` (`Decision::Matches`), `Fails` (`Decision::Fails`)
//!
//! # Words
//!
//! The words of a text, and where each of them begins.
//!
//! <a id="def.class_of"></a>
//!
//! ## `class_of`
//!
//! Space, tab, line feed and carriage return are blank.
//!
//! ```text
//! abbrev pub class_of : ℕ → Class
//! class_of c =
//!     if list_any (nat_eq c) (32 ∷ 9 ∷ 10 ∷ 13 ∷ []) then Blank
//!     else (if list_any (nat_eq c) (codes "(){},") then Sign
//!     else (if list_any (nat_eq c) (codes "!") then Negation
//!     else (if list_any (nat_eq c) (codes "<>") then Order
//!     else (if list_any (nat_eq c) (codes "=") then Equals
//!     else (if list_any (nat_eq c) (codes "&|") then Connective else Letter)))))
//! ```
//!
//! Uses: [`Class`](#def.Class), [`Blank`](#def.Class), [`Sign`](#def.Class), [`Negation`](#def.Class), [`Order`](#def.Class), [`Equals`](#def.Class), [`Connective`](#def.Class), [`Letter`](#def.Class)
//!
//! <a id="def.is_blank"></a>
//!
//! ## `is_blank`
//!
//! ```text
//! abbrev pub is_blank : Class → Bool
//! is_blank Blank = true
//! is_blank _ = false
//! ```
//!
//! Uses: [`Class`](#def.Class), [`Blank`](#def.Class)
//!
//! <a id="def.are_joined"></a>
//!
//! ## `are_joined`
//!
//! Two neighboring characters are in one word; a sign is always a word of its own, and `=` can follow `!`, `<`, `>` and
//! itself.
//!
//! ```text
//! abbrev pub are_joined : Class → Class → Bool
//! are_joined Letter Letter = true
//! are_joined Connective Connective = true
//! are_joined Negation Equals = true
//! are_joined Order Equals = true
//! are_joined Equals Equals = true
//! are_joined _ _ = false
//! ```
//!
//! Uses: [`Class`](#def.Class), [`Letter`](#def.Class), [`Connective`](#def.Class), [`Negation`](#def.Class), [`Equals`](#def.Class), [`Order`](#def.Class)
//!
//! <a id="def.Words.Word"></a>
//!
//! ## `Word`
//!
//! ```text
//! pub record Word : Type 0 where
//!   pub at : ℕ
//!   pub bytes : List ℕ
//! ```
//!
//! <a id="def.goes_on"></a>
//!
//! ## `goes_on`
//!
//! A character is in one word with the one after it.
//!
//! ```text
//! abbrev pub goes_on : ℕ → List ℕ → Bool
//! goes_on c [] = false
//! goes_on c (d ∷ cs) = are_joined (class_of c) (class_of d)
//! ```
//!
//! Uses: [`are_joined`](#def.are_joined), [`class_of`](#def.class_of)
//!
//! <a id="def.grown"></a>
//!
//! ## `grown`
//!
//! These words, the first of which now begins with this character at the offset `at`.
//!
//! ```text
//! abbrev pub grown : ℕ → ℕ → List Word → List Word
//! grown c at [] = []
//! grown c at (w ∷ ws) = record { at = at; bytes = c ∷ w.bytes } ∷ ws
//! ```
//!
//! Uses: [`Word`](#def.Words.Word)
//!
//! <a id="def.words_at"></a>
//!
//! ## `words_at`
//!
//! The words of a text that begins at the offset `at`.
//!
//! ```text
//! abbrev pub words_at : ℕ → List ℕ → List Word
//! words_at at [] = []
//! words_at at (c ∷ cs) =
//!     if is_blank (class_of c) then words_at (at + 1) cs
//!     else (if goes_on c cs then grown c at (words_at (at + 1) cs)
//!     else (record { at = at; bytes = c ∷ [] } ∷ words_at (at + 1) cs))
//! ```
//!
//! Uses: [`Word`](#def.Words.Word), [`is_blank`](#def.is_blank), [`class_of`](#def.class_of), [`goes_on`](#def.goes_on), [`grown`](#def.grown)
//!
//! <a id="def.words_from"></a>
//!
//! ## `words_from`
//!
//! The words of a text from an offset on.
//!
//! ```text
//! abbrev pub words_from : List ℕ → ℕ → List Word
//! words_from text from = words_at from (drop from text)
//! ```
//!
//! Uses: [`Word`](#def.Words.Word), [`words_at`](#def.words_at)
//!
//! # Numerals
//!
//! Numbers and addresses as words.
//!
//! <a id="def.digits_in"></a>
//!
//! ## `digits_in`
//!
//! The number that digits write; none if there are no digits, or other characters.
//!
//! ```text
//! abbrev pub digits_in : (radix : ℕ) → List ℕ → Option ℕ
//! digits_in radix ds =
//!     if nat_lt 0 (length ds) && list_all (λ c. nat_lt (digit_value c) radix) ds then Some (digits_value radix ds)
//!     else None
//! ```
//!
//! <a id="def.within_32_bits"></a>
//!
//! ## `within_32_bits`
//!
//! A number that fits in 32 bits.
//!
//! ```text
//! abbrev pub within_32_bits : ℕ → Option ℕ
//! within_32_bits n = if nat_lt n (2 ^ 32) then Some n else None
//! ```
//!
//! <a id="def.whole_number_in"></a>
//!
//! ## `whole_number_in`
//!
//! "0x" (48, 120) and hexadecimal digits, or decimal digits without a leading zero, which pcap-filter(7) would read as
//! octal.
//!
//! ```text
//! abbrev pub whole_number_in : List ℕ → Option ℕ
//! whole_number_in word =
//!     if nat_lt 1 (length word) && nat_eq (slice_index word 0) 48
//!     then (if nat_eq (slice_index word 1) 120 then digits_in 16 (drop 2 word) else None)
//!     else digits_in 10 word
//! ```
//!
//! Uses: [`digits_in`](#def.digits_in)
//!
//! <a id="def.number_in"></a>
//!
//! ## `number_in`
//!
//! ```text
//! abbrev pub number_in : List ℕ → Option (Option ℕ)
//! number_in word = option_map within_32_bits (whole_number_in word)
//! ```
//!
//! Uses: [`within_32_bits`](#def.within_32_bits), [`whole_number_in`](#def.whole_number_in)
//!
//! <a id="def.within_64_bits"></a>
//!
//! ## `within_64_bits`
//!
//! A number that fits in 64 bits.
//!
//! ```text
//! abbrev pub within_64_bits : ℕ → Option ℕ
//! within_64_bits n = if nat_lt n (2 ^ 64) then Some n else None
//! ```
//!
//! <a id="def.wide_number_in"></a>
//!
//! ## `wide_number_in`
//!
//! ```text
//! abbrev pub wide_number_in : List ℕ → Option (Option ℕ)
//! wide_number_in word = option_map within_64_bits (whole_number_in word)
//! ```
//!
//! Uses: [`within_64_bits`](#def.within_64_bits), [`whole_number_in`](#def.whole_number_in)
//!
//! <a id="def.colon_places"></a>
//!
//! ## `colon_places`
//!
//! ```text
//! abbrev pub colon_places : List ℕ
//! colon_places = 2 ∷ 5 ∷ 8 ∷ 11 ∷ 14 ∷ []
//! ```
//!
//! <a id="def.digit_places"></a>
//!
//! ## `digit_places`
//!
//! ```text
//! abbrev pub digit_places : List ℕ
//! digit_places = 0 ∷ 1 ∷ 3 ∷ 4 ∷ 6 ∷ 7 ∷ 9 ∷ 10 ∷ 12 ∷ 13 ∷ 15 ∷ 16 ∷ []
//! ```
//!
//! <a id="def.pairs_in"></a>
//!
//! ## `pairs_in`
//!
//! xx:xx:xx:xx:xx:xx, where each x is a hexadecimal digit and 58 is the colon.
//!
//! ```text
//! abbrev pub pairs_in : List ℕ → Option ℕ
//! pairs_in word =
//!     if nat_eq (length word) 17 && list_all (λ i. nat_eq (slice_index word i) 58) colon_places
//!     then digits_in 16 (map (slice_index word) digit_places) else None
//! ```
//!
//! Uses: [`colon_places`](#def.colon_places), [`digits_in`](#def.digits_in), [`digit_places`](#def.digit_places)
//!
//! <a id="def.address_in"></a>
//!
//! ## `address_in`
//!
//! > `pairs_in`: xx:xx:xx:xx:xx:xx, where each x is a hexadecimal digit and 58 is the colon
//!
//! .. or the twelve digits alone.
//!
//! ```text
//! abbrev pub address_in : List ℕ → Option ℕ
//! address_in word = if nat_eq (length word) 12 then digits_in 16 word else pairs_in word
//! ```
//!
//! Uses: [`digits_in`](#def.digits_in), [`pairs_in`](#def.pairs_in)
//!
//! # Byte texts
//!
//! Bytes as words, and slices of bytes.
//!
//! <a id="def.place_in"></a>
//!
//! ## `place_in`
//!
//! The first place of a character in a text that begins at the offset `at`.
//!
//! ```text
//! abbrev pub place_in : (c at : ℕ) → List ℕ → Option ℕ
//! place_in c at [] = None
//! place_in c at (d ∷ ds) = if nat_eq d c then Some at else place_in c (at + 1) ds
//! ```
//!
//! **An address of IPv4**
//!
//! <a id="def.as_byte"></a>
//!
//! ## `as_byte`
//!
//! A number up to 255.
//!
//! ```text
//! abbrev pub as_byte : Option (Option ℕ) → Option ℕ
//! as_byte (Some (Some n)) = if nat_lt n 256 then Some n else None
//! as_byte _ = None
//! ```
//!
//! <a id="def.byte_in"></a>
//!
//! ## `byte_in`
//!
//! ```text
//! abbrev pub byte_in : List ℕ → Option ℕ
//! byte_in word = as_byte (number_in word)
//! ```
//!
//! Uses: [`as_byte`](#def.as_byte), [`number_in`](#def.number_in)
//!
//! <a id="def.part_at"></a>
//!
//! ## `part_at`
//!
//! ```text
//! abbrev pub part_at : List ℕ → Option ℕ → Option (ℕ × List ℕ)
//! part_at word None = None
//! part_at word (Some dot) = option_map (λ n. (n, drop (dot + 1) word)) (byte_in (take dot word))
//! ```
//!
//! Uses: [`byte_in`](#def.byte_in)
//!
//! <a id="def.part_in"></a>
//!
//! ## `part_in`
//!
//! The number before the first dot (46), and what follows the dot.
//!
//! ```text
//! abbrev pub part_in : List ℕ → Option (ℕ × List ℕ)
//! part_in word = part_at word (place_in 46 0 word)
//! ```
//!
//! Uses: [`part_at`](#def.part_at), [`place_in`](#def.place_in)
//!
//! <a id="def.four_with"></a>
//!
//! ## `four_with`
//!
//! ```text
//! abbrev pub four_with : (a b c : ℕ) → Option ℕ → Option Literal
//! four_with a b c None = None
//! four_with a b c (Some d) = Some (record { len = 4; number = number (a ∷ b ∷ c ∷ d ∷ []) })
//! ```
//!
//! Uses: [`Literal`](#def.Literal)
//!
//! <a id="def.three_with"></a>
//!
//! ## `three_with`
//!
//! ```text
//! abbrev pub three_with : (a b : ℕ) → Option (ℕ × List ℕ) → Option Literal
//! three_with a b None = None
//! three_with a b (Some p) = four_with a b p.0 (byte_in p.1)
//! ```
//!
//! Uses: [`Literal`](#def.Literal), [`four_with`](#def.four_with), [`byte_in`](#def.byte_in)
//!
//! <a id="def.two_with"></a>
//!
//! ## `two_with`
//!
//! ```text
//! abbrev pub two_with : (a : ℕ) → Option (ℕ × List ℕ) → Option Literal
//! two_with a None = None
//! two_with a (Some p) = three_with a p.0 (part_in p.1)
//! ```
//!
//! Uses: [`Literal`](#def.Literal), [`three_with`](#def.three_with), [`part_in`](#def.part_in)
//!
//! <a id="def.one_with"></a>
//!
//! ## `one_with`
//!
//! ```text
//! abbrev pub one_with : Option (ℕ × List ℕ) → Option Literal
//! one_with None = None
//! one_with (Some p) = two_with p.0 (part_in p.1)
//! ```
//!
//! Uses: [`Literal`](#def.Literal), [`two_with`](#def.two_with), [`part_in`](#def.part_in)
//!
//! <a id="def.ipv4_in"></a>
//!
//! ## `ipv4_in`
//!
//! Four numbers up to 255 with dots between them.
//!
//! ```text
//! abbrev pub ipv4_in : List ℕ → Option Literal
//! ipv4_in word = one_with (part_in word)
//! ```
//!
//! Uses: [`Literal`](#def.Literal), [`one_with`](#def.one_with), [`part_in`](#def.part_in)
//!
//! **Bytes**
//!
//! <a id="def.pair_digits_in"></a>
//!
//! ## `pair_digits_in`
//!
//! The digits of pairs with colons (58) between them.
//!
//! ```text
//! abbrev pub pair_digits_in : List ℕ → Option (List ℕ)
//! pair_digits_in (a ∷ b ∷ []) = Some (a ∷ b ∷ [])
//! pair_digits_in (a ∷ b ∷ c ∷ rest) =
//!     if nat_eq c 58 then option_map (λ ds. a ∷ b ∷ ds) (pair_digits_in rest) else None
//! pair_digits_in _ = None
//! ```
//!
//! <a id="def.bytes_with"></a>
//!
//! ## `bytes_with`
//!
//! ```text
//! abbrev pub bytes_with : (len : ℕ) → Option ℕ → Option Literal
//! bytes_with len None = None
//! bytes_with len (Some n) = Some (record { len = len; number = n })
//! ```
//!
//! Uses: [`Literal`](#def.Literal)
//!
//! <a id="def.bytes_of_digits"></a>
//!
//! ## `bytes_of_digits`
//!
//! ```text
//! abbrev pub bytes_of_digits : (len : ℕ) → Option (List ℕ) → Option Literal
//! bytes_of_digits len None = None
//! bytes_of_digits len (Some ds) = bytes_with len (digits_in 16 ds)
//! ```
//!
//! Uses: [`Literal`](#def.Literal), [`bytes_with`](#def.bytes_with), [`digits_in`](#def.digits_in)
//!
//! <a id="def.bytes_in"></a>
//!
//! ## `bytes_in`
//!
//! Two to eight pairs of hexadecimal digits with colons between them.
//!
//! ```text
//! abbrev pub bytes_in : List ℕ → Option Literal
//! bytes_in word =
//!     if nat_le 5 (length word) && nat_le (length word) 23
//!     then bytes_of_digits ((length word + 1) / 3) (pair_digits_in word) else None
//! ```
//!
//! Uses: [`Literal`](#def.Literal), [`bytes_of_digits`](#def.bytes_of_digits), [`pair_digits_in`](#def.pair_digits_in)
//!
//! <a id="def.either_of"></a>
//!
//! ## `either_of`
//!
//! ```text
//! abbrev pub either_of : Option Literal → Option Literal → Option Literal
//! either_of (Some bytes) other = Some bytes
//! either_of None other = other
//! ```
//!
//! Uses: [`Literal`](#def.Literal)
//!
//! <a id="def.literal_in"></a>
//!
//! ## `literal_in`
//!
//! ```text
//! abbrev pub literal_in : List ℕ → Option Literal
//! literal_in word = either_of (bytes_in word) (ipv4_in word)
//! ```
//!
//! Uses: [`Literal`](#def.Literal), [`either_of`](#def.either_of), [`bytes_in`](#def.bytes_in), [`ipv4_in`](#def.ipv4_in)
//!
//! **A slice**
//!
//! <a id="def.slice_with"></a>
//!
//! ## `slice_with`
//!
//! ```text
//! abbrev pub slice_with : (first : ℕ) → Option ℕ → Option (ℕ × ℕ)
//! slice_with first None = None
//! slice_with first (Some count) = Some (first, count)
//! ```
//!
//! <a id="def.slice_from"></a>
//!
//! ## `slice_from`
//!
//! ```text
//! abbrev pub slice_from : Option ℕ → List ℕ → Option (ℕ × ℕ)
//! slice_from None rest = None
//! slice_from (Some first) rest = slice_with first (byte_in rest)
//! ```
//!
//! Uses: [`slice_with`](#def.slice_with), [`byte_in`](#def.byte_in)
//!
//! <a id="def.slice_at"></a>
//!
//! ## `slice_at`
//!
//! ```text
//! abbrev pub slice_at : List ℕ → Option ℕ → Option (ℕ × ℕ)
//! slice_at body None = None
//! slice_at body (Some colon) = slice_from (byte_in (take colon body)) (drop (colon + 1) body)
//! ```
//!
//! Uses: [`slice_from`](#def.slice_from), [`byte_in`](#def.byte_in)
//!
//! <a id="def.slice_between"></a>
//!
//! ## `slice_between`
//!
//! ```text
//! abbrev pub slice_between : List ℕ → Option (ℕ × ℕ)
//! slice_between body = slice_at body (place_in 58 0 body)
//! ```
//!
//! Uses: [`slice_at`](#def.slice_at), [`place_in`](#def.place_in)
//!
//! <a id="def.slice_in"></a>
//!
//! ## `slice_in`
//!
//! Two numbers with a colon between them, between brackets, of which the last one is 93.
//!
//! ```text
//! abbrev pub slice_in : List ℕ → Option (ℕ × ℕ)
//! slice_in text =
//!     if nat_le 2 (length text) && nat_eq (slice_index text (length text - 1)) 93
//!     then slice_between (slice_range text 1 (length text - 1)) else None
//! ```
//!
//! Uses: [`slice_between`](#def.slice_between)
//!
//! # Time texts
//!
//! Times as words: a date of the Gregorian calendar (ISO 8601) and a time of day in UTC, as RFC 3339 (5.6) writes them.
//!
//! **The calendar**
//!
//! <a id="def.is_leap_year"></a>
//!
//! ## `is_leap_year`
//!
//! Every fourth year is a leap year, except for every hundredth that is not a four hundredth.
//!
//! ```text
//! abbrev pub is_leap_year : ℕ → Bool
//! is_leap_year y = nat_eq (y % 4) 0 && (not (nat_eq (y % 100) 0) || nat_eq (y % 400) 0)
//! ```
//!
//! <a id="def.month_lens"></a>
//!
//! ## `month_lens`
//!
//! The number of days of each month of a year.
//!
//! ```text
//! abbrev pub month_lens : (leap : Bool) → List ℕ
//! month_lens leap = 31 ∷ (if leap then 29 else 28) ∷ 31 ∷ 30 ∷ 31 ∷ 30 ∷ 31 ∷ 31 ∷ 30 ∷ 31 ∷ 30 ∷ 31 ∷ []
//! ```
//!
//! <a id="def.sum"></a>
//!
//! ## `sum`
//!
//! ```text
//! abbrev pub sum : List ℕ → ℕ
//! sum [] = 0
//! sum (n ∷ ns) = n + sum ns
//! ```
//!
//! <a id="def.days_before_month"></a>
//!
//! ## `days_before_month`
//!
//! The number of days of a year before a month.
//!
//! ```text
//! abbrev pub days_before_month : (leap : Bool) → (month : ℕ) → ℕ
//! days_before_month leap month = sum (take (month - 1) (month_lens leap))
//! ```
//!
//! Uses: [`sum`](#def.sum), [`month_lens`](#def.month_lens)
//!
//! <a id="def.days_before_year"></a>
//!
//! ## `days_before_year`
//!
//! The number of days from 1 January of the year 1 to 1 January of a year.
//!
//! ```text
//! abbrev pub days_before_year : ℕ → ℕ
//! days_before_year y = let years = y - 1 in 365 * years + (years / 4 - years / 100 + years / 400)
//! ```
//!
//! <a id="def.is_year"></a>
//!
//! ## `is_year`
//!
//! There is such a date, and 64 bits have the nanoseconds from 1970 to it.
//!
//! ```text
//! abbrev pub is_year : ℕ → Bool
//! is_year year = nat_le 1970 year && nat_lt year 2554
//! ```
//!
//! <a id="def.is_month"></a>
//!
//! ## `is_month`
//!
//! ```text
//! abbrev pub is_month : ℕ → Bool
//! is_month month = nat_le 1 month && nat_le month 12
//! ```
//!
//! <a id="def.is_day"></a>
//!
//! ## `is_day`
//!
//! ```text
//! abbrev pub is_day : (year month day : ℕ) → Bool
//! is_day year month day = nat_le 1 day && nat_le day (slice_index (month_lens (is_leap_year year)) (month - 1))
//! ```
//!
//! Uses: [`month_lens`](#def.month_lens), [`is_leap_year`](#def.is_leap_year)
//!
//! <a id="def.days_in"></a>
//!
//! ## `days_in`
//!
//! The number of days from the beginning of 1970 to a date.
//!
//! ```text
//! abbrev pub days_in : (year month day : ℕ) → Option ℕ
//! days_in year month day =
//!     if is_year year && is_month month
//!     then (if is_day year month day
//!     then Some (days_before_year year + days_before_month (is_leap_year year) month + (day - 1) - days_before_year 1970)
//!     else None)
//!     else None
//! ```
//!
//! Uses: [`is_year`](#def.is_year), [`is_month`](#def.is_month), [`is_day`](#def.is_day), [`days_before_year`](#def.days_before_year), [`days_before_month`](#def.days_before_month), [`is_leap_year`](#def.is_leap_year)
//!
//! **A text**
//!
//! <a id="def.is_digit"></a>
//!
//! ## `is_digit`
//!
//! A zero (48), or one of the nine digits after it.
//!
//! ```text
//! abbrev pub is_digit : ℕ → Bool
//! is_digit c = nat_le 48 c && nat_lt (c - 48) 10
//! ```
//!
//! <a id="def.date_digits"></a>
//!
//! ## `date_digits`
//!
//! The places of the digits in 2026-11-01T00:00:00.
//!
//! ```text
//! abbrev pub date_digits : List ℕ
//! date_digits = 0 ∷ 1 ∷ 2 ∷ 3 ∷ 5 ∷ 6 ∷ 8 ∷ 9 ∷ 11 ∷ 12 ∷ 14 ∷ 15 ∷ 17 ∷ 18 ∷ []
//! ```
//!
//! <a id="def.are_digits"></a>
//!
//! ## `are_digits`
//!
//! ```text
//! abbrev pub are_digits : List ℕ → Bool
//! are_digits text = list_all (λ i. is_digit (slice_index text i)) date_digits
//! ```
//!
//! Uses: [`is_digit`](#def.is_digit), [`date_digits`](#def.date_digits)
//!
//! <a id="def.are_signs"></a>
//!
//! ## `are_signs`
//!
//! The signs between them: two hyphens, a T and two colons.
//!
//! ```text
//! abbrev pub are_signs : List ℕ → Bool
//! are_signs text =
//!     list_all (λ i. nat_eq (slice_index text i) 45) (4 ∷ 7 ∷ [])
//!     && (nat_eq (slice_index text 10) 84 && list_all (λ i. nat_eq (slice_index text i) 58) (13 ∷ 16 ∷ []))
//! ```
//!
//! <a id="def.two_at"></a>
//!
//! ## `two_at`
//!
//! The number of the two digits from a place on.
//!
//! ```text
//! abbrev pub two_at : (at : ℕ) → List ℕ → ℕ
//! two_at at text = (slice_index text at - 48) * 10 + (slice_index text (at + 1) - 48)
//! ```
//!
//! <a id="def.is_time"></a>
//!
//! ## `is_time`
//!
//! ```text
//! abbrev pub is_time : List ℕ → Bool
//! is_time text = (nat_lt (two_at 11 text) 24 && nat_lt (two_at 14 text) 60) && nat_lt (two_at 17 text) 60
//! ```
//!
//! Uses: [`two_at`](#def.two_at)
//!
//! <a id="def.second_of_day"></a>
//!
//! ## `second_of_day`
//!
//! ```text
//! abbrev pub second_of_day : List ℕ → ℕ
//! second_of_day text = two_at 11 text * 3600 + two_at 14 text * 60 + two_at 17 text
//! ```
//!
//! Uses: [`two_at`](#def.two_at)
//!
//! <a id="def.days_at"></a>
//!
//! ## `days_at`
//!
//! ```text
//! abbrev pub days_at : List ℕ → Option ℕ
//! days_at text = days_in (two_at 0 text * 100 + two_at 2 text) (two_at 5 text) (two_at 8 text)
//! ```
//!
//! Uses: [`days_in`](#def.days_in), [`two_at`](#def.two_at)
//!
//! <a id="def.seconds_in"></a>
//!
//! ## `seconds_in`
//!
//! The number of seconds from the beginning of 1970 to a date and a time of day.
//!
//! ```text
//! abbrev pub seconds_in : List ℕ → Option ℕ
//! seconds_in text =
//!     if (are_digits text && are_signs text) && is_time text
//!     then option_map (λ (days : ℕ). days * 86400 + second_of_day text) (days_at text) else None
//! ```
//!
//! Uses: [`are_digits`](#def.are_digits), [`are_signs`](#def.are_signs), [`is_time`](#def.is_time), [`second_of_day`](#def.second_of_day), [`days_at`](#def.days_at)
//!
//! <a id="def.nine_digits"></a>
//!
//! ## `nine_digits`
//!
//! Decimals of the second in nanoseconds: with zeros (48) after them they are nine.
//!
//! ```text
//! abbrev pub nine_digits : List ℕ → List ℕ
//! nine_digits ds = ds ++ drop (length ds) (codes "000000000")
//! ```
//!
//! <a id="def.decimals_in"></a>
//!
//! ## `decimals_in`
//!
//! The nanoseconds after the second: none before a Z (90), or one to nine decimals between a point (46) and a Z.
//!
//! ```text
//! abbrev pub decimals_in : List ℕ → Option ℕ
//! decimals_in text =
//!     if nat_eq (length text) 1 && nat_eq (slice_index text 0) 90 then Some 0
//!     else (if (nat_le 3 (length text) && nat_le (length text) 11)
//!     && (nat_eq (slice_index text 0) 46 && nat_eq (slice_index text (length text - 1)) 90)
//!     then digits_in 10 (nine_digits (slice_range text 1 (length text - 1))) else None)
//! ```
//!
//! Uses: [`digits_in`](#def.digits_in), [`nine_digits`](#def.nine_digits)
//!
//! <a id="def.unquoted"></a>
//!
//! ## `unquoted`
//!
//! What is between two quotation marks (34), or the whole word.
//!
//! ```text
//! abbrev pub unquoted : List ℕ → List ℕ
//! unquoted word =
//!     if nat_le 2 (length word) && (nat_eq (slice_index word 0) 34 && nat_eq (slice_index word (length word - 1)) 34)
//!     then slice_range word 1 (length word - 1) else word
//! ```
//!
//! <a id="def.nanoseconds_with"></a>
//!
//! ## `nanoseconds_with`
//!
//! ```text
//! abbrev pub nanoseconds_with : Option ℕ → Option ℕ → Option ℕ
//! nanoseconds_with None decimals = None
//! nanoseconds_with (Some seconds) None = None
//! nanoseconds_with (Some seconds) (Some decimals) = Some (seconds * 10 ^ 9 + decimals)
//! ```
//!
//! <a id="def.nanoseconds_in"></a>
//!
//! ## `nanoseconds_in`
//!
//! ```text
//! abbrev pub nanoseconds_in : List ℕ → Option ℕ
//! nanoseconds_in text =
//!     if nat_lt (length text) 20 then None else nanoseconds_with (seconds_in (take 19 text)) (decimals_in (drop 19 text))
//! ```
//!
//! Uses: [`nanoseconds_with`](#def.nanoseconds_with), [`seconds_in`](#def.seconds_in), [`decimals_in`](#def.decimals_in)
//!
//! <a id="def.time_in"></a>
//!
//! ## `time_in`
//!
//! The time that a word is, with quotation marks or without, as the nanoseconds since the beginning of 1970.
//!
//! ```text
//! abbrev pub time_in : List ℕ → Option ℕ
//! time_in word = nanoseconds_in (unquoted word)
//! ```
//!
//! Uses: [`nanoseconds_in`](#def.nanoseconds_in), [`unquoted`](#def.unquoted)
//!
//! # Subjects
//!
//! The fields that words name, and the values that they take.
//!
//! **The field with a name**
//!
//! <a id="def.tested_sections"></a>
//!
//! ## `tested_sections`
//!
//! The sections whose fields can be tested.
//!
//! ```text
//! abbrev pub tested_sections : List Section
//! tested_sections = Eth ∷ Sll ∷ Vlan ∷ Macsec ∷ Arp ∷ []
//! ```
//!
//! Uses: `Eth` (`Section::Eth`), `Sll` (`Section::Sll`), `Vlan` (`Section::Vlan`), `Macsec` (`Section::Macsec`), `Arp` (`Section::Arp`)
//!
//! <a id="def.row_in"></a>
//!
//! ## `row_in`
//!
//! The row of a section whose name as a column is this.
//!
//! ```text
//! abbrev pub row_in : (name : List ℕ) → Section → List Row → Option Row
//! row_in name s rows = find (λ r. pointwise nat_eq (column_name s r) name) rows
//! ```
//!
//! Uses: [`Row`](crate::definitions::ether_fields#def.Row), [`column_name`](crate::definitions::ether_fields#def.column_name)
//!
//! <a id="def.row_among"></a>
//!
//! ## `row_among`
//!
//! ```text
//! abbrev pub row_among : (name : List ℕ) → List Section → Option Row
//! row_among name [] = None
//! row_among name (s ∷ ss) = option_or (row_in name s (section_rows s)) (row_among name ss)
//! ```
//!
//! Uses: [`Row`](crate::definitions::ether_fields#def.Row), [`row_in`](#def.row_in), [`section_rows`](crate::definitions::ether_fields#def.section_rows)
//!
//! <a id="def.row_named"></a>
//!
//! ## `row_named`
//!
//! ```text
//! abbrev pub row_named : (name : List ℕ) → Option Row
//! row_named name = row_among name tested_sections
//! ```
//!
//! Uses: [`Row`](crate::definitions::ether_fields#def.Row), [`row_among`](#def.row_among), [`tested_sections`](#def.tested_sections)
//!
//! **The values that it takes**
//!
//! <a id="def.greatest_in_bits"></a>
//!
//! ## `greatest_in_bits`
//!
//! The greatest number in so many bits, which are some that fields have.
//!
//! ```text
//! abbrev pub greatest_in_bits : ℕ → Option ℕ
//! greatest_in_bits n =
//!     if list_any (nat_eq n) (1 ∷ 2 ∷ 3 ∷ 6 ∷ 8 ∷ 12 ∷ 16 ∷ 32 ∷ []) then Some (2 ^ n - 1) else None
//! ```
//!
//! <a id="def.greatest_in_bytes"></a>
//!
//! ## `greatest_in_bytes`
//!
//! > `greatest_in_bits`: the greatest number in so many bits, which are some that fields have
//!
//! .. in so many bytes, up to eight.
//!
//! ```text
//! abbrev pub greatest_in_bytes : ℕ → ℕ
//! greatest_in_bytes n = if nat_le n 7 then 2 ^ (8 * n) - 1 else 2 ^ 64 - 1
//! ```
//!
//! <a id="def.takes_in_bits"></a>
//!
//! ## `takes_in_bits`
//!
//! ```text
//! abbrev pub takes_in_bits : Kind → ℕ → Option Takes
//! takes_in_bits kind.Bytes n = Some (takes.Bytes (n / 8))
//! takes_in_bits _ n = option_map takes.Number (greatest_in_bits n)
//! ```
//!
//! Uses: [`Takes`](#def.Takes), `kind` (`Kind`), [`takes.Bytes`](#def.Takes), [`takes.Number`](#def.Takes), [`greatest_in_bits`](#def.greatest_in_bits)
//!
//! <a id="def.takes_in"></a>
//!
//! ## `takes_in`
//!
//! ```text
//! abbrev pub takes_in : Kind → Extent → Option Takes
//! takes_in kind (extents.Bits n) = takes_in_bits kind n
//! takes_in kind extents.HardwareAddress = Some takes.AnyBytes
//! takes_in kind extents.ProtocolAddress = Some takes.AnyBytes
//! takes_in kind extents.SecureChannel = Some (takes.Bytes 8)
//! takes_in kind extents.PayloadType = Some (takes.Number 65535)
//! takes_in kind _ = None
//! ```
//!
//! Uses: [`Takes`](#def.Takes), `extents` (`Extent`), [`takes_in_bits`](#def.takes_in_bits), [`takes.AnyBytes`](#def.Takes), [`takes.Bytes`](#def.Takes), [`takes.Number`](#def.Takes)
//!
//! <a id="def.takes_of"></a>
//!
//! ## `takes_of`
//!
//! Those of a column that has bits in a header.
//!
//! ```text
//! abbrev pub takes_of : Row → Option Takes
//! takes_of r = if r.is_member then takes_in r.kind r.extent else None
//! ```
//!
//! Uses: [`Row`](crate::definitions::ether_fields#def.Row), [`Takes`](#def.Takes), [`takes_in`](#def.takes_in)
//!
//! <a id="def.subject_with"></a>
//!
//! ## `subject_with`
//!
//! ```text
//! abbrev pub subject_with : Row → Option Takes → Option Subject
//! subject_with r None = None
//! subject_with r (Some takes) =
//!     if nat_lt r.number 256 then Some (record { field = r.number; first = 0; count = 0; takes = takes }) else None
//! ```
//!
//! Uses: [`Row`](crate::definitions::ether_fields#def.Row), [`Takes`](#def.Takes), [`Subject`](#def.Subject)
//!
//! <a id="def.subject_of"></a>
//!
//! ## `subject_of`
//!
//! ```text
//! abbrev pub subject_of : Row → Option Subject
//! subject_of r = subject_with r (takes_of r)
//! ```
//!
//! Uses: [`Row`](crate::definitions::ether_fields#def.Row), [`Subject`](#def.Subject), [`subject_with`](#def.subject_with), [`takes_of`](#def.takes_of)
//!
//! <a id="def.subject_if"></a>
//!
//! ## `subject_if`
//!
//! ```text
//! abbrev pub subject_if : Option Row → Option Subject
//! subject_if None = None
//! subject_if (Some r) = subject_of r
//! ```
//!
//! Uses: [`Row`](crate::definitions::ether_fields#def.Row), [`Subject`](#def.Subject), [`subject_of`](#def.subject_of)
//!
//! <a id="def.length_subject"></a>
//!
//! ## `length_subject`
//!
//! A length of a packet has 32 bits.
//!
//! ```text
//! abbrev pub length_subject : (field : ℕ) → Subject
//! length_subject field = record { field = field; first = 0; count = 0; takes = takes.Number 4294967295 }
//! ```
//!
//! Uses: [`Subject`](#def.Subject)
//!
//! <a id="def.header_subject"></a>
//!
//! ## `header_subject`
//!
//! The name of a header.
//!
//! ```text
//! abbrev pub header_subject : Subject
//! header_subject = record { field = 252; first = 0; count = 0; takes = takes.Header }
//! ```
//!
//! Uses: [`Subject`](#def.Subject)
//!
//! <a id="def.time_subject"></a>
//!
//! ## `time_subject`
//!
//! The time of a packet.
//!
//! ```text
//! abbrev pub time_subject : Subject
//! time_subject = record { field = 253; first = 0; count = 0; takes = takes.Time }
//! ```
//!
//! Uses: [`Subject`](#def.Subject)
//!
//! <a id="def.has_slice"></a>
//!
//! ## `has_slice`
//!
//! The bytes of a field can have a slice.
//!
//! ```text
//! abbrev pub has_slice : Takes → (first count : ℕ) → Bool
//! has_slice (takes.Number most) first count = false
//! has_slice (takes.Bytes len) first count = nat_le (first + count) len
//! has_slice takes.AnyBytes first count = true
//! has_slice takes.Time first count = false
//! has_slice takes.Header first count = false
//! ```
//!
//! Uses: [`Takes`](#def.Takes), [`takes.Number`](#def.Takes), [`takes.Bytes`](#def.Takes), [`takes.AnyBytes`](#def.Takes), [`takes.Time`](#def.Takes), [`takes.Header`](#def.Takes)
//!
//! <a id="def.sliced"></a>
//!
//! ## `sliced`
//!
//! A slice of one to eight bytes.
//!
//! ```text
//! abbrev pub sliced : Subject → (first count : ℕ) → Option Subject
//! sliced s first count =
//!     if nat_eq count 0 || (nat_lt 8 count || not (has_slice s.takes first count)) then None
//!     else Some (record { field = s.field; first = first; count = count; takes = takes.Bytes count })
//! ```
//!
//! Uses: [`Subject`](#def.Subject), [`has_slice`](#def.has_slice)
//!
//! <a id="def.sliced_by"></a>
//!
//! ## `sliced_by`
//!
//! ```text
//! abbrev pub sliced_by : Subject → Option (ℕ × ℕ) → Option Subject
//! sliced_by s None = None
//! sliced_by s (Some slice) = sliced s slice.0 slice.1
//! ```
//!
//! Uses: [`Subject`](#def.Subject), [`sliced`](#def.sliced)
//!
//! <a id="def.sliced_if"></a>
//!
//! ## `sliced_if`
//!
//! ```text
//! abbrev pub sliced_if : Option Subject → (slice : List ℕ) → Option Subject
//! sliced_if None slice = None
//! sliced_if (Some s) slice = sliced_by s (slice_in slice)
//! ```
//!
//! Uses: [`Subject`](#def.Subject), [`sliced_by`](#def.sliced_by), [`slice_in`](#def.slice_in)
//!
//! <a id="def.unnumbered_subject"></a>
//!
//! ## `unnumbered_subject`
//!
//! The names of headers, and what a capture says of a packet; these fields have no number in the table, and have one
//! here.
//!
//! ```text
//! abbrev pub unnumbered_subject : List ℕ → Option Subject
//! unnumbered_subject name =
//!     if pointwise nat_eq name (codes "headers.header") then Some header_subject
//!     else (if pointwise nat_eq name (codes "frame.time") then Some time_subject
//!     else (if pointwise nat_eq name (codes "frame.captured") then Some (length_subject 254)
//!     else (if pointwise nat_eq name (codes "frame.original") then Some (length_subject 255) else None)))
//! ```
//!
//! Uses: [`Subject`](#def.Subject), [`header_subject`](#def.header_subject), [`time_subject`](#def.time_subject), [`length_subject`](#def.length_subject)
//!
//! <a id="def.subject_at"></a>
//!
//! ## `subject_at`
//!
//! The field before the first bracket (91), or the whole word.
//!
//! ```text
//! abbrev pub subject_at : List ℕ → Option ℕ → Option Subject
//! subject_at word None = option_or (unnumbered_subject word) (subject_if (row_named word))
//! subject_at word (Some at) = sliced_if (subject_if (row_named (take at word))) (drop at word)
//! ```
//!
//! Uses: [`Subject`](#def.Subject), [`unnumbered_subject`](#def.unnumbered_subject), [`subject_if`](#def.subject_if), [`row_named`](#def.row_named), [`sliced_if`](#def.sliced_if)
//!
//! <a id="def.subject_in"></a>
//!
//! ## `subject_in`
//!
//! The field that a word names, or the slice of its bytes.
//!
//! ```text
//! abbrev pub subject_in : List ℕ → Option Subject
//! subject_in word = subject_at word (place_in 91 0 word)
//! ```
//!
//! Uses: [`Subject`](#def.Subject), [`subject_at`](#def.subject_at), [`place_in`](#def.place_in)
//!
//! **A value**
//!
//! <a id="def.number_for"></a>
//!
//! ## `number_for`
//!
//! A number as a value.
//!
//! ```text
//! abbrev pub number_for : Takes → ℕ → Option Literal
//! number_for (takes.Number most) n = if nat_le n most then Some (record { len = 0; number = n }) else None
//! number_for (takes.Bytes len) n =
//!     if nat_le n (greatest_in_bytes len) then Some (record { len = len; number = n }) else None
//! number_for takes.AnyBytes n = None
//! number_for takes.Time n = None
//! number_for takes.Header n = None
//! ```
//!
//! Uses: [`Takes`](#def.Takes), [`Literal`](#def.Literal), [`takes.Number`](#def.Takes), [`takes.Bytes`](#def.Takes), [`greatest_in_bytes`](#def.greatest_in_bytes), [`takes.AnyBytes`](#def.Takes), [`takes.Time`](#def.Takes), [`takes.Header`](#def.Takes)
//!
//! <a id="def.bytes_for"></a>
//!
//! ## `bytes_for`
//!
//! Bytes as a value.
//!
//! ```text
//! abbrev pub bytes_for : Takes → Literal → Option Literal
//! bytes_for (takes.Number most) bytes = None
//! bytes_for (takes.Bytes len) bytes = if nat_eq len bytes.len then Some bytes else None
//! bytes_for takes.AnyBytes bytes = Some bytes
//! bytes_for takes.Time bytes = None
//! bytes_for takes.Header bytes = None
//! ```
//!
//! Uses: [`Takes`](#def.Takes), [`Literal`](#def.Literal), [`takes.Number`](#def.Takes), [`takes.Bytes`](#def.Takes), [`takes.AnyBytes`](#def.Takes), [`takes.Time`](#def.Takes), [`takes.Header`](#def.Takes)
//!
//! <a id="def.time_for"></a>
//!
//! ## `time_for`
//!
//! A time as a value.
//!
//! ```text
//! abbrev pub time_for : Takes → ℕ → Option Literal
//! time_for takes.Time n = Some (record { len = 0; number = n })
//! time_for _ n = None
//! ```
//!
//! Uses: [`Takes`](#def.Takes), [`Literal`](#def.Literal), [`takes.Time`](#def.Takes)
//!
//! <a id="def.name_for"></a>
//!
//! ## `name_for`
//!
//! The name of a header as a value.
//!
//! ```text
//! abbrev pub name_for : Takes → List ℕ → Option Literal
//! name_for takes.Header name = Some (record { len = length name; number = number name })
//! name_for _ name = None
//! ```
//!
//! Uses: [`Takes`](#def.Takes), [`Literal`](#def.Literal), [`takes.Header`](#def.Takes)
//!
//! **A test**
//!
//! <a id="def.test_with"></a>
//!
//! ## `test_with`
//!
//! ```text
//! abbrev pub test_with : Subject → (mask : ℕ) → Relation → Literal → FieldTest
//! test_with s mask relation value = record {
//!   field = s.field;
//!   first = s.first;
//!   count = s.count;
//!   relation = relation;
//!   mask = mask;
//!   len = value.len;
//!   value = value.number;
//! }
//! ```
//!
//! Uses: [`Subject`](#def.Subject), [`Literal`](#def.Literal)
//!
//! <a id="def.all_bits"></a>
//!
//! ## `all_bits`
//!
//! The mask that keeps all bits.
//!
//! ```text
//! abbrev pub all_bits : ℕ
//! all_bits = 2 ^ 64 - 1
//! ```
//!
//! <a id="def.equal_to"></a>
//!
//! ## `equal_to`
//!
//! The primitive of a test whose value is the whole of a field: some have words of their own, as `vlan.vid == 5`, which
//! is `vlan 5`.
//!
//! ```text
//! abbrev pub equal_to : FieldTest → Primitive
//! equal_to t =
//!     if nat_eq t.field 11 then primitives.VlanId (t.value % 2 ^ 16)
//!     else (if nat_eq t.field 1 then primitives.Destination t.value
//!     else (if nat_eq t.field 2 then primitives.Source t.value else primitives.Field t))
//! ```
//!
//! Uses: `primitives` (`Primitive`)
//!
//! <a id="def.tested_by"></a>
//!
//! ## `tested_by`
//!
//! ```text
//! abbrev pub tested_by : Relation → FieldTest → Primitive
//! tested_by relations.Exists t = if nat_eq t.field 11 then primitives.Vlan else primitives.Field t
//! tested_by relations.Equal t =
//!     if nat_eq t.count 0 && nat_eq t.mask all_bits then equal_to t else primitives.Field t
//! tested_by _ t = primitives.Field t
//! ```
//!
//! Uses: `relations` (`Relation`), `primitives` (`Primitive`), [`all_bits`](#def.all_bits), [`equal_to`](#def.equal_to)
//!
//! <a id="def.tested"></a>
//!
//! ## `tested`
//!
//! The primitive of a test of a field.
//!
//! ```text
//! abbrev pub tested : FieldTest → Primitive
//! tested t = if nat_le 253 t.field then primitives.Frame t else tested_by t.relation t
//! ```
//!
//! Uses: `primitives` (`Primitive`), [`tested_by`](#def.tested_by)
//!
//! <a id="def.existence_of"></a>
//!
//! ## `existence_of`
//!
//! The test that there is a value.
//!
//! ```text
//! abbrev pub existence_of : Subject → FieldTest
//! existence_of s = test_with s all_bits relations.Exists (record { len = 0; number = 0 })
//! ```
//!
//! Uses: [`Subject`](#def.Subject), [`test_with`](#def.test_with), [`all_bits`](#def.all_bits), `relations` (`Relation`)
//!
//! # Tokens
//!
//! What the words of an expression mean.
//!
//! <a id="def.keywords"></a>
//!
//! ## `keywords`
//!
//! The words with a meaning of their own.
//!
//! ```text
//! abbrev pub keywords : List (List ℕ × Token)
//! keywords =
//!     (codes "(", tokens.Open) ∷ (codes ")", tokens.Close) ∷ (codes "not", tokens.Not) ∷ (codes "!", tokens.Not) ∷
//!     (codes "and", tokens.Join And) ∷ (codes "&&", tokens.Join And) ∷ (codes "or", tokens.Join Or)
//!     ∷ (codes "||", tokens.Join Or) ∷
//!     (codes "vlan", tokens.Vlan) ∷ (codes "outer", tokens.Outer) ∷ (codes "inner", tokens.Inner)
//!     ∷ (codes "macsec", tokens.Macsec) ∷ (codes "eth", tokens.Eth) ∷ (codes "sll", tokens.Sll) ∷
//!     (codes "arp", tokens.Arp) ∷ (codes "ip", tokens.Ip) ∷ (codes "ip6", tokens.Ip6) ∷
//!     (codes "ether", tokens.Ether) ∷ (codes "proto", tokens.Proto) ∷ (codes "src", tokens.Src)
//!     ∷ (codes "dst", tokens.Dst) ∷ (codes "host", tokens.Host) ∷
//!     (codes "broadcast", tokens.Broadcast) ∷ (codes "multicast", tokens.Multicast) ∷
//!     (codes "refused", tokens.Refused) ∷ (codes "fault", tokens.Refused) ∷ (codes "cut", tokens.Cut) ∷ (
//!       codes "less",
//!       tokens.Less,
//!     )
//!     ∷ (codes "greater", tokens.Greater) ∷
//!     (codes "==", tokens.Relation Equal) ∷ (codes "!=", tokens.Relation NotEqual) ∷ (codes "<", tokens.Relation Less)
//!     ∷ (codes "<=", tokens.Relation AtMost) ∷ (codes ">", tokens.Relation Greater)
//!     ∷ (codes ">=", tokens.Relation AtLeast)
//!     ∷ (codes "&", tokens.Mask) ∷ (codes "in", tokens.In) ∷ (codes "{", tokens.OpenSet)
//!     ∷ (codes "}", tokens.CloseSet) ∷ (codes ",", tokens.Comma) ∷ []
//! ```
//!
//! Uses: [`Token`](#def.Token), [`tokens.Open`](#def.Token), [`tokens.Close`](#def.Token), [`tokens.Not`](#def.Token), [`tokens.Join`](#def.Token), `And` (`Operator::And`), `Or` (`Operator::Or`), [`tokens.Vlan`](#def.Token), [`tokens.Outer`](#def.Token), [`tokens.Inner`](#def.Token), [`tokens.Macsec`](#def.Token), [`tokens.Eth`](#def.Token), [`tokens.Sll`](#def.Token), [`tokens.Arp`](#def.Token), [`tokens.Ip`](#def.Token), [`tokens.Ip6`](#def.Token), [`tokens.Ether`](#def.Token), [`tokens.Proto`](#def.Token), [`tokens.Src`](#def.Token), [`tokens.Dst`](#def.Token), [`tokens.Host`](#def.Token), [`tokens.Broadcast`](#def.Token), [`tokens.Multicast`](#def.Token), [`tokens.Refused`](#def.Token), [`tokens.Cut`](#def.Token), [`tokens.Less`](#def.Token), [`tokens.Greater`](#def.Token), [`tokens.Relation`](#def.Token), `Equal` (`Relation::Equal`), `NotEqual` (`Relation::NotEqual`), `Less` (`Relation::Less`), `AtMost` (`Relation::AtMost`), `Greater` (`Relation::Greater`), `AtLeast` (`Relation::AtLeast`), [`tokens.Mask`](#def.Token), [`tokens.In`](#def.Token), [`tokens.OpenSet`](#def.Token), [`tokens.CloseSet`](#def.Token), [`tokens.Comma`](#def.Token)
//!
//! <a id="def.meaning_among"></a>
//!
//! ## `meaning_among`
//!
//! What a word means, if it is among these.
//!
//! ```text
//! abbrev pub meaning_among : List (List ℕ × Token) → List ℕ → Option Token
//! meaning_among [] word = None
//! meaning_among (entry ∷ entries) word =
//!     if pointwise nat_eq entry.0 word then Some entry.1 else meaning_among entries word
//! ```
//!
//! Uses: [`Token`](#def.Token)
//!
//! <a id="def.number_token"></a>
//!
//! ## `number_token`
//!
//! ```text
//! abbrev pub number_token : Option (Option ℕ) → Token
//! number_token None = tokens.Unknown
//! number_token (Some number) = tokens.Number number
//! ```
//!
//! Uses: [`Token`](#def.Token), [`tokens.Unknown`](#def.Token), [`tokens.Number`](#def.Token)
//!
//! <a id="def.literal"></a>
//!
//! ## `literal`
//!
//! ```text
//! abbrev pub literal : List ℕ → Token
//! literal word =
//!     unwrap_or (option_map tokens.Address (address_in word))
//!     (unwrap_or (option_map tokens.Bytes (literal_in word))
//!     (unwrap_or (option_map tokens.Field (subject_in word))
//!     (unwrap_or (option_map tokens.Time (time_in word)) (number_token (wide_number_in word)))))
//! ```
//!
//! Uses: [`Token`](#def.Token), [`tokens.Address`](#def.Token), [`address_in`](#def.address_in), [`tokens.Bytes`](#def.Token), [`literal_in`](#def.literal_in), [`tokens.Field`](#def.Token), [`subject_in`](#def.subject_in), [`tokens.Time`](#def.Token), [`time_in`](#def.time_in), [`number_token`](#def.number_token), [`wide_number_in`](#def.wide_number_in)
//!
//! <a id="def.token_of"></a>
//!
//! ## `token_of`
//!
//! ```text
//! abbrev pub token_of : List ℕ → Token
//! token_of word = unwrap_or (meaning_among keywords word) (literal word)
//! ```
//!
//! Uses: [`Token`](#def.Token), [`meaning_among`](#def.meaning_among), [`keywords`](#def.keywords), [`literal`](#def.literal)
//!
//! # Steps
//!
//! Reading a primitive word by word.
//!
//! <a id="def.most_of"></a>
//!
//! ## `most_of`
//!
//! ```text
//! abbrev pub most_of : Numbered → ℕ
//! most_of numbers.EtherType = 65535
//! most_of numbers.Less = 4294967295
//! most_of numbers.Greater = 4294967295
//! most_of _ = 4095
//! ```
//!
//! Uses: [`Numbered`](#def.Numbered), [`numbers.EtherType`](#def.Numbered), [`numbers.Less`](#def.Numbered), [`numbers.Greater`](#def.Numbered)
//!
//! <a id="def.number_primitive"></a>
//!
//! ## `number_primitive`
//!
//! ```text
//! abbrev pub number_primitive : Numbered → ℕ → Primitive
//! number_primitive numbers.VlanId n = primitives.VlanId n
//! number_primitive numbers.OuterVlan n = primitives.OuterVlan n
//! number_primitive numbers.InnerVlan n = primitives.InnerVlan n
//! number_primitive numbers.EtherType n = primitives.EtherType n
//! number_primitive numbers.Less n = primitives.Less n
//! number_primitive numbers.Greater n = primitives.Greater n
//! ```
//!
//! Uses: [`Numbered`](#def.Numbered), [`numbers.VlanId`](#def.Numbered), `primitives` (`Primitive`), [`numbers.OuterVlan`](#def.Numbered), [`numbers.InnerVlan`](#def.Numbered), [`numbers.EtherType`](#def.Numbered), [`numbers.Less`](#def.Numbered), [`numbers.Greater`](#def.Numbered)
//!
//! <a id="def.numbered"></a>
//!
//! ## `numbered`
//!
//! ```text
//! abbrev pub numbered : Numbered → ℕ → Step
//! numbered of n = if nat_lt (most_of of) n then Fails else Done (number_primitive of n)
//! ```
//!
//! Uses: [`Numbered`](#def.Numbered), [`Step`](#def.Step), [`most_of`](#def.most_of), [`Fails`](#def.Step), [`Done`](#def.Step), [`number_primitive`](#def.number_primitive)
//!
//! <a id="def.addressed"></a>
//!
//! ## `addressed`
//!
//! ```text
//! abbrev pub addressed : Addressed → ℕ → Primitive
//! addressed addresses.Source a = primitives.Source a
//! addressed addresses.Destination a = primitives.Destination a
//! addressed addresses.Host a = primitives.Host a
//! ```
//!
//! Uses: [`Addressed`](#def.Addressed), [`addresses.Source`](#def.Addressed), `primitives` (`Primitive`), [`addresses.Destination`](#def.Addressed), [`addresses.Host`](#def.Addressed)
//!
//! <a id="def.first_step"></a>
//!
//! ## `first_step`
//!
//! ```text
//! abbrev pub first_step : Token → Step
//! first_step tokens.Vlan = More awaits.VlanId
//! first_step tokens.Outer = More (awaits.Vlan numbers.OuterVlan)
//! first_step tokens.Inner = More (awaits.Vlan numbers.InnerVlan)
//! first_step tokens.Macsec = Done primitives.Macsec
//! first_step tokens.Arp = Done (primitives.EtherType 0x0806)
//! first_step tokens.Ip = Done (primitives.EtherType 0x0800)
//! first_step tokens.Ip6 = Done (primitives.EtherType 0x86DD)
//! first_step tokens.Ether = More awaits.EtherWord
//! first_step tokens.Refused = Done primitives.Refused
//! first_step tokens.Cut = Done primitives.Cut
//! first_step tokens.Less = More (awaits.Number numbers.Less)
//! first_step tokens.Greater = More (awaits.Number numbers.Greater)
//! first_step (tokens.Field subject) = More (awaits.Relation subject)
//! first_step _ = Fails
//! ```
//!
//! Uses: [`Token`](#def.Token), [`Step`](#def.Step), [`tokens.Vlan`](#def.Token), [`More`](#def.Step), [`awaits.VlanId`](#def.Awaited), [`tokens.Outer`](#def.Token), [`awaits.Vlan`](#def.Awaited), [`numbers.OuterVlan`](#def.Numbered), [`tokens.Inner`](#def.Token), [`numbers.InnerVlan`](#def.Numbered), [`tokens.Macsec`](#def.Token), [`Done`](#def.Step), `primitives` (`Primitive`), [`tokens.Arp`](#def.Token), [`tokens.Ip`](#def.Token), [`tokens.Ip6`](#def.Token), [`tokens.Ether`](#def.Token), [`awaits.EtherWord`](#def.Awaited), [`tokens.Refused`](#def.Token), [`tokens.Cut`](#def.Token), [`tokens.Less`](#def.Token), [`awaits.Number`](#def.Awaited), [`numbers.Less`](#def.Numbered), [`tokens.Greater`](#def.Token), [`numbers.Greater`](#def.Numbered), [`tokens.Field`](#def.Token), [`awaits.Relation`](#def.Awaited), [`Fails`](#def.Step)
//!
//! <a id="def.value_for"></a>
//!
//! ## `value_for`
//!
//! The value that a word is for a field, if the field takes it.
//!
//! ```text
//! abbrev pub value_for : Takes → Token → Option Literal
//! value_for takes (tokens.Number (Some n)) = number_for takes n
//! value_for takes (tokens.Address a) = bytes_for takes (record { len = 6; number = a })
//! value_for takes (tokens.Bytes bytes) = bytes_for takes bytes
//! value_for takes (tokens.Time time) = time_for takes time
//! value_for takes tokens.Eth = name_for takes (codes "eth")
//! value_for takes tokens.Sll = name_for takes (codes "sll")
//! value_for takes tokens.Vlan = name_for takes (codes "vlan")
//! value_for takes tokens.Macsec = name_for takes (codes "macsec")
//! value_for takes tokens.Arp = name_for takes (codes "arp")
//! value_for takes _ = None
//! ```
//!
//! Uses: [`Takes`](#def.Takes), [`Token`](#def.Token), [`Literal`](#def.Literal), [`tokens.Number`](#def.Token), [`number_for`](#def.number_for), [`tokens.Address`](#def.Token), [`bytes_for`](#def.bytes_for), [`tokens.Bytes`](#def.Token), [`tokens.Time`](#def.Token), [`time_for`](#def.time_for), [`tokens.Eth`](#def.Token), [`name_for`](#def.name_for), [`tokens.Sll`](#def.Token), [`tokens.Vlan`](#def.Token), [`tokens.Macsec`](#def.Token), [`tokens.Arp`](#def.Token)
//!
//! <a id="def.masked"></a>
//!
//! ## `masked`
//!
//! ```text
//! abbrev pub masked : Subject → Option Literal → Step
//! masked subject None = Fails
//! masked subject (Some mask) = More (awaits.MaskedRelation subject mask.number)
//! ```
//!
//! Uses: [`Subject`](#def.Subject), [`Literal`](#def.Literal), [`Step`](#def.Step), [`Fails`](#def.Step), [`More`](#def.Step), [`awaits.MaskedRelation`](#def.Awaited)
//!
//! <a id="def.related"></a>
//!
//! ## `related`
//!
//! ```text
//! abbrev pub related : Subject → (mask : ℕ) → Relation → Option Literal → Step
//! related subject mask relation None = Fails
//! related subject mask relation (Some value) = Done (tested (test_with subject mask relation value))
//! ```
//!
//! Uses: [`Subject`](#def.Subject), [`Literal`](#def.Literal), [`Step`](#def.Step), [`Fails`](#def.Step), [`Done`](#def.Step), [`tested`](#def.tested), [`test_with`](#def.test_with)
//!
//! <a id="def.next_step"></a>
//!
//! ## `next_step`
//!
//! ```text
//! abbrev pub next_step : Awaited → Token → Step
//! next_step (awaits.Vlan of) tokens.Vlan = More (awaits.Number of)
//! next_step (awaits.Number of) (tokens.Number (Some n)) = numbered of n
//! next_step (awaits.Address of) (tokens.Address a) = Done (addressed of a)
//! next_step awaits.EtherWord tokens.Proto = More (awaits.Number numbers.EtherType)
//! next_step awaits.EtherWord tokens.Src = More (awaits.Address addresses.Source)
//! next_step awaits.EtherWord tokens.Dst = More (awaits.Address addresses.Destination)
//! next_step awaits.EtherWord tokens.Host = More (awaits.Address addresses.Host)
//! next_step awaits.EtherWord tokens.Broadcast = Done primitives.Broadcast
//! next_step awaits.EtherWord tokens.Multicast = Done primitives.Multicast
//! next_step (awaits.Relation subject) tokens.Mask = More (awaits.Mask subject)
//! next_step (awaits.Relation subject) (tokens.Relation relation) = More (awaits.Value subject all_bits relation)
//! next_step (awaits.MaskedRelation subject mask) (tokens.Relation relation) = More (awaits.Value subject mask relation)
//! next_step (awaits.Relation subject) tokens.In = More (awaits.Set subject all_bits)
//! next_step (awaits.MaskedRelation subject mask) tokens.In = More (awaits.Set subject mask)
//! next_step (awaits.Set subject mask) tokens.OpenSet = More (awaits.FirstMember subject mask)
//! next_step (awaits.SetEnd subject mask) tokens.Comma = More (awaits.Member subject mask)
//! next_step (awaits.Mask subject) token = masked subject (value_for subject.takes token)
//! next_step (awaits.Value subject mask relation) token = related subject mask relation (value_for subject.takes token)
//! next_step _ _ = Fails
//! ```
//!
//! Uses: [`Awaited`](#def.Awaited), [`Token`](#def.Token), [`Step`](#def.Step), [`awaits.Vlan`](#def.Awaited), [`tokens.Vlan`](#def.Token), [`More`](#def.Step), [`awaits.Number`](#def.Awaited), [`tokens.Number`](#def.Token), [`numbered`](#def.numbered), [`awaits.Address`](#def.Awaited), [`tokens.Address`](#def.Token), [`Done`](#def.Step), [`addressed`](#def.addressed), [`awaits.EtherWord`](#def.Awaited), [`tokens.Proto`](#def.Token), [`numbers.EtherType`](#def.Numbered), [`tokens.Src`](#def.Token), [`addresses.Source`](#def.Addressed), [`tokens.Dst`](#def.Token), [`addresses.Destination`](#def.Addressed), [`tokens.Host`](#def.Token), [`addresses.Host`](#def.Addressed), [`tokens.Broadcast`](#def.Token), `primitives` (`Primitive`), [`tokens.Multicast`](#def.Token), [`awaits.Relation`](#def.Awaited), [`tokens.Mask`](#def.Token), [`awaits.Mask`](#def.Awaited), [`tokens.Relation`](#def.Token), [`awaits.Value`](#def.Awaited), [`all_bits`](#def.all_bits), [`awaits.MaskedRelation`](#def.Awaited), [`tokens.In`](#def.Token), [`awaits.Set`](#def.Awaited), [`tokens.OpenSet`](#def.Token), [`awaits.FirstMember`](#def.Awaited), [`awaits.SetEnd`](#def.Awaited), [`tokens.Comma`](#def.Token), [`awaits.Member`](#def.Awaited), [`masked`](#def.masked), [`value_for`](#def.value_for), [`related`](#def.related), [`Fails`](#def.Step)
//!
//! <a id="def.member_test"></a>
//!
//! ## `member_test`
//!
//! The test that a field has a value of a set.
//!
//! ```text
//! abbrev pub member_test : Subject → (mask : ℕ) → Option Literal → Option Primitive
//! member_test subject mask None = None
//! member_test subject mask (Some value) = Some (tested (test_with subject mask Equal value))
//! ```
//!
//! Uses: [`Subject`](#def.Subject), [`Literal`](#def.Literal), [`tested`](#def.tested), [`test_with`](#def.test_with), `Equal` (`Relation::Equal`)
//!
//! <a id="def.member"></a>
//!
//! ## `member`
//!
//! ```text
//! abbrev pub member : Subject → (mask : ℕ) → Token → Option Primitive
//! member subject mask token = member_test subject mask (value_for subject.takes token)
//! ```
//!
//! Uses: [`Subject`](#def.Subject), [`Token`](#def.Token), [`member_test`](#def.member_test), [`value_for`](#def.value_for)
//!
//! <a id="def.value_kind"></a>
//!
//! ## `value_kind`
//!
//! The error for a word that is no value of a field.
//!
//! ```text
//! abbrev pub value_kind : Takes → FilterErrorKind
//! value_kind (takes.Number most) = kinds.ExpectedNumber most
//! value_kind (takes.Bytes len) = kinds.ExpectedBytes len
//! value_kind takes.AnyBytes = kinds.ExpectedAnyBytes
//! value_kind takes.Time = kinds.ExpectedTime
//! value_kind takes.Header = kinds.ExpectedHeader
//! ```
//!
//! Uses: [`Takes`](#def.Takes), [`takes.Number`](#def.Takes), `kinds` (`FilterErrorKind`), [`takes.Bytes`](#def.Takes), [`takes.AnyBytes`](#def.Takes), [`takes.Time`](#def.Takes), [`takes.Header`](#def.Takes)
//!
//! <a id="def.kind_of"></a>
//!
//! ## `kind_of`
//!
//! ```text
//! abbrev pub kind_of : Awaited → FilterErrorKind
//! kind_of awaits.Operand = kinds.ExpectedOperand
//! kind_of awaits.Operator = kinds.ExpectedOperator
//! kind_of awaits.VlanId = kinds.ExpectedNumber 4095
//! kind_of (awaits.Vlan of) = kinds.ExpectedVlan
//! kind_of (awaits.Number of) = kinds.ExpectedNumber (most_of of)
//! kind_of awaits.EtherWord = kinds.ExpectedEtherWord
//! kind_of (awaits.Address of) = kinds.ExpectedAddress
//! kind_of (awaits.Relation subject) = kinds.ExpectedRelation
//! kind_of (awaits.MaskedRelation subject mask) = kinds.ExpectedRelation
//! kind_of (awaits.Mask subject) = value_kind subject.takes
//! kind_of (awaits.Value subject mask relation) = value_kind subject.takes
//! kind_of (awaits.FirstMember subject mask) = value_kind subject.takes
//! kind_of (awaits.Member subject mask) = value_kind subject.takes
//! kind_of (awaits.Set subject mask) = kinds.ExpectedSet
//! kind_of (awaits.SetEnd subject mask) = kinds.ExpectedSetEnd
//! ```
//!
//! Uses: [`Awaited`](#def.Awaited), [`awaits.Operand`](#def.Awaited), `kinds` (`FilterErrorKind`), [`awaits.Operator`](#def.Awaited), [`awaits.VlanId`](#def.Awaited), [`awaits.Vlan`](#def.Awaited), [`awaits.Number`](#def.Awaited), [`most_of`](#def.most_of), [`awaits.EtherWord`](#def.Awaited), [`awaits.Address`](#def.Awaited), [`awaits.Relation`](#def.Awaited), [`awaits.MaskedRelation`](#def.Awaited), [`awaits.Mask`](#def.Awaited), [`value_kind`](#def.value_kind), [`awaits.Value`](#def.Awaited), [`awaits.FirstMember`](#def.Awaited), [`awaits.Member`](#def.Awaited), [`awaits.Set`](#def.Awaited), [`awaits.SetEnd`](#def.Awaited)
//!
//! # Grammar
//!
//! The grammar of expressions (pcap-filter(7)).
//!
//! <a id="def.NamesBits"></a>
//!
//! ## `NamesBits`
//!
//! A field, and the bits of it that are compared.
//!
//! ```text
//! pub data NamesBits (subject : Subject) : List Token → (mask : ℕ) → Type 0 where
//!   all : NamesBits subject (tokens.Field subject ∷ []) all_bits
//!   masked : (t : Token) (mask : Literal) → value_for subject.takes t ≡ Some mask
//!       → NamesBits subject (tokens.Field subject ∷ tokens.Mask ∷ t ∷ []) mask.number
//! ```
//!
//! Uses: [`Subject`](#def.Subject), [`Token`](#def.Token), [`tokens.Field`](#def.Token), [`all_bits`](#def.all_bits), [`Literal`](#def.Literal), [`value_for`](#def.value_for), [`tokens.Mask`](#def.Token)
//!
//! <a id="def.NamesPrimitive"></a>
//!
//! ## `NamesPrimitive`
//!
//! The words of a primitive.
//!
//! ```text
//! pub data NamesPrimitive : List Token → Primitive → Type 0 where
//!   vlan : NamesPrimitive (tokens.Vlan ∷ []) primitives.Vlan
//!   vlan_id : (n : ℕ) → n < 4096 → NamesPrimitive (tokens.Vlan ∷ tokens.Number (Some n) ∷ []) (primitives.VlanId n)
//!   outer_vlan : (n : ℕ) → n < 4096 → NamesPrimitive (tokens.Outer ∷ tokens.Vlan ∷ tokens.Number (Some n) ∷ [])
//!       (primitives.OuterVlan n)
//!   inner_vlan : (n : ℕ) → n < 4096 → NamesPrimitive (tokens.Inner ∷ tokens.Vlan ∷ tokens.Number (Some n) ∷ [])
//!       (primitives.InnerVlan n)
//!   macsec : NamesPrimitive (tokens.Macsec ∷ []) primitives.Macsec
//!   arp : NamesPrimitive (tokens.Arp ∷ []) (primitives.EtherType 0x0806)
//!   ip : NamesPrimitive (tokens.Ip ∷ []) (primitives.EtherType 0x0800)
//!   ip6 : NamesPrimitive (tokens.Ip6 ∷ []) (primitives.EtherType 0x86DD)
//!   proto : (n : ℕ) → n < 65536 → NamesPrimitive (tokens.Ether ∷ tokens.Proto ∷ tokens.Number (Some n) ∷ [])
//!       (primitives.EtherType n)
//!   src : (a : ℕ) → NamesPrimitive (tokens.Ether ∷ tokens.Src ∷ tokens.Address a ∷ []) (primitives.Source a)
//!   dst : (a : ℕ) → NamesPrimitive (tokens.Ether ∷ tokens.Dst ∷ tokens.Address a ∷ []) (primitives.Destination a)
//!   host : (a : ℕ) → NamesPrimitive (tokens.Ether ∷ tokens.Host ∷ tokens.Address a ∷ []) (primitives.Host a)
//!   broadcast : NamesPrimitive (tokens.Ether ∷ tokens.Broadcast ∷ []) primitives.Broadcast
//!   multicast : NamesPrimitive (tokens.Ether ∷ tokens.Multicast ∷ []) primitives.Multicast
//!   refused : NamesPrimitive (tokens.Refused ∷ []) primitives.Refused
//!   cut : NamesPrimitive (tokens.Cut ∷ []) primitives.Cut
//!   less : (n : ℕ) → n < 4294967296 → NamesPrimitive (tokens.Less ∷ tokens.Number (Some n) ∷ []) (primitives.Less n)
//!   greater : (n : ℕ) → n < 4294967296 → NamesPrimitive (tokens.Greater ∷ tokens.Number (Some n) ∷ [])
//!       (primitives.Greater n)
//!   field : (subject : Subject) → NamesPrimitive (tokens.Field subject ∷ []) (tested (existence_of subject))
//!   related : (subject : Subject) (ts : List Token) (mask : ℕ) (relation : Relation) (t : Token) (value : Literal)
//!       → NamesBits subject ts mask → value_for subject.takes t ≡ Some value
//!       → NamesPrimitive (ts ++ tokens.Relation relation ∷ t ∷ [])
//!       (tested (test_with subject mask relation value))
//! ```
//!
//! Uses: [`Token`](#def.Token), [`tokens.Vlan`](#def.Token), `primitives` (`Primitive`), [`tokens.Number`](#def.Token), [`tokens.Outer`](#def.Token), [`tokens.Inner`](#def.Token), [`tokens.Macsec`](#def.Token), [`tokens.Arp`](#def.Token), [`tokens.Ip`](#def.Token), [`tokens.Ip6`](#def.Token), [`tokens.Ether`](#def.Token), [`tokens.Proto`](#def.Token), [`tokens.Src`](#def.Token), [`tokens.Address`](#def.Token), [`tokens.Dst`](#def.Token), [`tokens.Host`](#def.Token), [`tokens.Broadcast`](#def.Token), [`tokens.Multicast`](#def.Token), [`tokens.Refused`](#def.Token), [`tokens.Cut`](#def.Token), [`tokens.Less`](#def.Token), [`tokens.Greater`](#def.Token), [`Subject`](#def.Subject), [`tokens.Field`](#def.Token), [`tested`](#def.tested), [`existence_of`](#def.existence_of), [`Literal`](#def.Literal), [`NamesBits`](#def.NamesBits), [`value_for`](#def.value_for), [`tokens.Relation`](#def.Token), [`test_with`](#def.test_with)
//!
//! <a id="def.NamesSet"></a>
//!
//! ## `NamesSet`
//!
//! The words of a set that a field is in, without its end, and what they mean.
//!
//! ```text
//! pub data NamesSet (subject : Subject) (mask : ℕ) : List Token → Expression → Type 0 where
//!   one : (ts : List Token) (t : Token) (p : Primitive) → NamesBits subject ts mask → member subject mask t ≡ Some p
//!       → NamesSet subject mask (ts ++ tokens.In ∷ tokens.OpenSet ∷ t ∷ []) (Test p)
//!   more : (ts : List Token) (x : Expression) (t : Token) (p : Primitive) → NamesSet subject mask ts x
//!       → member subject mask t ≡ Some p
//!       → NamesSet subject mask (ts ++ tokens.Comma ∷ t ∷ []) (Join Or x (Test p))
//! ```
//!
//! Uses: [`Subject`](#def.Subject), [`Token`](#def.Token), [`Expression`](#def.Expression), [`NamesBits`](#def.NamesBits), [`member`](#def.member), [`tokens.In`](#def.Token), [`tokens.OpenSet`](#def.Token), [`Test`](#def.Expression), [`tokens.Comma`](#def.Token), [`Join`](#def.Expression), `Or` (`Operator::Or`)
//!
//! <a id="def.Shape"></a>
//!
//! ## `Shape`
//!
//! One operand, or two or more operands that one operator joins.
//!
//! ```text
//! pub data Shape : Type 0 where
//!   Operand : Shape
//!   Chain : Operator → Shape
//! ```
//!
//! <a id="def.Leads"></a>
//!
//! ## `Leads`
//!
//! What an operator may follow: an operand, or operands that the same operator joins.
//!
//! ```text
//! pub data Leads (operator : Operator) : Shape → Type 0 where
//!   operand : Leads operator Operand
//!   chain : Leads operator (Chain operator)
//! ```
//!
//! Uses: [`Shape`](#def.Shape), [`Operand`](#def.Shape), [`Chain`](#def.Shape)
//!
//! <a id="def.Means"></a>
//!
//! ## `Means`
//!
//! The words that mean an expression: `not` takes one operand, operators associate to the left, and mixing two
//! operators needs parentheses.
//!
//! ```text
//! pub data Means : Shape → List Token → Expression → Type 0 where
//!   primitive : (ts : List Token) (p : Primitive) → NamesPrimitive ts p → Means Operand ts (Test p)
//!   set : (subject : Subject) (mask : ℕ) (ts : List Token) (x : Expression) → NamesSet subject mask ts x
//!       → Means Operand (ts ++ tokens.CloseSet ∷ []) x
//!   negation : (ts : List Token) (x : Expression) → Means Operand ts x → Means Operand (tokens.Not ∷ ts) (Not x)
//!   group : (shape : Shape) (ts : List Token) (x : Expression) → Means shape ts x
//!       → Means Operand (tokens.Open ∷ (ts ++ tokens.Close ∷ [])) x
//!   join : (operator : Operator) (shape : Shape) (ts us : List Token) (x y : Expression) → Leads operator shape
//!       → Means shape ts x → Means Operand us y
//!       → Means (Chain operator) (ts ++ tokens.Join operator ∷ us) (Join operator x y)
//! ```
//!
//! Uses: [`Shape`](#def.Shape), [`Token`](#def.Token), [`Expression`](#def.Expression), [`NamesPrimitive`](#def.NamesPrimitive), [`Operand`](#def.Shape), [`Test`](#def.Expression), [`Subject`](#def.Subject), [`NamesSet`](#def.NamesSet), [`tokens.CloseSet`](#def.Token), [`tokens.Not`](#def.Token), [`Not`](#def.Expression), [`tokens.Open`](#def.Token), [`tokens.Close`](#def.Token), [`Leads`](#def.Leads), [`Chain`](#def.Shape), [`tokens.Join`](#def.Token), [`Join`](#def.Expression)
//!
//! <a id="def.IsExpression"></a>
//!
//! ## `IsExpression`
//!
//! All of these words mean an expression.
//!
//! ```text
//! pub record IsExpression (ts : List Token) (x : Expression) : Type 0 where
//!   pub shape : Shape
//!   pub means : Means shape ts x
//! ```
//!
//! Uses: [`Token`](#def.Token), [`Expression`](#def.Expression), [`Shape`](#def.Shape), [`Means`](#def.Means)
//!
//! # Expression reading
//!
//! Reading an expression word by word: the state after some of its words.
//!
//! <a id="def.ExpressionState"></a>
//!
//! ## `ExpressionState`
//!
//! The nodes of complete parts, the incomplete parts, the innermost first, and what may follow.
//!
//! ```text
//! pub record ExpressionState : Type 0 where
//!   pub nodes : List Node
//!   pub pending : List Pending
//!   pub awaited : Awaited
//! ```
//!
//! Uses: [`Pending`](#def.Pending), [`Awaited`](#def.Awaited)
//!
//! <a id="def.state_of"></a>
//!
//! ## `state_of`
//!
//! ```text
//! abbrev pub state_of : Reading → ExpressionState
//! state_of r = record { nodes = r.nodes.items; pending = reverse r.pending.items; awaited = r.awaited }
//! ```
//!
//! Uses: [`Reading`](#def.Reading), [`ExpressionState`](#def.ExpressionState)
//!
//! <a id="def.begun"></a>
//!
//! ## `begun`
//!
//! ```text
//! abbrev pub begun : ExpressionState
//! begun = record { nodes = []; pending = []; awaited = awaits.Operand }
//! ```
//!
//! Uses: [`ExpressionState`](#def.ExpressionState), [`awaits.Operand`](#def.Awaited)
//!
//! <a id="def.Outcome"></a>
//!
//! ## `Outcome`
//!
//! ```text
//! abbrev pub Outcome : Type 0
//! Outcome = Result ExpressionState FilterErrorKind
//! ```
//!
//! Uses: [`ExpressionState`](#def.ExpressionState)
//!
//! <a id="def.closed"></a>
//!
//! ## `closed`
//!
//! After an operand, which completes the negations before it.
//!
//! ```text
//! abbrev pub closed : List Node → List Pending → ExpressionState
//! closed ns (pendings.Not ∷ p) = closed (ns ++ nodes.Not ∷ []) p
//! closed ns p = record { nodes = ns; pending = p; awaited = awaits.Operator }
//! ```
//!
//! Uses: [`Pending`](#def.Pending), [`ExpressionState`](#def.ExpressionState), [`pendings.Not`](#def.Pending), `nodes` (`Node`), [`awaits.Operator`](#def.Awaited)
//!
//! <a id="def.completed"></a>
//!
//! ## `completed`
//!
//! ```text
//! abbrev pub completed : ExpressionState → Primitive → ExpressionState
//! completed s primitive = closed (s.nodes ++ nodes.Test primitive ∷ []) s.pending
//! ```
//!
//! Uses: [`ExpressionState`](#def.ExpressionState), [`closed`](#def.closed), `nodes` (`Node`)
//!
//! <a id="def.settled"></a>
//!
//! ## `settled`
//!
//! The operator before an operand is complete.
//!
//! ```text
//! abbrev pub settled : List Node → List Pending → Awaited → ExpressionState
//! settled ns (pendings.Join operator ∷ p) awaited =
//!     record { nodes = ns ++ nodes.Join operator ∷ []; pending = p; awaited = awaited }
//! settled ns p awaited = record { nodes = ns; pending = p; awaited = awaited }
//! ```
//!
//! Uses: [`Pending`](#def.Pending), [`Awaited`](#def.Awaited), [`ExpressionState`](#def.ExpressionState), [`pendings.Join`](#def.Pending)
//!
//! <a id="def.differ"></a>
//!
//! ## `differ`
//!
//! ```text
//! abbrev pub differ : Operator → Operator → Bool
//! differ And Or = true
//! differ Or And = true
//! differ _ _ = false
//! ```
//!
//! Uses: `And` (`Operator::And`), `Or` (`Operator::Or`)
//!
//! <a id="def.joined_by"></a>
//!
//! ## `joined_by`
//!
//! After an operator that follows an operand.
//!
//! ```text
//! abbrev pub joined_by : Operator → List Node → List Pending → Outcome
//! joined_by operator ns (pendings.Join last ∷ p) =
//!     if differ last operator then Err kinds.MixedOperators
//!     else Ok (record {
//!       nodes = ns ++ nodes.Join last ∷ [];
//!       pending = pendings.Join operator ∷ p;
//!       awaited = awaits.Operand;
//!     })
//! joined_by operator ns p = Ok (record { nodes = ns; pending = pendings.Join operator ∷ p; awaited = awaits.Operand })
//! ```
//!
//! Uses: [`Pending`](#def.Pending), [`Outcome`](#def.Outcome), [`pendings.Join`](#def.Pending), [`differ`](#def.differ), `kinds` (`FilterErrorKind`), [`awaits.Operand`](#def.Awaited)
//!
//! <a id="def.closed_group"></a>
//!
//! ## `closed_group`
//!
//! After a closing parenthesis that follows an operand.
//!
//! ```text
//! abbrev pub closed_group : List Node → List Pending → Outcome
//! closed_group ns (pendings.Open ∷ p) = Ok (closed ns p)
//! closed_group ns _ = Err kinds.Unopened
//! ```
//!
//! Uses: [`Pending`](#def.Pending), [`Outcome`](#def.Outcome), [`pendings.Open`](#def.Pending), [`closed`](#def.closed), `kinds` (`FilterErrorKind`)
//!
//! <a id="def.operator_taken"></a>
//!
//! ## `operator_taken`
//!
//! ```text
//! abbrev pub operator_taken : ExpressionState → Token → Outcome
//! operator_taken s (tokens.Join operator) = joined_by operator s.nodes s.pending
//! operator_taken s tokens.Close = let t = settled s.nodes s.pending awaits.Operator in closed_group t.nodes t.pending
//! operator_taken s _ = Err kinds.ExpectedOperator
//! ```
//!
//! Uses: [`ExpressionState`](#def.ExpressionState), [`Token`](#def.Token), [`Outcome`](#def.Outcome), [`tokens.Join`](#def.Token), [`joined_by`](#def.joined_by), [`tokens.Close`](#def.Token), [`settled`](#def.settled), [`awaits.Operator`](#def.Awaited), [`closed_group`](#def.closed_group), `kinds` (`FilterErrorKind`)
//!
//! <a id="def.stepped"></a>
//!
//! ## `stepped`
//!
//! ```text
//! abbrev pub stepped : ExpressionState → Step → Outcome
//! stepped s (Done primitive) = Ok (completed s primitive)
//! stepped s (More awaited) = Ok (record s { awaited = awaited })
//! stepped s Fails = Err (kind_of s.awaited)
//! ```
//!
//! Uses: [`ExpressionState`](#def.ExpressionState), [`Step`](#def.Step), [`Outcome`](#def.Outcome), [`Done`](#def.Step), [`completed`](#def.completed), [`More`](#def.Step), [`Fails`](#def.Step), [`kind_of`](#def.kind_of)
//!
//! <a id="def.operand_taken"></a>
//!
//! ## `operand_taken`
//!
//! ```text
//! abbrev pub operand_taken : ExpressionState → Token → Outcome
//! operand_taken s tokens.Not = Ok (record s { pending = pendings.Not ∷ s.pending })
//! operand_taken s tokens.Open = Ok (record s { pending = pendings.Open ∷ s.pending })
//! operand_taken s token = stepped s (first_step token)
//! ```
//!
//! Uses: [`ExpressionState`](#def.ExpressionState), [`Token`](#def.Token), [`Outcome`](#def.Outcome), [`tokens.Not`](#def.Token), [`pendings.Not`](#def.Pending), [`tokens.Open`](#def.Token), [`pendings.Open`](#def.Pending), [`stepped`](#def.stepped), [`first_step`](#def.first_step)
//!
//! <a id="def.id_taken"></a>
//!
//! ## `id_taken`
//!
//! ```text
//! abbrev pub id_taken : ExpressionState → Token → Outcome
//! id_taken s (tokens.Number n) = stepped s (next_step (awaits.Number numbers.VlanId) (tokens.Number n))
//! id_taken s (tokens.Join operator) = operator_taken (completed s primitives.Vlan) (tokens.Join operator)
//! id_taken s tokens.Close = operator_taken (completed s primitives.Vlan) tokens.Close
//! id_taken s _ = Err kinds.ExpectedVlanIdOrOperator
//! ```
//!
//! Uses: [`ExpressionState`](#def.ExpressionState), [`Token`](#def.Token), [`Outcome`](#def.Outcome), [`tokens.Number`](#def.Token), [`stepped`](#def.stepped), [`next_step`](#def.next_step), [`awaits.Number`](#def.Awaited), [`numbers.VlanId`](#def.Numbered), [`tokens.Join`](#def.Token), [`operator_taken`](#def.operator_taken), [`completed`](#def.completed), `primitives` (`Primitive`), [`tokens.Close`](#def.Token), `kinds` (`FilterErrorKind`)
//!
//! <a id="def.relation_taken"></a>
//!
//! ## `relation_taken`
//!
//! ```text
//! abbrev pub relation_taken : Subject → ExpressionState → Token → Outcome
//! relation_taken subject s (tokens.Relation relation) =
//!     stepped s (next_step (awaits.Relation subject) (tokens.Relation relation))
//! relation_taken subject s tokens.In = stepped s (next_step (awaits.Relation subject) tokens.In)
//! relation_taken subject s tokens.Mask = stepped s (next_step (awaits.Relation subject) tokens.Mask)
//! relation_taken subject s (tokens.Join operator) =
//!     operator_taken (completed s (tested (existence_of subject))) (tokens.Join operator)
//! relation_taken subject s tokens.Close =
//!     operator_taken (completed s (tested (existence_of subject))) tokens.Close
//! relation_taken subject s _ = Err kinds.ExpectedRelationOrOperator
//! ```
//!
//! Uses: [`Subject`](#def.Subject), [`ExpressionState`](#def.ExpressionState), [`Token`](#def.Token), [`Outcome`](#def.Outcome), [`tokens.Relation`](#def.Token), [`stepped`](#def.stepped), [`next_step`](#def.next_step), [`awaits.Relation`](#def.Awaited), [`tokens.In`](#def.Token), [`tokens.Mask`](#def.Token), [`tokens.Join`](#def.Token), [`operator_taken`](#def.operator_taken), [`completed`](#def.completed), [`tested`](#def.tested), [`existence_of`](#def.existence_of), [`tokens.Close`](#def.Token), `kinds` (`FilterErrorKind`)
//!
//! <a id="def.member_taken"></a>
//!
//! ## `member_taken`
//!
//! After a value of a set.
//!
//! ```text
//! abbrev pub member_taken : Subject → (mask : ℕ) → ExpressionState → Option Primitive → Outcome
//! member_taken subject mask s None = Err (kind_of s.awaited)
//! member_taken subject mask s (Some primitive) =
//!     Ok (record {
//!       nodes = s.nodes ++ nodes.Test primitive ∷ [];
//!       pending = s.pending;
//!       awaited = awaits.SetEnd subject mask;
//!     })
//! ```
//!
//! Uses: [`Subject`](#def.Subject), [`ExpressionState`](#def.ExpressionState), [`Outcome`](#def.Outcome), [`kind_of`](#def.kind_of), [`awaits.SetEnd`](#def.Awaited)
//!
//! <a id="def.joined_member"></a>
//!
//! ## `joined_member`
//!
//! > `member_taken`: after a value of a set
//!
//! .. that is not the first one.
//!
//! ```text
//! abbrev pub joined_member : Outcome → Outcome
//! joined_member (Err kind) = Err kind
//! joined_member (Ok s) = Ok (record s { nodes = s.nodes ++ nodes.Join Or ∷ [] })
//! ```
//!
//! Uses: [`Outcome`](#def.Outcome), `Or` (`Operator::Or`)
//!
//! <a id="def.set_taken"></a>
//!
//! ## `set_taken`
//!
//! ```text
//! abbrev pub set_taken : Subject → (mask : ℕ) → ExpressionState → Token → Outcome
//! set_taken subject mask s tokens.CloseSet = Ok (closed s.nodes s.pending)
//! set_taken subject mask s token = stepped s (next_step (awaits.SetEnd subject mask) token)
//! ```
//!
//! Uses: [`Subject`](#def.Subject), [`ExpressionState`](#def.ExpressionState), [`Token`](#def.Token), [`Outcome`](#def.Outcome), [`tokens.CloseSet`](#def.Token), [`closed`](#def.closed), [`stepped`](#def.stepped), [`next_step`](#def.next_step), [`awaits.SetEnd`](#def.Awaited)
//!
//! <a id="def.taken_where"></a>
//!
//! ## `taken_where`
//!
//! ```text
//! abbrev pub taken_where : Awaited → ExpressionState → Token → Outcome
//! taken_where awaits.Operand s token = operand_taken s token
//! taken_where awaits.Operator s token = operator_taken s token
//! taken_where awaits.VlanId s token = id_taken s token
//! taken_where (awaits.Relation subject) s token = relation_taken subject s token
//! taken_where (awaits.FirstMember subject mask) s token = member_taken subject mask s (member subject mask token)
//! taken_where (awaits.Member subject mask) s token =
//!     joined_member (member_taken subject mask s (member subject mask token))
//! taken_where (awaits.SetEnd subject mask) s token = set_taken subject mask s token
//! taken_where awaited s token = stepped s (next_step awaited token)
//! ```
//!
//! Uses: [`Awaited`](#def.Awaited), [`ExpressionState`](#def.ExpressionState), [`Token`](#def.Token), [`Outcome`](#def.Outcome), [`awaits.Operand`](#def.Awaited), [`operand_taken`](#def.operand_taken), [`awaits.Operator`](#def.Awaited), [`operator_taken`](#def.operator_taken), [`awaits.VlanId`](#def.Awaited), [`id_taken`](#def.id_taken), [`awaits.Relation`](#def.Awaited), [`relation_taken`](#def.relation_taken), [`awaits.FirstMember`](#def.Awaited), [`member_taken`](#def.member_taken), [`member`](#def.member), [`awaits.Member`](#def.Awaited), [`joined_member`](#def.joined_member), [`awaits.SetEnd`](#def.Awaited), [`set_taken`](#def.set_taken), [`stepped`](#def.stepped), [`next_step`](#def.next_step)
//!
//! <a id="def.taken"></a>
//!
//! ## `taken`
//!
//! After the next word.
//!
//! ```text
//! abbrev pub taken : ExpressionState → Token → Outcome
//! taken s token = taken_where s.awaited s token
//! ```
//!
//! Uses: [`ExpressionState`](#def.ExpressionState), [`Token`](#def.Token), [`Outcome`](#def.Outcome), [`taken_where`](#def.taken_where)
//!
//! **The end**
//!
//! <a id="def.nothing_open"></a>
//!
//! ## `nothing_open`
//!
//! ```text
//! abbrev pub nothing_open : List Node → List Pending → Result (List Node) FilterErrorKind
//! nothing_open ns [] = Ok ns
//! nothing_open ns (p ∷ ps) = Err kinds.Unclosed
//! ```
//!
//! Uses: [`Pending`](#def.Pending), `kinds` (`FilterErrorKind`)
//!
//! <a id="def.whole"></a>
//!
//! ## `whole`
//!
//! ```text
//! abbrev pub whole : ExpressionState → Result (List Node) FilterErrorKind
//! whole s = let t = settled s.nodes s.pending awaits.Operator in nothing_open t.nodes t.pending
//! ```
//!
//! Uses: [`ExpressionState`](#def.ExpressionState), [`settled`](#def.settled), [`awaits.Operator`](#def.Awaited), [`nothing_open`](#def.nothing_open)
//!
//! <a id="def.ended_where"></a>
//!
//! ## `ended_where`
//!
//! ```text
//! abbrev pub ended_where : Awaited → ExpressionState → Result (List Node) FilterErrorKind
//! ended_where awaits.Operator s = whole s
//! ended_where awaits.VlanId s = whole (completed s primitives.Vlan)
//! ended_where (awaits.Relation subject) s = whole (completed s (tested (existence_of subject)))
//! ended_where awaited s = Err (kind_of awaited)
//! ```
//!
//! Uses: [`Awaited`](#def.Awaited), [`ExpressionState`](#def.ExpressionState), [`awaits.Operator`](#def.Awaited), [`whole`](#def.whole), [`awaits.VlanId`](#def.Awaited), [`completed`](#def.completed), `primitives` (`Primitive`), [`awaits.Relation`](#def.Awaited), [`tested`](#def.tested), [`existence_of`](#def.existence_of), [`kind_of`](#def.kind_of)
//!
//! <a id="def.ended"></a>
//!
//! ## `ended`
//!
//! ```text
//! abbrev pub ended : ExpressionState → Result (List Node) FilterErrorKind
//! ended s = ended_where s.awaited s
//! ```
//!
//! Uses: [`ExpressionState`](#def.ExpressionState), [`ended_where`](#def.ended_where)
//!
//! **Room**
//!
//! <a id="def.is_begun"></a>
//!
//! ## `is_begun`
//!
//! ```text
//! abbrev pub is_begun : Awaited → ℕ
//! is_begun awaits.Operand = 0
//! is_begun awaits.Operator = 0
//! is_begun (awaits.Member subject mask) = 2
//! is_begun _ = 1
//! ```
//!
//! Uses: [`Awaited`](#def.Awaited), [`awaits.Operand`](#def.Awaited), [`awaits.Operator`](#def.Awaited), [`awaits.Member`](#def.Awaited)
//!
//! <a id="def.size_of"></a>
//!
//! ## `size_of`
//!
//! The number of nodes so far, and of those that are still to follow for what was read.
//!
//! ```text
//! abbrev pub size_of : ExpressionState → ℕ
//! size_of s = length s.nodes + length s.pending + is_begun s.awaited
//! ```
//!
//! Uses: [`ExpressionState`](#def.ExpressionState), [`is_begun`](#def.is_begun)
//!
//! # Texts
//!
//! Texts and the expressions that they mean.
//!
//! <a id="def.most_words"></a>
//!
//! ## `most_words`
//!
//! The maximum number of words of an expression.
//!
//! ```text
//! abbrev pub most_words : ℕ
//! most_words = 192
//! ```
//!
//! <a id="def.words_of"></a>
//!
//! ## `words_of`
//!
//! ```text
//! abbrev pub words_of : List ℕ → List Word
//! words_of text = words_from text 0
//! ```
//!
//! Uses: [`Word`](#def.Words.Word), [`words_from`](#def.words_from)
//!
//! <a id="def.tokens_of"></a>
//!
//! ## `tokens_of`
//!
//! ```text
//! abbrev pub tokens_of : List Word → List Token
//! tokens_of ws = map (λ w. token_of w.bytes) ws
//! ```
//!
//! Uses: [`Word`](#def.Words.Word), [`Token`](#def.Token), [`token_of`](#def.token_of)
//!
//! <a id="def.IsExpressionOf"></a>
//!
//! ## `IsExpressionOf`
//!
//! The words of a text are at most that many, and mean this expression.
//!
//! ```text
//! pub record IsExpressionOf (text : List ℕ) (x : Expression) : Type 0 where
//!   pub few : length (words_of text) ≤ most_words
//!   pub means : IsExpression (tokens_of (words_of text)) x
//! ```
//!
//! Uses: [`Expression`](#def.Expression), [`words_of`](#def.words_of), [`most_words`](#def.most_words), [`IsExpression`](#def.IsExpression), [`tokens_of`](#def.tokens_of)
//!
//! # Refusals
//!
//! The table of refusals: the texts that do not mean an expression, and the error of each.
//!
//! <a id="def.Begins"></a>
//!
//! ## `Begins`
//!
//! An expression can begin with these words.
//!
//! ```text
//! pub record Begins (ts : List Token) : Type 0 where
//!   pub rest : List Token
//!   pub x : Expression
//!   pub is : IsExpression (ts ++ rest) x
//! ```
//!
//! Uses: [`Token`](#def.Token), [`Expression`](#def.Expression), [`IsExpression`](#def.IsExpression)
//!
//! <a id="def.Fits"></a>
//!
//! ## `Fits`
//!
//! An expression can begin with these words and the next one.
//!
//! ```text
//! abbrev pub Fits : List Token → Token → Type 0
//! Fits ts t = Begins (ts ++ t ∷ [])
//! ```
//!
//! Uses: [`Token`](#def.Token), [`Begins`](#def.Begins)
//!
//! <a id="def.IsAfterOperand"></a>
//!
//! ## `IsAfterOperand`
//!
//! An operator can follow these words.
//!
//! ```text
//! pub record IsAfterOperand (ts : List Token) : Type 0 where
//!   pub operator : Operator
//!   pub fits : Fits ts (tokens.Join operator)
//! ```
//!
//! Uses: [`Token`](#def.Token), [`Fits`](#def.Fits), [`tokens.Join`](#def.Token)
//!
//! <a id="def.IsOther"></a>
//!
//! ## `IsOther`
//!
//! The word is not an operator, a closing parenthesis or a number.
//!
//! ```text
//! abbrev pub IsOther : Token → Type 0
//! IsOther (tokens.Join operator) = ⊥
//! IsOther tokens.Close = ⊥
//! IsOther (tokens.Number n) = ⊥
//! IsOther _ = Unit {0}
//! ```
//!
//! Uses: [`Token`](#def.Token), [`tokens.Join`](#def.Token), [`tokens.Close`](#def.Token), [`tokens.Number`](#def.Token)
//!
//! <a id="def.IsUnrelated"></a>
//!
//! ## `IsUnrelated`
//!
//! The word is not an operator or a closing parenthesis.
//!
//! ```text
//! abbrev pub IsUnrelated : Token → Type 0
//! IsUnrelated (tokens.Join operator) = ⊥
//! IsUnrelated tokens.Close = ⊥
//! IsUnrelated _ = Unit {0}
//! ```
//!
//! Uses: [`Token`](#def.Token), [`tokens.Join`](#def.Token), [`tokens.Close`](#def.Token)
//!
//! <a id="def.ValueFollows"></a>
//!
//! ## `ValueFollows`
//!
//! A value of a field comes after these words.
//!
//! ```text
//! pub data ValueFollows : List Token → Subject → Type 0 where
//!   compared : (front words : List Token) (subject : Subject) (mask : ℕ) (relation : Relation)
//!       → NamesBits subject words mask
//!       → ValueFollows (front ++ (words ++ tokens.Relation relation ∷ [])) subject
//!   masked : (front : List Token) (subject : Subject)
//!       → ValueFollows (front ++ tokens.Field subject ∷ tokens.Mask ∷ []) subject
//!   first_member : (front words : List Token) (subject : Subject) (mask : ℕ) → NamesBits subject words mask
//!       → ValueFollows (front ++ (words ++ tokens.In ∷ tokens.OpenSet ∷ [])) subject
//!   member : (front words : List Token) (subject : Subject) (mask : ℕ) (x : Expression) → NamesSet subject mask words x
//!       → ValueFollows (front ++ (words ++ tokens.Comma ∷ [])) subject
//! ```
//!
//! Uses: [`Token`](#def.Token), [`Subject`](#def.Subject), [`NamesBits`](#def.NamesBits), [`tokens.Relation`](#def.Token), [`tokens.Field`](#def.Token), [`tokens.Mask`](#def.Token), [`tokens.In`](#def.Token), [`tokens.OpenSet`](#def.Token), [`Expression`](#def.Expression), [`NamesSet`](#def.NamesSet), [`tokens.Comma`](#def.Token)
//!
//! <a id="def.NoValueFollows"></a>
//!
//! ## `NoValueFollows`
//!
//! > `ValueFollows`: a value of a field comes after these words
//!
//! .. a value of no field.
//!
//! ```text
//! abbrev pub NoValueFollows : List Token → Type 0
//! NoValueFollows ts = (subject : Subject) → ValueFollows ts subject → ⊥
//! ```
//!
//! Uses: [`Token`](#def.Token), [`Subject`](#def.Subject), [`ValueFollows`](#def.ValueFollows)
//!
//! <a id="def.Lacks"></a>
//!
//! ## `Lacks`
//!
//! The error for words and the next word, or the end, that does not fit after them. It depends mostly on what would fit
//! there.
//!
//! ```text
//! pub data Lacks (ts : List Token) : Option Token → FilterErrorKind → Type 0 where
//!   operand : (next : Option Token) → Fits ts tokens.Not → Lacks ts next kinds.ExpectedOperand
//!   vlan : (next : Option Token) → Fits ts tokens.Vlan → (Fits ts tokens.Not → ⊥) → NoValueFollows ts
//!       → Lacks ts next kinds.ExpectedVlan
//!   ether_word : (next : Option Token) → Fits ts tokens.Proto → Lacks ts next kinds.ExpectedEtherWord
//!   address : (next : Option Token) → Fits ts (tokens.Address 0) → NoValueFollows ts → Lacks ts next kinds.ExpectedAddress
//!   number : (next : Option Token) (most : ℕ) → Fits ts (tokens.Number (Some most))
//!       → (Fits ts (tokens.Number (Some (most + 1))) → ⊥) → (IsAfterOperand ts → ⊥) → NoValueFollows ts
//!       → Lacks ts next (kinds.ExpectedNumber most)
//!   value : (next : Option Token) (subject : Subject) → ValueFollows ts subject → Lacks ts next (value_kind subject.takes)
//!   relation : (next : Option Token) → Fits ts (tokens.Relation Equal) → (IsAfterOperand ts → ⊥)
//!       → Lacks ts next kinds.ExpectedRelation
//!   set : (next : Option Token) → Fits ts tokens.OpenSet → Lacks ts next kinds.ExpectedSet
//!   set_end : (next : Option Token) → Fits ts tokens.Comma → Lacks ts next kinds.ExpectedSetEnd
//!   relation_or_operator : (t : Token) → IsAfterOperand ts → Fits ts (tokens.Relation Equal) → IsUnrelated t
//!       → Lacks ts (Some t) kinds.ExpectedRelationOrOperator
//!   vlan_id : (n : Option ℕ) → IsAfterOperand ts → Fits ts (tokens.Number (Some 4095))
//!       → Lacks ts (Some (tokens.Number n)) (kinds.ExpectedNumber 4095)
//!   no_number : (n : Option ℕ) → IsAfterOperand ts → (Fits ts (tokens.Number (Some 4095)) → ⊥)
//!       → (Fits ts (tokens.Relation Equal) → ⊥) → Lacks ts (Some (tokens.Number n)) kinds.ExpectedOperator
//!   operator : (t : Token) → IsAfterOperand ts → (Fits ts (tokens.Number (Some 4095)) → ⊥)
//!       → (Fits ts (tokens.Relation Equal) → ⊥) → IsOther t → Lacks ts (Some t) kinds.ExpectedOperator
//!   id_or_operator : (t : Token) → IsAfterOperand ts → Fits ts (tokens.Number (Some 4095)) → IsOther t
//!       → Lacks ts (Some t) kinds.ExpectedVlanIdOrOperator
//!   mixed : (operator : Operator) → IsAfterOperand ts → Lacks ts (Some (tokens.Join operator)) kinds.MixedOperators
//!   unopened : IsAfterOperand ts → Lacks ts (Some tokens.Close) kinds.Unopened
//!   unclosed : IsAfterOperand ts → Lacks ts None kinds.Unclosed
//! ```
//!
//! Uses: [`Token`](#def.Token), [`Fits`](#def.Fits), [`tokens.Not`](#def.Token), `kinds` (`FilterErrorKind`), [`tokens.Vlan`](#def.Token), [`NoValueFollows`](#def.NoValueFollows), [`tokens.Proto`](#def.Token), [`tokens.Address`](#def.Token), [`tokens.Number`](#def.Token), [`IsAfterOperand`](#def.IsAfterOperand), [`Subject`](#def.Subject), [`ValueFollows`](#def.ValueFollows), [`value_kind`](#def.value_kind), [`tokens.Relation`](#def.Token), `Equal` (`Relation::Equal`), [`tokens.OpenSet`](#def.Token), [`tokens.Comma`](#def.Token), [`IsUnrelated`](#def.IsUnrelated), [`IsOther`](#def.IsOther), [`tokens.Join`](#def.Token), [`tokens.Close`](#def.Token)
//!
//! <a id="def.RefusesExpression"></a>
//!
//! ## `RefusesExpression`
//!
//! The rows, for the words of a text of length `end`.
//!
//! ```text
//! pub data RefusesExpression (ws : List Word) (end : ℕ) : FilterError → Type 0 where
//!   -- the first word that does not fit
//!   word : (front rest : List Word) (w : Word) (kind : FilterErrorKind) → ws ≡ front ++ w ∷ rest → length front
//!       < most_words
//!       → Begins (tokens_of front) → (Fits (tokens_of front) (token_of w.bytes) → ⊥)
//!       → Lacks (tokens_of front) (Some (token_of w.bytes)) kind
//!       → RefusesExpression ws end (record { offset = w.at; kind = kind })
//!   -- the end, where words are missing
//!   ending : (kind : FilterErrorKind) → length ws ≤ most_words
//!       → Begins (tokens_of ws) → ((x : Expression) → IsExpression (tokens_of ws) x → ⊥) → Lacks (tokens_of ws) None kind
//!       → RefusesExpression ws end (record { offset = end; kind = kind })
//!   -- the first word above the maximum number, if all words before it fit
//!   long : (front rest : List Word) (w : Word) → ws ≡ front ++ w ∷ rest → length front ≡ most_words
//!       → Begins (tokens_of front)
//!       → RefusesExpression ws end (record { offset = w.at; kind = kinds.TooLong })
//! ```
//!
//! Uses: [`Word`](#def.Words.Word), [`most_words`](#def.most_words), [`Begins`](#def.Begins), [`tokens_of`](#def.tokens_of), [`Fits`](#def.Fits), [`token_of`](#def.token_of), [`Lacks`](#def.Lacks), [`Expression`](#def.Expression), [`IsExpression`](#def.IsExpression), `kinds` (`FilterErrorKind`)
//!
//! <a id="def.RefusesText"></a>
//!
//! ## `RefusesText`
//!
//! ```text
//! abbrev pub RefusesText : List ℕ → FilterError → Type 0
//! RefusesText text error = RefusesExpression (words_of text) (length text) error
//! ```
//!
//! Uses: [`RefusesExpression`](#def.RefusesExpression), [`words_of`](#def.words_of)
//!
//! # Prospects
//!
//! What a unit can be if only its first bytes are there.
//!
//! <a id="def.IsCompletion"></a>
//!
//! ## `IsCompletion`
//!
//! As many bytes as are missing.
//!
//! ```text
//! pub record IsCompletion (packet : Packet) (more : List ℕ) : Type 0 where
//!   pub are_bytes : IsBytes more
//!   pub all : length more ≡ packet.original_len - packet.captured_len
//! ```
//!
//! Uses: [`IsBytes`](crate::definitions::ether_base#def.IsBytes)
//!
//! <a id="def.AtCompletions"></a>
//!
//! ## `AtCompletions`
//!
//! It holds of the packet with any such bytes after its frame; its two lengths are unchanged.
//!
//! ```text
//! abbrev pub AtCompletions : Packet → (Walked → Type 0) → Type 0
//! AtCompletions packet Is =
//!     (more : List ℕ) (hs : List Header) (e : Ending)
//!     → IsCompletion packet more → Walk (start_of packet.start) (packet.frame.now ++ more) hs e → Is (walked packet hs e)
//! ```
//!
//! Uses: [`Walked`](#def.Walked), [`Header`](crate::definitions::ether_base#def.Header), [`Ending`](crate::definitions::ether_peel#def.Ending), [`IsCompletion`](#def.IsCompletion), [`Walk`](crate::definitions::ether_peel#def.Walk), [`start_of`](crate::definitions::ether_peel#def.start_of), [`walked`](#def.walked)
//!
//! # Later
//!
//! What can follow the open unit of a packet that was cut short.
//!
//! **Of a packet**
//!
//! <a id="def.SomeCompletion"></a>
//!
//! ## `SomeCompletion`
//!
//! Some completed packet has it.
//!
//! ```text
//! pub record SomeCompletion (packet : Packet) (Is : Walked → Type 0) : Type 0 where
//!   pub more : List ℕ
//!   pub headers : List Header
//!   pub ending : Ending
//!   pub completes : IsCompletion packet more
//!   pub walk : Walk (start_of packet.start) (packet.frame.now ++ more) headers ending
//!   pub holds : Is (walked packet headers ending)
//! ```
//!
//! Uses: [`Walked`](#def.Walked), [`Header`](crate::definitions::ether_base#def.Header), [`Ending`](crate::definitions::ether_peel#def.Ending), [`IsCompletion`](#def.IsCompletion), [`Walk`](crate::definitions::ether_peel#def.Walk), [`start_of`](crate::definitions::ether_peel#def.start_of), [`walked`](#def.walked)
//!
//! # Types
//!
//! Types that are not public. Definitions use them as they are declared.
//!
//! <a id="def.Numbered"></a>
//!
//! ## `Numbered`
//!
//! A primitive whose last word is a number.
//!
//! ```text
//! enum Numbered {
//!     VlanId,
//!     OuterVlan,
//!     InnerVlan,
//!     EtherType,
//!     Less,
//!     Greater,
//! }
//! ```
//!
//! <a id="def.Addressed"></a>
//!
//! ## `Addressed`
//!
//! A primitive whose last word is an address.
//!
//! ```text
//! enum Addressed {
//!     Source,
//!     Destination,
//!     Host,
//! }
//! ```
//!
//! <a id="def.Awaited"></a>
//!
//! ## `Awaited`
//!
//! What may follow at a place of an expression.
//!
//! ```text
//! enum Awaited {
//!     Operand,
//!     Operator,
//!     /// The identifier after `vlan`, or what may follow an operand.
//!     VlanId,
//!     /// `vlan`, before a number.
//!     Vlan(Numbered),
//!     Number(Numbered),
//!     EtherWord,
//!     Address(Addressed),
//!     /// A relation or `&` after a field, or what may follow an operand.
//!     Relation(Subject),
//!     /// The mask after `&`.
//!     Mask(Subject),
//!     /// A relation after a mask.
//!     MaskedRelation(Subject, u64),
//!     /// The value after a mask and a relation.
//!     Value(Subject, u64, Relation),
//!     /// `{` after `in`.
//!     Set(Subject, u64),
//!     /// The first value of a set.
//!     FirstMember(Subject, u64),
//!     /// A further value of a set.
//!     Member(Subject, u64),
//!     /// `,` or `}` after a value of a set.
//!     SetEnd(Subject, u64),
//! }
//! ```
//!
//! Uses: [`Numbered`](#def.Numbered), [`Addressed`](#def.Addressed), [`Subject`](#def.Subject)
//!
//! <a id="def.Step"></a>
//!
//! ## `Step`
//!
//! What a word does to a primitive that is partly read.
//!
//! ```text
//! enum Step {
//!     /// It completes the primitive.
//!     Done(Primitive),
//!     /// The primitive goes on, and awaits this.
//!     More(Awaited),
//!     /// It does not fit.
//!     Fails,
//! }
//! ```
//!
//! Uses: [`Awaited`](#def.Awaited)
//!
//! <a id="def.Jump"></a>
//!
//! ## `Jump`
//!
//! Where the evaluation goes on after a primitive: the index of a node, or an end.
//!
//! ```text
//! struct Jump {
//!     if_true: u8,
//!     if_false: u8,
//! }
//! ```
//!
//! <a id="def.Pending"></a>
//!
//! ## `Pending`
//!
//! A part of an expression that is not complete yet.
//!
//! ```text
//! enum Pending {
//!     /// A parenthesis that is not closed.
//!     Open,
//!     /// A negation without its operand.
//!     Not,
//!     /// An operator without its right operand.
//!     Join(Operator),
//! }
//! ```
//!
//! <a id="def.Reading"></a>
//!
//! ## `Reading`
//!
//! An expression that is read up to some word.
//!
//! ```text
//! struct Reading {
//!     /// The nodes of its complete parts.
//!     nodes: ArrayVec<Node, MAX_WORDS>,
//!     /// The incomplete parts, the innermost last.
//!     pending: ArrayVec<Pending, MAX_WORDS>,
//!     awaited: Awaited,
//! }
//! ```
//!
//! Uses: [`Pending`](#def.Pending), [`Awaited`](#def.Awaited)
//!
//! <a id="def.Takes"></a>
//!
//! ## `Takes`
//!
//! Which values a field takes.
//!
//! ```text
//! enum Takes {
//!     /// Numbers up to this one.
//!     Number(u32),
//!     /// This number of bytes.
//!     Bytes(u8),
//!     /// Any number of bytes.
//!     AnyBytes,
//!     /// Times.
//!     Time,
//!     /// The names of headers.
//!     Header,
//! }
//! ```
//!
//! <a id="def.Subject"></a>
//!
//! ## `Subject`
//!
//! A field, or a part of its bytes.
//!
//! ```text
//! struct Subject {
//!     /// The number of the field.
//!     pub field: u8,
//!     /// The offset in bytes of the part.
//!     pub first: u8,
//!     /// The number of bytes in the part, or 0 for all.
//!     pub count: u8,
//!     pub takes: Takes,
//! }
//! ```
//!
//! Uses: [`Takes`](#def.Takes)
//!
//! <a id="def.Literal"></a>
//!
//! ## `Literal`
//!
//! What a field is compared with.
//!
//! ```text
//! struct Literal {
//!     /// The number of bytes, or 0 for a number or a time.
//!     pub len: u8,
//!     pub number: u64,
//! }
//! ```
//!
//! <a id="def.Class"></a>
//!
//! ## `Class`
//!
//! The class of a character.
//!
//! ```text
//! enum Class {
//!     /// It separates words.
//!     Blank,
//!     /// It is a word of its own.
//!     Sign,
//!     /// `!`, which `=` can follow.
//!     Negation,
//!     /// `<` or `>`, which `=` can follow.
//!     Order,
//!     /// `=`
//!     Equals,
//!     /// It is part of a word of `&` or `|`.
//!     Connective,
//!     /// It is part of a word of other characters.
//!     Letter,
//! }
//! ```
//!
//! <a id="def.Token"></a>
//!
//! ## `Token`
//!
//! What a word of an expression means.
//!
//! ```text
//! enum Token {
//!     Open,
//!     Close,
//!     Not,
//!     Join(Operator),
//!     Vlan,
//!     Outer,
//!     Inner,
//!     Macsec,
//!     Eth,
//!     Sll,
//!     Arp,
//!     Ip,
//!     Ip6,
//!     Ether,
//!     Proto,
//!     Src,
//!     Dst,
//!     Host,
//!     Broadcast,
//!     Multicast,
//!     Refused,
//!     Cut,
//!     Less,
//!     Greater,
//!     /// A number; `None` if it does not fit in 64 bits.
//!     Number(Option<u64>),
//!     Address(u64),
//!     /// The bytes of a value, other than those of an address.
//!     Bytes(Literal),
//!     /// The nanoseconds since the beginning of 1970.
//!     Time(u64),
//!     Field(Subject),
//!     Relation(Relation),
//!     /// `&`
//!     Mask,
//!     In,
//!     OpenSet,
//!     CloseSet,
//!     Comma,
//!     /// A word that no expression has.
//!     Unknown,
//! }
//! ```
//!
//! Uses: [`Literal`](#def.Literal), [`Subject`](#def.Subject)
//!
