//! Captured packets as JSON, columns, lines for the eye.
//!
//! # Calendar
//!
//! Times as dates of the Gregorian calendar and hours of Coordinated Universal Time (ISO 8601).
//!
//! **The calendar**
//!
//! <a id="def.is_leap_year"></a>
//!
//! ## `is_leap_year`
//!
//! Every fourth year is a leap year, except for every hundredth that is not a four hundredth.
//!
//! ```text
//! abbrev pub is_leap_year : ℕ → Bool
//! is_leap_year y = nat_eq (y % 4) 0 && (not (nat_eq (y % 100) 0) || nat_eq (y % 400) 0)
//! ```
//!
//! <a id="def.month_lens"></a>
//!
//! ## `month_lens`
//!
//! The number of days of each month of a year.
//!
//! ```text
//! abbrev pub month_lens : (leap : Bool) → List ℕ
//! month_lens leap = 31 ∷ (if leap then 29 else 28) ∷ 31 ∷ 30 ∷ 31 ∷ 30 ∷ 31 ∷ 31 ∷ 30 ∷ 31 ∷ 30 ∷ 31 ∷ []
//! ```
//!
//! <a id="def.sum"></a>
//!
//! ## `sum`
//!
//! ```text
//! abbrev pub sum : List ℕ → ℕ
//! sum [] = 0
//! sum (n ∷ ns) = n + sum ns
//! ```
//!
//! <a id="def.days_before_month"></a>
//!
//! ## `days_before_month`
//!
//! The number of days of a year before a month.
//!
//! ```text
//! abbrev pub days_before_month : (leap : Bool) → (month : ℕ) → ℕ
//! days_before_month leap month = sum (take (month - 1) (month_lens leap))
//! ```
//!
//! Uses: [`sum`](#def.sum), [`month_lens`](#def.month_lens)
//!
//! <a id="def.days_before_year"></a>
//!
//! ## `days_before_year`
//!
//! The number of days from 1 January of the year 1 to 1 January of a year.
//!
//! ```text
//! abbrev pub days_before_year : ℕ → ℕ
//! days_before_year y = let years = y - 1 in 365 * years + (years / 4 - years / 100 + years / 400)
//! ```
//!
//! **A time**
//!
//! <a id="def.IsDate"></a>
//!
//! ## `IsDate`
//!
//! The day that is `days` days after 1 January of the year 1.
//!
//! ```text
//! pub record IsDate (days year month day : ℕ) : Type 0 where
//!   pub first_year : 1 ≤ year
//!   pub first_month : 1 ≤ month
//!   pub last_month : month ≤ 12
//!   pub first_day : 1 ≤ day
//!   pub last_day : day ≤ slice_index (month_lens (is_leap_year year)) (month - 1)
//!   pub is_sum : days ≡ days_before_year year + days_before_month (is_leap_year year) month + (day - 1)
//! ```
//!
//! Uses: [`month_lens`](#def.month_lens), [`is_leap_year`](#def.is_leap_year), [`days_before_year`](#def.days_before_year), [`days_before_month`](#def.days_before_month)
//!
//! <a id="def.IsHour"></a>
//!
//! ## `IsHour`
//!
//! The time of day that is `seconds` seconds after midnight.
//!
//! ```text
//! pub record IsHour (seconds hour minute second : ℕ) : Type 0 where
//!   pub hours : hour < 24
//!   pub minutes : minute < 60
//!   pub seconds_left : second < 60
//!   pub is_sum : seconds ≡ hour * 3600 + minute * 60 + second
//! ```
//!
//! <a id="def.IsMoment"></a>
//!
//! ## `IsMoment`
//!
//! Seconds and nanoseconds since the beginning of 1970, as a moment.
//!
//! ```text
//! pub record IsMoment (t : TimeValue) (m : Moment) : Type 0 where
//!   pub seconds : m.seconds ≡ t.seconds
//!   pub date : IsDate (days_before_year 1970 + t.seconds / 86400) m.year m.month m.day
//!   pub hour : IsHour (t.seconds % 86400) m.hour m.minute m.second
//!   pub nanoseconds : m.nanoseconds ≡ t.nanoseconds
//! ```
//!
//! Uses: [`TimeValue`](crate::definitions::ether_pcap#def.TimeValue), [`IsDate`](#def.IsDate), [`days_before_year`](#def.days_before_year), [`IsHour`](#def.IsHour)
//!
//! <a id="def.AreMoments"></a>
//!
//! ## `AreMoments`
//!
//! > `IsMoment`: seconds and nanoseconds since the beginning of 1970, as a moment
//!
//! .. if there is a time.
//!
//! ```text
//! abbrev pub AreMoments : Option TimeValue → Option Moment → Type 0
//! AreMoments None None = ⊤
//! AreMoments None (Some m) = ⊥
//! AreMoments (Some t) None = ⊥
//! AreMoments (Some t) (Some m) = IsMoment t m
//! ```
//!
//! Uses: [`TimeValue`](crate::definitions::ether_pcap#def.TimeValue), [`IsMoment`](#def.IsMoment)
//!
//! # Origins
//!
//! Where a packet comes from.
//!
//! <a id="def.OriginValue"></a>
//!
//! ## `OriginValue`
//!
//! The name of its file, if that has one; and its number, counted from 1.
//!
//! ```text
//! pub record OriginValue : Type 0 where
//!   pub file : Option (List ℕ)
//!   pub number : ℕ
//! ```
//!
//! <a id="def.origin_view"></a>
//!
//! ## `origin_view`
//!
//! ```text
//! abbrev pub origin_view : Origin → OriginValue
//! origin_view o = record { file = option_map (λ name. name.now) o.file; number = o.number }
//! ```
//!
//! Uses: [`OriginValue`](#def.OriginValue)
//!
//! # Members
//!
//! What a header says: its members, each with a name and a value. Lines of JSON and columns are spelled from them.
//!
//! **Values**
//!
//! <a id="def.Members.Value"></a>
//!
//! ## `Value`
//!
//! ```text
//! pub data Value : Type 0 where
//!   -- the header does not have it
//!   Nothing : Value
//!   Number : ℕ → Value
//!   -- an ether type, or another protocol number of 16 bits
//!   Protocol : ℕ → Value
//!   Flag : Bool → Value
//!   Bytes : List ℕ → Value
//!   -- the bytes of an address of IPv4
//!   Dotted : List ℕ → Value
//!   Word : List ℕ → Value
//!   -- a text, which may hold any byte
//!   Text : List ℕ → Value
//!   Time : Moment → Value
//!   -- the minute, the hour or the day of a time
//!   Within : Interval → Moment → Value
//! ```
//!
//! Uses: [`Interval`](#def.Interval)
//!
//! <a id="def.Member"></a>
//!
//! ## `Member`
//!
//! ```text
//! pub record Member : Type 0 where
//!   pub name : List ℕ
//!   pub value : Value
//! ```
//!
//! Uses: [`Value`](#def.Members.Value)
//!
//! <a id="def.member"></a>
//!
//! ## `member`
//!
//! ```text
//! abbrev pub member : List ℕ → Value → Member
//! member name value = record { name = name; value = value }
//! ```
//!
//! Uses: [`Value`](#def.Members.Value), [`Member`](#def.Member)
//!
//! <a id="def.if_some"></a>
//!
//! ## `if_some`
//!
//! A value that may be missing.
//!
//! ```text
//! abbrev pub if_some : {X : Type 0} → (X → Value) → Option X → Value
//! if_some value None = Nothing
//! if_some value (Some x) = value x
//! ```
//!
//! Uses: [`Value`](#def.Members.Value), [`Nothing`](#def.Members.Value)
//!
//! <a id="def.members"></a>
//!
//! ## `members`
//!
//! The members of rows with these values; a field that has no value here is no member.
//!
//! ```text
//! abbrev pub members : List Row → List (Option Value) → List Member
//! members (r ∷ rs) (Some v ∷ vs) = member r.name v ∷ members rs vs
//! members (r ∷ rs) (None ∷ vs) = members rs vs
//! members rows values = []
//! ```
//!
//! Uses: [`Row`](crate::definitions::ether_fields#def.Row), [`Value`](#def.Members.Value), [`Member`](#def.Member), [`member`](#def.member)
//!
//! **The values of each header's fields, in the order of its rows**
//!
//! <a id="def.ethernet2_values"></a>
//!
//! ## `ethernet2_values`
//!
//! Ethernet II (IEEE 802.3, 3.2), with its frame check sequence if there is one (3.2.9).
//!
//! ```text
//! abbrev pub ethernet2_values : Ethernet2Value → (fcs : Option (List ℕ)) → List (Option Value)
//! ethernet2_values e fcs =
//!     Some (Bytes (spelled 6 e.destination)) ∷ Some (Bytes (spelled 6 e.source)) ∷ Some (Protocol e.ether_type)
//!     ∷ Some (if_some Bytes fcs) ∷ []
//! ```
//!
//! Uses: [`Ethernet2Value`](crate::definitions::ether_base#def.Ethernet2Value), [`Value`](#def.Members.Value), [`Bytes`](#def.Members.Value), [`spelled`](crate::definitions::ether_base#def.spelled), [`Protocol`](#def.Members.Value), [`if_some`](#def.if_some)
//!
//! <a id="def.vlan_values"></a>
//!
//! ## `vlan_values`
//!
//! A VLAN tag (IEEE 802.1Q, 9.6).
//!
//! ```text
//! abbrev pub vlan_values : VlanValue → List (Option Value)
//! vlan_values v =
//!     Some (Number v.pcp) ∷ Some (Number v.dei) ∷ Some (Number v.vid) ∷ Some (Protocol v.ether_type) ∷ []
//! ```
//!
//! Uses: [`VlanValue`](crate::definitions::ether_base#def.VlanValue), [`Value`](#def.Members.Value), [`Number`](#def.Members.Value), [`Protocol`](#def.Members.Value)
//!
//! <a id="def.payload_word"></a>
//!
//! ## `payload_word`
//!
//! Whether the payload of a SecTag was changed or encrypted (IEEE 802.1AE, 9.5).
//!
//! ```text
//! abbrev pub payload_word : PayloadType → List ℕ
//! payload_word (payloads.Unmodified ether_type) = codes "unmodified"
//! payload_word payloads.Modified = codes "modified"
//! payload_word payloads.EncryptedUnmodified = codes "encrypted_unmodified"
//! payload_word payloads.Encrypted = codes "encrypted"
//! ```
//!
//! Uses: [`PayloadType`](crate::definitions::ether_base#def.PayloadType), [`payloads.Unmodified`](crate::definitions::ether_base#def.PayloadType), [`payloads.Modified`](crate::definitions::ether_base#def.PayloadType), [`payloads.EncryptedUnmodified`](crate::definitions::ether_base#def.PayloadType), [`payloads.Encrypted`](crate::definitions::ether_base#def.PayloadType)
//!
//! <a id="def.payload_type_value"></a>
//!
//! ## `payload_type_value`
//!
//! ```text
//! abbrev pub payload_type_value : PayloadType → Value
//! payload_type_value (payloads.Unmodified ether_type) = Protocol ether_type
//! payload_type_value _ = Nothing
//! ```
//!
//! Uses: [`PayloadType`](crate::definitions::ether_base#def.PayloadType), [`Value`](#def.Members.Value), [`payloads.Unmodified`](crate::definitions::ether_base#def.PayloadType), [`Protocol`](#def.Members.Value), [`Nothing`](#def.Members.Value)
//!
//! <a id="def.macsec_values"></a>
//!
//! ## `macsec_values`
//!
//! The SecTag of MACsec (IEEE 802.1AE, 9.3 to 9.9): V, SC and the reserved bits are no members.
//!
//! ```text
//! abbrev pub macsec_values : SecTagValue → List (Option Value)
//! macsec_values t =
//!     Some (Word (payload_word t.payload_type)) ∷ None ∷ Some (Number t.end_station) ∷ None
//!     ∷ Some (Number t.single_copy_broadcast) ∷ Some (Number (encrypted_of t.payload_type))
//!     ∷ Some (Number (changed_of t.payload_type)) ∷ Some (Number t.association_number) ∷ None
//!     ∷ Some (Number t.short_len) ∷ Some (Number t.packet_number)
//!     ∷ Some (if_some (λ sci. Bytes (spelled 8 sci)) t.sci) ∷ Some (payload_type_value t.payload_type) ∷ []
//! ```
//!
//! Uses: [`SecTagValue`](crate::definitions::ether_base#def.SecTagValue), [`Value`](#def.Members.Value), [`Word`](#def.Members.Value), [`payload_word`](#def.payload_word), [`Number`](#def.Members.Value), [`encrypted_of`](crate::definitions::ether_base#def.encrypted_of), [`changed_of`](crate::definitions::ether_base#def.changed_of), [`if_some`](#def.if_some), [`Bytes`](#def.Members.Value), [`spelled`](crate::definitions::ether_base#def.spelled), [`payload_type_value`](#def.payload_type_value)
//!
//! <a id="def.protocol_address"></a>
//!
//! ## `protocol_address`
//!
//! An address of a protocol: of IPv4, or other bytes.
//!
//! ```text
//! abbrev pub protocol_address : (protocol : ℕ) → List ℕ → Value
//! protocol_address protocol bytes =
//!     if nat_eq protocol 0x0800 && nat_eq (length bytes) 4 then Dotted bytes else Bytes bytes
//! ```
//!
//! Uses: [`Value`](#def.Members.Value), [`Dotted`](#def.Members.Value), [`Bytes`](#def.Members.Value)
//!
//! <a id="def.arp_values"></a>
//!
//! ## `arp_values`
//!
//! An ARP packet (RFC 826, "Packet format").
//!
//! ```text
//! abbrev pub arp_values : ArpValue → List (Option Value)
//! arp_values a =
//!     Some (Number a.hardware_type) ∷ Some (Protocol a.protocol_type) ∷ Some (Number (length a.sender_hardware))
//!     ∷ Some (Number (length a.sender_protocol)) ∷ Some (Number a.operation) ∷ Some (Bytes a.sender_hardware)
//!     ∷ Some (protocol_address a.protocol_type a.sender_protocol) ∷ Some (Bytes a.target_hardware)
//!     ∷ Some (protocol_address a.protocol_type a.target_protocol) ∷ []
//! ```
//!
//! Uses: [`ArpValue`](crate::definitions::ether_base#def.ArpValue), [`Value`](#def.Members.Value), [`Number`](#def.Members.Value), [`Protocol`](#def.Members.Value), [`Bytes`](#def.Members.Value), [`protocol_address`](#def.protocol_address)
//!
//! <a id="def.linux_sll_values"></a>
//!
//! ## `linux_sll_values`
//!
//! Linux cooked capture v1 (LINKTYPE\_LINUX\_SLL of the tcpdump group): as much of the address as its length says.
//!
//! ```text
//! abbrev pub linux_sll_values : LinuxSllValue → List (Option Value)
//! linux_sll_values s =
//!     Some (Number s.packet_type) ∷ Some (Number s.hardware_type) ∷ Some (Number s.address_len)
//!     ∷ Some (Bytes (take s.address_len (spelled 8 s.address))) ∷ Some (Protocol s.protocol) ∷ []
//! ```
//!
//! Uses: [`LinuxSllValue`](crate::definitions::ether_base#def.LinuxSllValue), [`Value`](#def.Members.Value), [`Number`](#def.Members.Value), [`Bytes`](#def.Members.Value), [`spelled`](crate::definitions::ether_base#def.spelled), [`Protocol`](#def.Members.Value)
//!
//! <a id="def.linux_sll2_values"></a>
//!
//! ## `linux_sll2_values`
//!
//! Linux cooked capture v2 (LINKTYPE\_LINUX\_SLL2): the reserved bits are no member.
//!
//! ```text
//! abbrev pub linux_sll2_values : LinuxSll2Value → List (Option Value)
//! linux_sll2_values s =
//!     Some (Protocol s.protocol) ∷ None ∷ Some (Number s.interface_index) ∷ Some (Number s.hardware_type)
//!     ∷ Some (Number s.packet_type) ∷ Some (Number s.address_len)
//!     ∷ Some (Bytes (take s.address_len (spelled 8 s.address))) ∷ []
//! ```
//!
//! Uses: [`LinuxSll2Value`](crate::definitions::ether_sll2#def.LinuxSll2Value), [`Value`](#def.Members.Value), [`Protocol`](#def.Members.Value), [`Number`](#def.Members.Value), [`Bytes`](#def.Members.Value), [`spelled`](crate::definitions::ether_base#def.spelled)
//!
//! **The values of what else a packet tells**
//!
//! <a id="def.rest_values"></a>
//!
//! ## `rest_values`
//!
//! What is left.
//!
//! ```text
//! abbrev pub rest_values : (start finish : ℕ) → (kind : List ℕ) → (announced : Value) → List (Option Value)
//! rest_values start finish kind announced =
//!     Some (Number start) ∷ Some (Number finish) ∷ Some (Word kind) ∷ Some announced ∷ []
//! ```
//!
//! Uses: [`Value`](#def.Members.Value), [`Number`](#def.Members.Value), [`Word`](#def.Members.Value)
//!
//! <a id="def.direction_word"></a>
//!
//! ## `direction_word`
//!
//! ```text
//! abbrev pub direction_word : DirectionValue → List ℕ
//! direction_word Inbound = codes "inbound"
//! direction_word Outbound = codes "outbound"
//! ```
//!
//! Uses: [`DirectionValue`](crate::definitions::ether_pcap#def.DirectionValue), [`Inbound`](crate::definitions::ether_pcap#def.DirectionValue), [`Outbound`](crate::definitions::ether_pcap#def.DirectionValue)
//!
//! <a id="def.own_packet_values"></a>
//!
//! ## `own_packet_values`
//!
//! The packet itself: its number, time, link type and lengths; its interface, its direction and a comment on it (pcapng,
//! 4.3); and the name of its file.
//!
//! ```text
//! abbrev pub own_packet_values : OriginValue → PacketValue → Option Moment → List (Option Value)
//! own_packet_values origin p moment =
//!     Some (Number origin.number) ∷ Some (if_some Time moment) ∷ Some (Number p.link_type)
//!     ∷ Some (Number (length p.packet)) ∷ Some (Number p.original_len) ∷ Some (if_some Number p.interface)
//!     ∷ Some (if_some (λ d. Word (direction_word d)) p.direction) ∷ Some (if_some Text p.comment)
//!     ∷ Some (if_some Text origin.file) ∷ []
//! ```
//!
//! Uses: [`OriginValue`](#def.OriginValue), [`PacketValue`](crate::definitions::ether_pcap#def.PacketValue), [`Value`](#def.Members.Value), [`Number`](#def.Members.Value), [`if_some`](#def.if_some), [`Time`](#def.Members.Value), [`Word`](#def.Members.Value), [`direction_word`](#def.direction_word), [`Text`](#def.Members.Value)
//!
//! <a id="def.packet_values"></a>
//!
//! ## `packet_values`
//!
//! > `own_packet_values`: the packet itself: its number, time, link type and lengths; its interface, its direction and a comment on it (pcapng, 4.3); and the name of its file
//!
//! .. as an object has them.
//!
//! ```text
//! abbrev pub packet_values : OriginValue → PacketValue → Option Moment → List (Option Value)
//! packet_values origin p moment = own_packet_values origin p moment ++ (None ∷ None ∷ None ∷ [])
//! ```
//!
//! Uses: [`OriginValue`](#def.OriginValue), [`PacketValue`](crate::definitions::ether_pcap#def.PacketValue), [`Value`](#def.Members.Value), [`own_packet_values`](#def.own_packet_values)
//!
//! <a id="def.packet_members"></a>
//!
//! ## `packet_members`
//!
//! ```text
//! abbrev pub packet_members : OriginValue → PacketValue → Option Moment → List Member
//! packet_members origin p moment = members frame_rows (packet_values origin p moment)
//! ```
//!
//! Uses: [`OriginValue`](#def.OriginValue), [`PacketValue`](crate::definitions::ether_pcap#def.PacketValue), [`Member`](#def.Member), [`members`](#def.members), [`frame_rows`](crate::definitions::ether_fields#def.frame_rows), [`packet_values`](#def.packet_values)
//!
//! <a id="def.packet_columns"></a>
//!
//! ## `packet_columns`
//!
//! > `own_packet_values`: the packet itself: its number, time, link type and lengths; its interface, its direction and a comment on it (pcapng, 4.3); and the name of its file
//! >
//! > `packet_values`: .. as an object has them
//!
//! .. and as columns, with the minute, the hour and the day of its time.
//!
//! ```text
//! abbrev pub packet_columns : OriginValue → PacketValue → Option Moment → List (Option Value)
//! packet_columns origin p moment =
//!     own_packet_values origin p moment
//!     ++ (Some (if_some (Within intervals.Minute) moment) ∷ Some (if_some (Within intervals.Hour) moment)
//!     ∷ Some (if_some (Within intervals.Day) moment) ∷ [])
//! ```
//!
//! Uses: [`OriginValue`](#def.OriginValue), [`PacketValue`](crate::definitions::ether_pcap#def.PacketValue), [`Value`](#def.Members.Value), [`own_packet_values`](#def.own_packet_values), [`if_some`](#def.if_some), [`Within`](#def.Members.Value), [`intervals.Minute`](#def.Interval), [`intervals.Hour`](#def.Interval), [`intervals.Day`](#def.Interval)
//!
//! # Causes
//!
//! What is wrong with the bytes that should be a header, by the refusals of the formats and by errors.
//!
//! <a id="def.cause_of"></a>
//!
//! ## `cause_of`
//!
//! ```text
//! abbrev pub cause_of : Refusal → Cause
//! cause_of (refusals.Length required len source layer) = Length required len source layer
//! cause_of (refusals.UnsupportedPacketType n) = UnknownPacketType n
//! cause_of (refusals.UnsupportedHardwareType n) = UnknownHardwareType n
//! cause_of refusals.UnexpectedVersion = Version
//! cause_of refusals.InvalidShortLen = ShortLength
//! ```
//!
//! Uses: [`Refusal`](crate::definitions::ether_base#def.Refusal), [`Cause`](#def.Cause), [`refusals.Length`](crate::definitions::ether_base#def.Refusal), [`Length`](#def.Cause), [`refusals.UnsupportedPacketType`](crate::definitions::ether_base#def.Refusal), [`UnknownPacketType`](#def.Cause), [`refusals.UnsupportedHardwareType`](crate::definitions::ether_base#def.Refusal), [`UnknownHardwareType`](#def.Cause), [`refusals.UnexpectedVersion`](crate::definitions::ether_base#def.Refusal), [`Version`](#def.Cause), [`refusals.InvalidShortLen`](crate::definitions::ether_base#def.Refusal), [`ShortLength`](#def.Cause)
//!
//! <a id="def.cause_of_v2"></a>
//!
//! ## `cause_of_v2`
//!
//! .. of a header of cooked capture v2.
//!
//! ```text
//! abbrev pub cause_of_v2 : LinuxSll2Refusal → Cause
//! cause_of_v2 (Short required len) = Length required len sources.Slice layers.LinuxSllHeader
//! cause_of_v2 (PacketType n) = UnknownPacketType n
//! ```
//!
//! Uses: [`LinuxSll2Refusal`](crate::definitions::ether_sll2#def.LinuxSll2Refusal), [`Cause`](#def.Cause), [`Short`](crate::definitions::ether_sll2#def.LinuxSll2Refusal), [`Length`](#def.Cause), `sources` (`LenSource`), `layers` (`Layer`), [`PacketType`](crate::definitions::ether_sll2#def.LinuxSll2Refusal), [`UnknownPacketType`](#def.Cause)
//!
//! # Told
//!
//! What a captured packet tells: its headers, each with its place, and how the walk through them ends.
//!
//! **A header**
//!
//! <a id="def.Told"></a>
//!
//! ## `Told`
//!
//! A header of the walk, with the frame check sequence after its payload if there is one; or of cooked capture v2.
//!
//! ```text
//! pub data Told : Type 0 where
//!   Walked : Place → Header → (fcs : Option (List ℕ)) → Told
//!   CookedV2 : Place → LinuxSll2Value → Told
//! ```
//!
//! Uses: [`Place`](#def.Place), [`Header`](crate::definitions::ether_base#def.Header), [`LinuxSll2Value`](crate::definitions::ether_sll2#def.LinuxSll2Value)
//!
//! <a id="def.place_of"></a>
//!
//! ## `place_of`
//!
//! The place of a header of a window of a list; each offset counts from `at` bytes before the list.
//!
//! ```text
//! abbrev pub place_of : (at : ℕ) → Window → Header → Place
//! place_of at w h = let inner = payload w h in record {
//!   start = at + w.start;
//!   header_end = at + inner.start;
//!   payload_end = at + inner.finish;
//!   closed = inner.closed;
//! }
//! ```
//!
//! Uses: [`Window`](crate::definitions::ether_peel#def.Window), [`Header`](crate::definitions::ether_base#def.Header), [`Place`](#def.Place), [`payload`](crate::definitions::ether_peel#def.payload)
//!
//! <a id="def.fcs_in"></a>
//!
//! ## `fcs_in`
//!
//! The last four bytes of a frame's window (IEEE 802.3, 3.2.9).
//!
//! ```text
//! abbrev pub fcs_in : List ℕ → Window → Header → Option (List ℕ)
//! fcs_in list w (headers.Ethernet2Fcs e) = Some (slice_range list (w.finish - 4) w.finish)
//! fcs_in list w _ = None
//! ```
//!
//! Uses: [`Window`](crate::definitions::ether_peel#def.Window), [`Header`](crate::definitions::ether_base#def.Header), [`headers.Ethernet2Fcs`](crate::definitions::ether_base#def.Header)
//!
//! <a id="def.told_in"></a>
//!
//! ## `told_in`
//!
//! ```text
//! abbrev pub told_in : (at : ℕ) → List ℕ → Window → Header → Told
//! told_in at list w h = Walked (place_of at w h) h (fcs_in list w h)
//! ```
//!
//! Uses: [`Window`](crate::definitions::ether_peel#def.Window), [`Header`](crate::definitions::ether_base#def.Header), [`Told`](#def.Told), [`Walked`](#def.Told), [`place_of`](#def.place_of), [`fcs_in`](#def.fcs_in)
//!
//! <a id="def.told_stack"></a>
//!
//! ## `told_stack`
//!
//! Those of a stack, each in the payload of the one before it.
//!
//! ```text
//! abbrev pub told_stack : (at : ℕ) → List ℕ → Window → List Header → List Told
//! told_stack at list w [] = []
//! told_stack at list w (h ∷ hs) = told_in at list w h ∷ told_stack at list (payload w h) hs
//! ```
//!
//! Uses: [`Window`](crate::definitions::ether_peel#def.Window), [`Header`](crate::definitions::ether_base#def.Header), [`Told`](#def.Told), [`told_in`](#def.told_in), [`payload`](crate::definitions::ether_peel#def.payload)
//!
//! **The end**
//!
//! <a id="def.told_end"></a>
//!
//! ## `told_end`
//!
//! ```text
//! abbrev pub told_end : (at : ℕ) → Ending → End
//! told_end at (Accepted w x) = Rest (at + w.start) (at + w.finish) (kind_shown x)
//! told_end at (endings.Fault w x r) = Fault (at + w.start) w.closed (cause_of r)
//! ```
//!
//! Uses: [`Ending`](crate::definitions::ether_peel#def.Ending), [`End`](#def.End), [`Accepted`](crate::definitions::ether_peel#def.Ending), [`Rest`](#def.End), [`kind_shown`](crate::definitions::ether_peel#def.kind_shown), [`endings.Fault`](crate::definitions::ether_peel#def.Ending), [`Fault`](#def.End), [`cause_of`](#def.cause_of)
//!
//! **A packet**
//!
//! <a id="def.TellsWalk"></a>
//!
//! ## `TellsWalk`
//!
//! A walk tells these headers and this end, and whether its frame is accepted.
//!
//! ```text
//! pub record TellsWalk (at : ℕ) (start : Expectation) (frame : List ℕ) (told : List Told) (end : End)
//!     (accepted : Bool) : Type 0 where
//!   pub headers : List Header
//!   pub ending : Ending
//!   pub walk : Walk start frame headers ending
//!   pub is_told : told ≡ told_stack at frame (whole start frame) headers
//!   pub is_end : end ≡ told_end at ending
//!   pub verdict : accepted ≡ is_accepted ending
//! ```
//!
//! Uses: [`Expectation`](crate::definitions::ether_peel#def.Expectation), [`Told`](#def.Told), [`End`](#def.End), [`Header`](crate::definitions::ether_base#def.Header), [`Ending`](crate::definitions::ether_peel#def.Ending), [`Walk`](crate::definitions::ether_peel#def.Walk), [`told_stack`](#def.told_stack), [`whole`](crate::definitions::ether_peel#def.whole), [`told_end`](#def.told_end), [`is_accepted`](crate::definitions::ether_output#def.is_accepted)
//!
//! <a id="def.cooked_place"></a>
//!
//! ## `cooked_place`
//!
//! The place of a cooked header at the front of `len` bytes.
//!
//! ```text
//! abbrev pub cooked_place : (header_len len : ℕ) → Place
//! cooked_place header_len len = record { start = 0; header_end = header_len; payload_end = len; closed = false }
//! ```
//!
//! Uses: [`Place`](#def.Place)
//!
//! <a id="def.TellsPayload"></a>
//!
//! ## `TellsPayload`
//!
//! A cooked header and the walk of its payload.
//!
//! ```text
//! pub record TellsPayload (at : ℕ) (first : Told) (start : Expectation) (payload : List ℕ) (told : List Told)
//!     (end : End) (accepted : Bool) : Type
//!     0 where
//!   pub later : List Told
//!   pub walk : TellsWalk at start payload later end accepted
//!   pub whole : told ≡ first ∷ later
//! ```
//!
//! Uses: [`Told`](#def.Told), [`Expectation`](crate::definitions::ether_peel#def.Expectation), [`End`](#def.End), [`TellsWalk`](#def.TellsWalk)
//!
//! <a id="def.TellsAfter"></a>
//!
//! ## `TellsAfter`
//!
//! Of cooked capture v2: the payload is walked if an ether type announces it.
//!
//! ```text
//! abbrev pub TellsAfter : (limit : Option ℕ) → (ether_type : Option ℕ) → (bytes : List ℕ) → List Told → End
//!     → (accepted : Bool) → Type 0
//! TellsAfter limit (Some n) bytes told end accepted =
//!     TellsPayload 20 (CookedV2 (cooked_place 20 (length bytes)) (linux_sll2_of bytes))
//!     (record { next = EtherType n; limit = limit })
//!     (slice_range bytes 20 (length bytes)) told end accepted
//! TellsAfter limit None bytes told end accepted =
//!     (told ≡ CookedV2 (cooked_place 20 (length bytes)) (linux_sll2_of bytes) ∷ [])
//!     × (end ≡ Rest 20 (length bytes) (rests.Sll (protocol_of_header bytes))) × (accepted ≡ true)
//! ```
//!
//! Uses: [`Told`](#def.Told), [`End`](#def.End), [`TellsPayload`](#def.TellsPayload), [`CookedV2`](#def.Told), [`cooked_place`](#def.cooked_place), [`linux_sll2_of`](crate::definitions::ether_sll2#def.linux_sll2_of), [`EtherType`](crate::definitions::ether_peel#def.Next), [`Rest`](#def.End), `rests` (`RestKind`), [`protocol_of_header`](crate::definitions::ether_sll2#def.protocol_of_header)
//!
//! <a id="def.TellsCookedV2"></a>
//!
//! ## `TellsCookedV2`
//!
//! ```text
//! pub data TellsCookedV2 (limit : Option ℕ) (bytes : List ℕ) : List Told → End → (accepted : Bool) → Type 0 where
//!   read : (told : List Told) (end : End) (accepted : Bool) → AcceptsLinuxSll2 bytes
//!       → TellsAfter limit (told_ether_type (protocol_of_header bytes)) bytes told end accepted
//!       → TellsCookedV2 limit bytes told end accepted
//!   refused : (r : LinuxSll2Refusal) → RefusesLinuxSll2 bytes r
//!       → TellsCookedV2 limit bytes [] (Fault 0 false (cause_of_v2 r)) false
//! ```
//!
//! Uses: [`Told`](#def.Told), [`End`](#def.End), [`AcceptsLinuxSll2`](crate::definitions::ether_sll2#def.AcceptsLinuxSll2), [`TellsAfter`](#def.TellsAfter), [`told_ether_type`](crate::definitions::ether_base#def.told_ether_type), [`protocol_of_header`](crate::definitions::ether_sll2#def.protocol_of_header), [`LinuxSll2Refusal`](crate::definitions::ether_sll2#def.LinuxSll2Refusal), [`RefusesLinuxSll2`](crate::definitions::ether_sll2#def.RefusesLinuxSll2), [`Fault`](#def.End), [`cause_of_v2`](#def.cause_of_v2)
//!
//! <a id="def.Tells"></a>
//!
//! ## `Tells`
//!
//! What a packet of `len` bytes tells, by its content.
//!
//! ```text
//! abbrev pub Tells : (limit : Option ℕ) → (len : ℕ) → ContentValue → List Told → End → (accepted : Bool) → Type 0
//! Tells limit len (Frame next bytes) told end accepted =
//!     TellsWalk 0 (record { next = next; limit = limit }) bytes told end accepted
//! Tells limit len (LinuxSll s payload) told end accepted =
//!     TellsPayload 16 (Walked (cooked_place 16 (16 + length payload)) (headers.LinuxSll s) None)
//!     (record { next = EtherType s.protocol; limit = limit }) payload told end accepted
//! Tells limit len (LinuxSll2 bytes) told end accepted = TellsCookedV2 limit bytes told end accepted
//! Tells limit len Unknown told end accepted = (told ≡ []) × (end ≡ Skipped len) × (accepted ≡ true)
//! ```
//!
//! Uses: [`ContentValue`](crate::definitions::ether_content#def.ContentValue), [`Told`](#def.Told), [`End`](#def.End), [`Frame`](crate::definitions::ether_content#def.ContentValue), [`TellsWalk`](#def.TellsWalk), [`LinuxSll`](crate::definitions::ether_content#def.ContentValue), [`TellsPayload`](#def.TellsPayload), [`Walked`](#def.Told), [`cooked_place`](#def.cooked_place), [`headers.LinuxSll`](crate::definitions::ether_base#def.Header), [`EtherType`](crate::definitions::ether_peel#def.Next), [`LinuxSll2`](crate::definitions::ether_content#def.ContentValue), [`TellsCookedV2`](#def.TellsCookedV2), [`Unknown`](crate::definitions::ether_content#def.ContentValue), [`Skipped`](#def.End)
//!
//! **Their fields**
//!
//! <a id="def.told_section"></a>
//!
//! ## `told_section`
//!
//! The section of a header.
//!
//! ```text
//! abbrev pub told_section : Told → Section
//! told_section (Walked place h fcs) = header_section h
//! told_section (CookedV2 place s) = sections.Sll2
//! ```
//!
//! Uses: [`Told`](#def.Told), [`Walked`](#def.Told), [`header_section`](crate::definitions::ether_fields#def.header_section), [`CookedV2`](#def.Told), `sections` (`Section`)
//!
//! <a id="def.told_place"></a>
//!
//! ## `told_place`
//!
//! ```text
//! abbrev pub told_place : Told → Place
//! told_place (Walked place h fcs) = place
//! told_place (CookedV2 place s) = place
//! ```
//!
//! Uses: [`Told`](#def.Told), [`Place`](#def.Place), [`Walked`](#def.Told), [`CookedV2`](#def.Told)
//!
//! <a id="def.header_values"></a>
//!
//! ## `header_values`
//!
//! ```text
//! abbrev pub header_values : Header → (fcs : Option (List ℕ)) → List (Option Value)
//! header_values (headers.Ethernet2 e) fcs = ethernet2_values e fcs
//! header_values (headers.Ethernet2Fcs e) fcs = ethernet2_values e fcs
//! header_values (headers.LinuxSll s) fcs = linux_sll_values s
//! header_values (headers.Vlan v) fcs = vlan_values v
//! header_values (headers.Macsec t) fcs = macsec_values t
//! header_values (headers.Arp a) fcs = arp_values a
//! ```
//!
//! Uses: [`Header`](crate::definitions::ether_base#def.Header), [`Value`](#def.Members.Value), [`headers.Ethernet2`](crate::definitions::ether_base#def.Header), [`ethernet2_values`](#def.ethernet2_values), [`headers.Ethernet2Fcs`](crate::definitions::ether_base#def.Header), [`headers.LinuxSll`](crate::definitions::ether_base#def.Header), [`linux_sll_values`](#def.linux_sll_values), [`headers.Vlan`](crate::definitions::ether_base#def.Header), [`vlan_values`](#def.vlan_values), [`headers.Macsec`](crate::definitions::ether_base#def.Header), [`macsec_values`](#def.macsec_values), [`headers.Arp`](crate::definitions::ether_base#def.Header), [`arp_values`](#def.arp_values)
//!
//! <a id="def.own_values"></a>
//!
//! ## `own_values`
//!
//! Its own values, after those of its name and its place.
//!
//! ```text
//! abbrev pub own_values : Told → List (Option Value)
//! own_values (Walked place h fcs) = header_values h fcs
//! own_values (CookedV2 place s) = linux_sll2_values s
//! ```
//!
//! Uses: [`Told`](#def.Told), [`Value`](#def.Members.Value), [`Walked`](#def.Told), [`header_values`](#def.header_values), [`CookedV2`](#def.Told), [`linux_sll2_values`](#def.linux_sll2_values)
//!
//! <a id="def.place_values"></a>
//!
//! ## `place_values`
//!
//! A header's name and place.
//!
//! ```text
//! abbrev pub place_values : (name : List ℕ) → Place → List (Option Value)
//! place_values name place =
//!     Some (Word name) ∷ Some (Number place.start) ∷ Some (Number place.header_end) ∷ Some (Number place.payload_end)
//!     ∷ Some (Flag place.closed) ∷ []
//! ```
//!
//! Uses: [`Place`](#def.Place), [`Value`](#def.Members.Value), [`Word`](#def.Members.Value), [`Number`](#def.Members.Value), [`Flag`](#def.Members.Value)
//!
//! <a id="def.told_place_values"></a>
//!
//! ## `told_place_values`
//!
//! ```text
//! abbrev pub told_place_values : Told → List (Option Value)
//! told_place_values h = place_values (section_name (told_section h)) (told_place h)
//! ```
//!
//! Uses: [`Told`](#def.Told), [`Value`](#def.Members.Value), [`place_values`](#def.place_values), [`section_name`](crate::definitions::ether_fields#def.section_name), [`told_section`](#def.told_section), [`told_place`](#def.told_place)
//!
//! <a id="def.told_values"></a>
//!
//! ## `told_values`
//!
//! ```text
//! abbrev pub told_values : Told → List (Option Value)
//! told_values h = told_place_values h ++ own_values h
//! ```
//!
//! Uses: [`Told`](#def.Told), [`Value`](#def.Members.Value), [`told_place_values`](#def.told_place_values), [`own_values`](#def.own_values)
//!
//! <a id="def.told_members"></a>
//!
//! ## `told_members`
//!
//! ```text
//! abbrev pub told_members : Told → List Member
//! told_members h = members (section_rows (told_section h)) (told_values h)
//! ```
//!
//! Uses: [`Told`](#def.Told), [`Member`](#def.Member), [`members`](#def.members), [`section_rows`](crate::definitions::ether_fields#def.section_rows), [`told_section`](#def.told_section), [`told_values`](#def.told_values)
//!
//! <a id="def.protocol_word"></a>
//!
//! ## `protocol_word`
//!
//! What a rest is announced as.
//!
//! ```text
//! abbrev pub protocol_word : LinuxSllProtocolType → List ℕ
//! protocol_word (protocols.Ignored n) = codes "sll_ignored"
//! protocol_word (protocols.NetlinkProtocolType n) = codes "sll_netlink"
//! protocol_word (protocols.GenericRoutingEncapsulationProtocolType n) = codes "sll_gre"
//! protocol_word (protocols.EtherType t) = codes "ether_type"
//! protocol_word (protocols.LinuxNonstandardEtherType n) = codes "sll"
//! ```
//!
//! Uses: `protocols` (`LinuxSllProtocolType`)
//!
//! <a id="def.protocol_value"></a>
//!
//! ## `protocol_value`
//!
//! ```text
//! abbrev pub protocol_value : LinuxSllProtocolType → Value
//! protocol_value (protocols.Ignored n) = Protocol n
//! protocol_value (protocols.NetlinkProtocolType n) = Protocol n
//! protocol_value (protocols.GenericRoutingEncapsulationProtocolType n) = Protocol n
//! protocol_value (protocols.EtherType t) = Protocol t.0
//! protocol_value (protocols.LinuxNonstandardEtherType n) = Nothing
//! ```
//!
//! Uses: [`Value`](#def.Members.Value), `protocols` (`LinuxSllProtocolType`), [`Protocol`](#def.Members.Value), [`Nothing`](#def.Members.Value)
//!
//! <a id="def.kind_word"></a>
//!
//! ## `kind_word`
//!
//! ```text
//! abbrev pub kind_word : RestKind → List ℕ
//! kind_word rests.Start = codes "start"
//! kind_word (rests.EtherType t) = codes "ether_type"
//! kind_word (rests.Sll protocol) = protocol_word protocol
//! kind_word rests.Sealed = codes "sealed"
//! kind_word rests.AfterArp = codes "after_arp"
//! ```
//!
//! Uses: `rests` (`RestKind`), [`protocol_word`](#def.protocol_word)
//!
//! <a id="def.kind_value"></a>
//!
//! ## `kind_value`
//!
//! ```text
//! abbrev pub kind_value : RestKind → Value
//! kind_value (rests.EtherType t) = Protocol t.0
//! kind_value (rests.Sll protocol) = protocol_value protocol
//! kind_value _ = Nothing
//! ```
//!
//! Uses: [`Value`](#def.Members.Value), `rests` (`RestKind`), [`Protocol`](#def.Members.Value), [`protocol_value`](#def.protocol_value), [`Nothing`](#def.Members.Value)
//!
//! <a id="def.cause_word"></a>
//!
//! ## `cause_word`
//!
//! What is wrong, in a word.
//!
//! ```text
//! abbrev pub cause_word : Cause → List ℕ
//! cause_word (causes.Length required available source layer) = codes "length"
//! cause_word (causes.UnknownPacketType n) = codes "sll_packet_type"
//! cause_word (causes.UnknownHardwareType n) = codes "sll_hardware_type"
//! cause_word causes.Version = codes "macsec_version"
//! cause_word causes.ShortLength = codes "macsec_short_len"
//! ```
//!
//! Uses: [`Cause`](#def.Cause), [`causes.Length`](#def.Cause), [`causes.UnknownPacketType`](#def.Cause), [`causes.UnknownHardwareType`](#def.Cause), [`causes.Version`](#def.Cause), [`causes.ShortLength`](#def.Cause)
//!
//! <a id="def.cause_required"></a>
//!
//! ## `cause_required`
//!
//! Bytes that are required and available, and what names the number of those that are available.
//!
//! ```text
//! abbrev pub cause_required : Cause → Value
//! cause_required (causes.Length required available source layer) = Number required
//! cause_required _ = Nothing
//! ```
//!
//! Uses: [`Cause`](#def.Cause), [`Value`](#def.Members.Value), [`causes.Length`](#def.Cause), [`Number`](#def.Members.Value), [`Nothing`](#def.Members.Value)
//!
//! <a id="def.cause_available"></a>
//!
//! ## `cause_available`
//!
//! ```text
//! abbrev pub cause_available : Cause → Value
//! cause_available (causes.Length required available source layer) = Number available
//! cause_available _ = Nothing
//! ```
//!
//! Uses: [`Cause`](#def.Cause), [`Value`](#def.Members.Value), [`causes.Length`](#def.Cause), [`Number`](#def.Members.Value), [`Nothing`](#def.Members.Value)
//!
//! <a id="def.cause_source"></a>
//!
//! ## `cause_source`
//!
//! ```text
//! abbrev pub cause_source : Cause → Value
//! cause_source (causes.Length required available source layer) = Word (source_text source)
//! cause_source _ = Nothing
//! ```
//!
//! Uses: [`Cause`](#def.Cause), [`Value`](#def.Members.Value), [`causes.Length`](#def.Cause), [`Word`](#def.Members.Value), [`source_text`](crate::definitions::ether_output#def.source_text), [`Nothing`](#def.Members.Value)
//!
//! <a id="def.cause_number"></a>
//!
//! ## `cause_number`
//!
//! A number that has no meaning.
//!
//! ```text
//! abbrev pub cause_number : Cause → Value
//! cause_number (causes.UnknownPacketType n) = Number n
//! cause_number (causes.UnknownHardwareType n) = Number n
//! cause_number _ = Nothing
//! ```
//!
//! Uses: [`Cause`](#def.Cause), [`Value`](#def.Members.Value), [`causes.UnknownPacketType`](#def.Cause), [`Number`](#def.Members.Value), [`causes.UnknownHardwareType`](#def.Cause), [`Nothing`](#def.Members.Value)
//!
//! <a id="def.fault_values"></a>
//!
//! ## `fault_values`
//!
//! ```text
//! abbrev pub fault_values : (start : ℕ) → (closed : Bool) → Cause → List (Option Value)
//! fault_values start closed cause =
//!     Some (Number start) ∷ Some (Flag closed) ∷ Some (Word (cause_word cause)) ∷ Some (cause_required cause)
//!     ∷ Some (cause_available cause) ∷ Some (cause_source cause) ∷ Some (cause_number cause) ∷ []
//! ```
//!
//! Uses: [`Cause`](#def.Cause), [`Value`](#def.Members.Value), [`Number`](#def.Members.Value), [`Flag`](#def.Members.Value), [`Word`](#def.Members.Value), [`cause_word`](#def.cause_word), [`cause_required`](#def.cause_required), [`cause_available`](#def.cause_available), [`cause_source`](#def.cause_source), [`cause_number`](#def.cause_number)
//!
//! <a id="def.end_section"></a>
//!
//! ## `end_section`
//!
//! ```text
//! abbrev pub end_section : End → Section
//! end_section (Rest start finish kind) = sections.Rest
//! end_section (Skipped len) = sections.Rest
//! end_section (Fault start closed cause) = sections.Fault
//! ```
//!
//! Uses: [`End`](#def.End), [`Rest`](#def.End), `sections` (`Section`), [`Skipped`](#def.End), [`Fault`](#def.End)
//!
//! <a id="def.end_values"></a>
//!
//! ## `end_values`
//!
//! ```text
//! abbrev pub end_values : End → List (Option Value)
//! end_values (Rest start finish kind) = rest_values start finish (kind_word kind) (kind_value kind)
//! end_values (Skipped len) = rest_values 0 len (codes "skipped") Nothing
//! end_values (Fault start closed cause) = fault_values start closed cause
//! ```
//!
//! Uses: [`End`](#def.End), [`Value`](#def.Members.Value), [`Rest`](#def.End), [`rest_values`](#def.rest_values), [`kind_word`](#def.kind_word), [`kind_value`](#def.kind_value), [`Skipped`](#def.End), [`Nothing`](#def.Members.Value), [`Fault`](#def.End), [`fault_values`](#def.fault_values)
//!
//! <a id="def.end_members"></a>
//!
//! ## `end_members`
//!
//! ```text
//! abbrev pub end_members : End → List Member
//! end_members end = members (section_rows (end_section end)) (end_values end)
//! ```
//!
//! Uses: [`End`](#def.End), [`Member`](#def.Member), [`members`](#def.members), [`section_rows`](crate::definitions::ether_fields#def.section_rows), [`end_section`](#def.end_section), [`end_values`](#def.end_values)
//!
//! # Spelling
//!
//! How values are spelled.
//!
//! <a id="def.colon_text"></a>
//!
//! ## `colon_text`
//!
//! Bytes in two hexadecimal digits each, with a colon between two.
//!
//! ```text
//! unfoldable pub colon_text : List ℕ → List ℕ
//! colon_text [] = []
//! colon_text (b ∷ bs) = hex_byte false b ++ flat_map (λ c. codes ":" ++ hex_byte false c) bs
//! ```
//!
//! Uses: [`hex_byte`](crate::definitions::ether_base#def.hex_byte)
//!
//! <a id="def.dotted_text"></a>
//!
//! ## `dotted_text`
//!
//! Bytes in decimal digits, with a dot between two (RFC 1123, 2.1).
//!
//! ```text
//! unfoldable pub dotted_text : List ℕ → List ℕ
//! dotted_text [] = []
//! dotted_text (b ∷ bs) = decimal b ++ flat_map (λ c. codes "." ++ decimal c) bs
//! ```
//!
//! <a id="def.nine_digits"></a>
//!
//! ## `nine_digits`
//!
//! A number below a thousand million as nine decimal digits.
//!
//! ```text
//! unfoldable pub nine_digits : ℕ → List ℕ
//! nine_digits n =
//!     (48 + n / 10 ^ 8 % 10) ∷ (48 + n / 10 ^ 7 % 10) ∷ (48 + n / 10 ^ 6 % 10) ∷ (48 + n / 10 ^ 5 % 10)
//!     ∷ (48 + n / 10 ^ 4 % 10)
//!     ∷ (48 + n / 10 ^ 3 % 10) ∷ (48 + n / 10 ^ 2 % 10) ∷ (48 + n / 10 % 10) ∷ (48 + n % 10) ∷ []
//! ```
//!
//! <a id="def.day_text"></a>
//!
//! ## `day_text`
//!
//! The date of a moment as in ISO 8601 (RFC 3339, 5.6).
//!
//! ```text
//! unfoldable pub day_text : Moment → List ℕ
//! day_text m = decimal m.year ++ (codes "-" ++ two_digits m.month ++ codes "-" ++ two_digits m.day)
//! ```
//!
//! Uses: [`two_digits`](crate::definitions::ether_output#def.two_digits)
//!
//! <a id="def.date_text"></a>
//!
//! ## `date_text`
//!
//! > `day_text`: the date of a moment as in ISO 8601 (RFC 3339, 5.6)
//!
//! .. with the time of day.
//!
//! ```text
//! unfoldable pub date_text : Moment → List ℕ
//! date_text m =
//!     decimal m.year
//!     ++ (codes "-" ++ two_digits m.month ++ codes "-" ++ two_digits m.day ++ codes "T" ++ two_digits m.hour ++ codes ":"
//!     ++ two_digits m.minute ++ codes ":" ++ two_digits m.second)
//! ```
//!
//! Uses: [`two_digits`](crate::definitions::ether_output#def.two_digits)
//!
//! <a id="def.dated_text"></a>
//!
//! ## `dated_text`
//!
//! > `day_text`: the date of a moment as in ISO 8601 (RFC 3339, 5.6)
//! >
//! > `date_text`: .. with the time of day
//!
//! .. with nine decimals.
//!
//! ```text
//! unfoldable pub dated_text : Moment → List ℕ
//! dated_text m = date_text m ++ (codes "." ++ (nine_digits m.nanoseconds ++ codes "Z"))
//! ```
//!
//! Uses: [`date_text`](#def.date_text), [`nine_digits`](#def.nine_digits)
//!
//! <a id="def.seconds_text"></a>
//!
//! ## `seconds_text`
//!
//! The seconds since the beginning of 1970, with nine decimals.
//!
//! ```text
//! unfoldable pub seconds_text : Moment → List ℕ
//! seconds_text m = decimal m.seconds ++ (codes "." ++ nine_digits m.nanoseconds)
//! ```
//!
//! Uses: [`nine_digits`](#def.nine_digits)
//!
//! <a id="def.has_date"></a>
//!
//! ## `has_date`
//!
//! The year has at most four digits: RFC 3339 (5.6) has no date for a later one, and ISO 8601 only by agreement.
//!
//! ```text
//! abbrev pub has_date : Moment → Bool
//! has_date m = nat_lt m.year 10000
//! ```
//!
//! <a id="def.moment_text"></a>
//!
//! ## `moment_text`
//!
//! A moment as a date, or if it has none, as its seconds.
//!
//! ```text
//! unfoldable pub moment_text : Moment → List ℕ
//! moment_text m = if has_date m then dated_text m else seconds_text m
//! ```
//!
//! Uses: [`has_date`](#def.has_date), [`dated_text`](#def.dated_text), [`seconds_text`](#def.seconds_text)
//!
//! <a id="def.up_to"></a>
//!
//! ## `up_to`
//!
//! A date up to the minute, the hour or the day; a moment without a date has none.
//!
//! ```text
//! abbrev pub up_to : Interval → Moment → List ℕ
//! up_to intervals.Minute m =
//!     day_text m ++ (codes "T" ++ two_digits m.hour ++ codes ":" ++ two_digits m.minute ++ codes "Z")
//! up_to intervals.Hour m = day_text m ++ (codes "T" ++ two_digits m.hour ++ codes "Z")
//! up_to intervals.Day m = day_text m
//! ```
//!
//! Uses: [`Interval`](#def.Interval), [`intervals.Minute`](#def.Interval), [`day_text`](#def.day_text), [`two_digits`](crate::definitions::ether_output#def.two_digits), [`intervals.Hour`](#def.Interval), [`intervals.Day`](#def.Interval)
//!
//! <a id="def.interval_text"></a>
//!
//! ## `interval_text`
//!
//! ```text
//! unfoldable pub interval_text : Interval → Moment → List ℕ
//! interval_text interval m = if has_date m then up_to interval m else []
//! ```
//!
//! Uses: [`Interval`](#def.Interval), [`has_date`](#def.has_date), [`up_to`](#def.up_to)
//!
//! **In JSON (RFC 8259, 3)**
//!
//! <a id="def.quoted"></a>
//!
//! ## `quoted`
//!
//! ```text
//! abbrev pub quoted : List ℕ → List ℕ
//! quoted text = codes "\"" ++ (text ++ codes "\"")
//! ```
//!
//! <a id="def.json_moment"></a>
//!
//! ## `json_moment`
//!
//! A date is a text, and seconds are a number.
//!
//! ```text
//! unfoldable pub json_moment : Moment → List ℕ
//! json_moment m = if has_date m then quoted (dated_text m) else seconds_text m
//! ```
//!
//! Uses: [`has_date`](#def.has_date), [`quoted`](#def.quoted), [`dated_text`](#def.dated_text), [`seconds_text`](#def.seconds_text)
//!
//! <a id="def.json_byte"></a>
//!
//! ## `json_byte`
//!
//! A text: quotation mark, backslash and control characters are escaped (7). Each byte above 127 of a text that is not
//! UTF-8 is the replacement character of Unicode.
//!
//! ```text
//! abbrev pub json_byte : (utf8 : Bool) → ℕ → List ℕ
//! json_byte utf8 b =
//!     if nat_eq b 34 then codes "\\\""
//!     else (if nat_eq b 92 then codes "\\\\"
//!     else (if nat_lt b 32 then codes "\\u00" ++ hex_byte false b
//!     else (if nat_lt 127 b && not utf8 then codes "\\ufffd" else b ∷ [])))
//! ```
//!
//! Uses: [`hex_byte`](crate::definitions::ether_base#def.hex_byte)
//!
//! <a id="def.json_text"></a>
//!
//! ## `json_text`
//!
//! ```text
//! unfoldable pub json_text : List ℕ → List ℕ
//! json_text bytes = quoted (flat_map (json_byte (is_utf8 bytes)) bytes)
//! ```
//!
//! Uses: [`quoted`](#def.quoted), [`json_byte`](#def.json_byte)
//!
//! <a id="def.flag_text"></a>
//!
//! ## `flag_text`
//!
//! ```text
//! abbrev pub flag_text : Bool → List ℕ
//! flag_text true = codes "true"
//! flag_text false = codes "false"
//! ```
//!
//! <a id="def.json_value"></a>
//!
//! ## `json_value`
//!
//! ```text
//! abbrev pub json_value : Value → List ℕ
//! json_value Nothing = codes "null"
//! json_value (Number n) = decimal n
//! json_value (Protocol n) = decimal n
//! json_value (Flag b) = flag_text b
//! json_value (Bytes bytes) = quoted (colon_text bytes)
//! json_value (Dotted bytes) = quoted (dotted_text bytes)
//! json_value (Word word) = quoted word
//! json_value (Text bytes) = json_text bytes
//! json_value (Time m) = json_moment m
//! json_value (Within interval m) = quoted (interval_text interval m)
//! ```
//!
//! Uses: [`Value`](#def.Members.Value), [`Nothing`](#def.Members.Value), [`Number`](#def.Members.Value), [`Protocol`](#def.Members.Value), [`Flag`](#def.Members.Value), [`flag_text`](#def.flag_text), [`Bytes`](#def.Members.Value), [`quoted`](#def.quoted), [`colon_text`](#def.colon_text), [`Dotted`](#def.Members.Value), [`dotted_text`](#def.dotted_text), [`Word`](#def.Members.Value), [`Text`](#def.Members.Value), [`json_text`](#def.json_text), [`Time`](#def.Members.Value), [`json_moment`](#def.json_moment), [`Within`](#def.Members.Value), [`interval_text`](#def.interval_text)
//!
//! **In a column; what a header does not have is empty**
//!
//! <a id="def.row_byte"></a>
//!
//! ## `row_byte`
//!
//! A text: tab, line feed, carriage return and backslash are escaped.
//!
//! ```text
//! abbrev pub row_byte : ℕ → List ℕ
//! row_byte b =
//!     if nat_eq b 9 then codes "\\t"
//!     else (if nat_eq b 10 then codes "\\n"
//!     else (if nat_eq b 13 then codes "\\r" else (if nat_eq b 92 then codes "\\\\" else b ∷ [])))
//! ```
//!
//! <a id="def.row_escaped"></a>
//!
//! ## `row_escaped`
//!
//! ```text
//! unfoldable pub row_escaped : List ℕ → List ℕ
//! row_escaped bytes = flat_map row_byte bytes
//! ```
//!
//! Uses: [`row_byte`](#def.row_byte)
//!
//! <a id="def.column_value"></a>
//!
//! ## `column_value`
//!
//! ```text
//! abbrev pub column_value : Value → List ℕ
//! column_value Nothing = []
//! column_value (Number n) = decimal n
//! column_value (Protocol n) = hex_number n
//! column_value (Flag b) = flag_text b
//! column_value (Bytes bytes) = colon_text bytes
//! column_value (Dotted bytes) = dotted_text bytes
//! column_value (Word word) = word
//! column_value (Text bytes) = row_escaped bytes
//! column_value (Time m) = moment_text m
//! column_value (Within interval m) = interval_text interval m
//! ```
//!
//! Uses: [`Value`](#def.Members.Value), [`Nothing`](#def.Members.Value), [`Number`](#def.Members.Value), [`Protocol`](#def.Members.Value), [`hex_number`](crate::definitions::ether_base#def.hex_number), [`Flag`](#def.Members.Value), [`flag_text`](#def.flag_text), [`Bytes`](#def.Members.Value), [`colon_text`](#def.colon_text), [`Dotted`](#def.Members.Value), [`dotted_text`](#def.dotted_text), [`Word`](#def.Members.Value), [`Text`](#def.Members.Value), [`row_escaped`](#def.row_escaped), [`Time`](#def.Members.Value), [`moment_text`](#def.moment_text), [`Within`](#def.Members.Value), [`interval_text`](#def.interval_text)
//!
//! # JSON
//!
//! A packet as a line of JSON (RFC 8259).
//!
//! <a id="def.json_member"></a>
//!
//! ## `json_member`
//!
//! A name and a value.
//!
//! ```text
//! abbrev pub json_member : Member → List ℕ
//! json_member m = quoted m.name ++ (codes ":" ++ json_value m.value)
//! ```
//!
//! Uses: [`Member`](#def.Member), [`quoted`](#def.quoted), [`json_value`](#def.json_value)
//!
//! <a id="def.json_members"></a>
//!
//! ## `json_members`
//!
//! Members with a comma between two.
//!
//! ```text
//! abbrev pub json_members : List Member → List ℕ
//! json_members [] = []
//! json_members (m ∷ ms) = json_member m ++ flat_map (λ n. codes "," ++ json_member n) ms
//! ```
//!
//! Uses: [`Member`](#def.Member), [`json_member`](#def.json_member)
//!
//! <a id="def.json_object"></a>
//!
//! ## `json_object`
//!
//! ```text
//! unfoldable pub json_object : List Member → List ℕ
//! json_object members = codes "{" ++ (json_members members ++ codes "}")
//! ```
//!
//! Uses: [`Member`](#def.Member), [`json_members`](#def.json_members)
//!
//! <a id="def.objects_of"></a>
//!
//! ## `objects_of`
//!
//! Objects with a comma between two, each with the members that a header has.
//!
//! ```text
//! abbrev pub objects_of : (members : Told → List Member) → List Told → List ℕ
//! objects_of members [] = []
//! objects_of members (h ∷ hs) = json_object (members h) ++ flat_map (λ k. codes "," ++ json_object (members k)) hs
//! ```
//!
//! Uses: [`Told`](#def.Told), [`Member`](#def.Member), [`json_object`](#def.json_object)
//!
//! <a id="def.json_objects"></a>
//!
//! ## `json_objects`
//!
//! ```text
//! abbrev pub json_objects : List Told → List ℕ
//! json_objects headers = objects_of told_members headers
//! ```
//!
//! Uses: [`Told`](#def.Told), [`objects_of`](#def.objects_of), [`told_members`](#def.told_members)
//!
//! <a id="def.json_front"></a>
//!
//! ## `json_front`
//!
//! The members of the packet, and the name of its list of headers.
//!
//! ```text
//! abbrev pub json_front : OriginValue → PacketValue → Option Moment → List ℕ
//! json_front origin p moment = codes "{" ++ (json_members (packet_members origin p moment) ++ codes ",\"headers\":[")
//! ```
//!
//! Uses: [`OriginValue`](#def.OriginValue), [`PacketValue`](crate::definitions::ether_pcap#def.PacketValue), [`json_members`](#def.json_members), [`packet_members`](#def.packet_members)
//!
//! <a id="def.json_end_of"></a>
//!
//! ## `json_end_of`
//!
//! The end of that list, and an object with these members under the name of how the walk ends.
//!
//! ```text
//! abbrev pub json_end_of : End → List Member → List ℕ
//! json_end_of end members =
//!     codes "]," ++ (quoted (section_name (end_section end)) ++ (codes ":" ++ (json_object members ++ codes "}\n")))
//! ```
//!
//! Uses: [`End`](#def.End), [`Member`](#def.Member), [`quoted`](#def.quoted), [`section_name`](crate::definitions::ether_fields#def.section_name), [`end_section`](#def.end_section), [`json_object`](#def.json_object)
//!
//! <a id="def.json_end"></a>
//!
//! ## `json_end`
//!
//! ```text
//! abbrev pub json_end : End → List ℕ
//! json_end end = json_end_of end (end_members end)
//! ```
//!
//! Uses: [`End`](#def.End), [`json_end_of`](#def.json_end_of), [`end_members`](#def.end_members)
//!
//! <a id="def.json_line"></a>
//!
//! ## `json_line`
//!
//! ```text
//! abbrev pub json_line : OriginValue → PacketValue → Option Moment → List Told → End → List ℕ
//! json_line origin p moment headers end = json_front origin p moment ++ (json_objects headers ++ json_end end)
//! ```
//!
//! Uses: [`OriginValue`](#def.OriginValue), [`PacketValue`](crate::definitions::ether_pcap#def.PacketValue), [`Told`](#def.Told), [`End`](#def.End), [`json_front`](#def.json_front), [`json_objects`](#def.json_objects), [`json_end`](#def.json_end)
//!
//! # JSON bytes
//!
//! A packet as a line of JSON that says each of its bytes once: its headers, their reserved bits, and the bytes after
//! them.
//!
//! **Headers**
//!
//! <a id="def.reserved_bits"></a>
//!
//! ## `reserved_bits`
//!
//! The reserved bits of a header, from its bytes on: two bits of a SecTag, before its short length (IEEE 802.1AE, 9.7);
//! two bytes of cooked capture v2 (LINKTYPE\_LINUX\_SLL2). Others have none.
//!
//! ```text
//! abbrev pub reserved_bits : Section → List ℕ → ℕ
//! reserved_bits sections.Macsec bytes = slice_index_or bytes 1 0 / 2 ^ 6
//! reserved_bits sections.Sll2 bytes = slice_index_or bytes 2 0 * 2 ^ 8 + slice_index_or bytes 3 0
//! reserved_bits section bytes = 0
//! ```
//!
//! Uses: `sections` (`Section`)
//!
//! <a id="def.told_reserved"></a>
//!
//! ## `told_reserved`
//!
//! > `reserved_bits`: The reserved bits of a header, from its bytes on: two bits of a SecTag, before its short length (IEEE 802.1AE, 9.7); two bytes of cooked capture v2 (LINKTYPE\_LINUX\_SLL2). Others have none.
//!
//! .. of a header of a packet.
//!
//! ```text
//! abbrev pub told_reserved : (packet : List ℕ) → Told → ℕ
//! told_reserved packet h = reserved_bits (told_section h) (drop (told_place h).start packet)
//! ```
//!
//! Uses: [`Told`](#def.Told), [`reserved_bits`](#def.reserved_bits), [`told_section`](#def.told_section), [`told_place`](#def.told_place)
//!
//! <a id="def.reserved_members"></a>
//!
//! ## `reserved_members`
//!
//! They are a member if they are not 0.
//!
//! ```text
//! abbrev pub reserved_members : (bits : ℕ) → List Member
//! reserved_members bits = if nat_eq bits 0 then [] else member (codes "reserved") (Number bits) ∷ []
//! ```
//!
//! Uses: [`Member`](#def.Member), [`member`](#def.member), [`Number`](#def.Members.Value)
//!
//! <a id="def.without_check"></a>
//!
//! ## `without_check`
//!
//! A frame check sequence is no member: it is among the bytes after the headers.
//!
//! ```text
//! abbrev pub without_check : Told → Told
//! without_check (Walked place h fcs) = Walked place h None
//! without_check (CookedV2 place s) = CookedV2 place s
//! ```
//!
//! Uses: [`Told`](#def.Told), [`Walked`](#def.Told), [`CookedV2`](#def.Told)
//!
//! <a id="def.exact_members"></a>
//!
//! ## `exact_members`
//!
//! ```text
//! abbrev pub exact_members : (packet : List ℕ) → Told → List Member
//! exact_members packet h = told_members (without_check h) ++ reserved_members (told_reserved packet h)
//! ```
//!
//! Uses: [`Told`](#def.Told), [`Member`](#def.Member), [`told_members`](#def.told_members), [`without_check`](#def.without_check), [`reserved_members`](#def.reserved_members), [`told_reserved`](#def.told_reserved)
//!
//! **The bytes after them**
//!
//! <a id="def.headers_end"></a>
//!
//! ## `headers_end`
//!
//! The offset of the first byte after the last header that is found.
//!
//! ```text
//! abbrev pub headers_end : End → ℕ
//! headers_end (Rest start finish kind) = start
//! headers_end (Skipped len) = 0
//! headers_end (Fault start closed cause) = start
//! ```
//!
//! Uses: [`End`](#def.End), [`Rest`](#def.End), [`Skipped`](#def.End), [`Fault`](#def.End)
//!
//! <a id="def.bytes_member"></a>
//!
//! ## `bytes_member`
//!
//! They are the last member, in two hexadecimal digits each.
//!
//! ```text
//! abbrev pub bytes_member : (packet : List ℕ) → End → Member
//! bytes_member packet end = member (codes "bytes") (Word (hex_text (drop (headers_end end) packet)))
//! ```
//!
//! Uses: [`End`](#def.End), [`Member`](#def.Member), [`member`](#def.member), [`Word`](#def.Members.Value), [`hex_text`](crate::definitions::ether_output#def.hex_text), [`headers_end`](#def.headers_end)
//!
//! <a id="def.exact_end_members"></a>
//!
//! ## `exact_end_members`
//!
//! ```text
//! abbrev pub exact_end_members : (packet : List ℕ) → End → List Member
//! exact_end_members packet end = end_members end ++ (bytes_member packet end ∷ [])
//! ```
//!
//! Uses: [`End`](#def.End), [`Member`](#def.Member), [`end_members`](#def.end_members), [`bytes_member`](#def.bytes_member)
//!
//! **The line**
//!
//! <a id="def.json_bytes_line"></a>
//!
//! ## `json_bytes_line`
//!
//! ```text
//! abbrev pub json_bytes_line : OriginValue → PacketValue → Option Moment → List Told → End → List ℕ
//! json_bytes_line origin p moment headers end =
//!     json_front origin p moment
//!     ++ (objects_of (exact_members p.packet) headers ++ json_end_of end (exact_end_members p.packet end))
//! ```
//!
//! Uses: [`OriginValue`](#def.OriginValue), [`PacketValue`](crate::definitions::ether_pcap#def.PacketValue), [`Told`](#def.Told), [`End`](#def.End), [`json_front`](#def.json_front), [`objects_of`](#def.objects_of), [`exact_members`](#def.exact_members), [`json_end_of`](#def.json_end_of), [`exact_end_members`](#def.exact_end_members)
//!
//! # Brief
//!
//! A packet as a line for the eye.
//!
//! **Headers, each after a space**
//!
//! <a id="def.brief_ethernet2"></a>
//!
//! ## `brief_ethernet2`
//!
//! The sender, and the station that it sends to.
//!
//! ```text
//! abbrev pub brief_ethernet2 : Ethernet2Value → List ℕ
//! brief_ethernet2 e =
//!     codes " " ++ (colon_text (spelled 6 e.source) ++ (codes " > " ++ colon_text (spelled 6 e.destination)))
//! ```
//!
//! Uses: [`Ethernet2Value`](crate::definitions::ether_base#def.Ethernet2Value), [`colon_text`](#def.colon_text), [`spelled`](crate::definitions::ether_base#def.spelled)
//!
//! <a id="def.word_if"></a>
//!
//! ## `word_if`
//!
//! A word that is there or not.
//!
//! ```text
//! abbrev pub word_if : Bool → List ℕ → List ℕ
//! word_if holds word = if holds then word else []
//! ```
//!
//! <a id="def.brief_vlan"></a>
//!
//! ## `brief_vlan`
//!
//! ```text
//! abbrev pub brief_vlan : VlanValue → List ℕ
//! brief_vlan v =
//!     codes " vlan " ++ (decimal v.vid ++ (codes " pcp " ++ (decimal v.pcp ++ word_if (nat_eq v.dei 1) (codes " dei"))))
//! ```
//!
//! Uses: [`VlanValue`](crate::definitions::ether_base#def.VlanValue), [`word_if`](#def.word_if)
//!
//! <a id="def.sci_text"></a>
//!
//! ## `sci_text`
//!
//! A secure channel: the address of its system, and its port (IEEE 802.1AE, 9.9).
//!
//! ```text
//! abbrev pub sci_text : Option ℕ → List ℕ
//! sci_text None = []
//! sci_text (Some sci) = codes " sci " ++ (colon_text (take 6 (spelled 8 sci)) ++ (codes "/" ++ decimal (sci % 2 ^ 16)))
//! ```
//!
//! Uses: [`colon_text`](#def.colon_text), [`spelled`](crate::definitions::ether_base#def.spelled)
//!
//! <a id="def.macsec_bits"></a>
//!
//! ## `macsec_bits`
//!
//! The bits ES, SCB, E and C, each as a word if it is set (IEEE 802.1AE, 9.5).
//!
//! ```text
//! abbrev pub macsec_bits : SecTagValue → List ℕ
//! macsec_bits t =
//!     word_if (nat_eq t.end_station 1) (codes " es")
//!     ++ (word_if (nat_eq t.single_copy_broadcast 1) (codes " scb")
//!     ++ (word_if (nat_eq (encrypted_of t.payload_type) 1) (codes " encrypted")
//!     ++ word_if (nat_eq (changed_of t.payload_type) 1) (codes " changed")))
//! ```
//!
//! Uses: [`SecTagValue`](crate::definitions::ether_base#def.SecTagValue), [`word_if`](#def.word_if), [`encrypted_of`](crate::definitions::ether_base#def.encrypted_of), [`changed_of`](crate::definitions::ether_base#def.changed_of)
//!
//! <a id="def.brief_macsec"></a>
//!
//! ## `brief_macsec`
//!
//! ```text
//! abbrev pub brief_macsec : SecTagValue → List ℕ
//! brief_macsec t =
//!     codes " macsec an "
//!     ++ (decimal t.association_number
//!     ++ (codes " pn " ++ (decimal t.packet_number ++ (sci_text t.sci ++ macsec_bits t))))
//! ```
//!
//! Uses: [`SecTagValue`](crate::definitions::ether_base#def.SecTagValue), [`sci_text`](#def.sci_text), [`macsec_bits`](#def.macsec_bits)
//!
//! <a id="def.address_text"></a>
//!
//! ## `address_text`
//!
//! An address of a protocol, of IPv4 with dots.
//!
//! ```text
//! abbrev pub address_text : (protocol : ℕ) → List ℕ → List ℕ
//! address_text protocol bytes = column_value (protocol_address protocol bytes)
//! ```
//!
//! Uses: [`column_value`](#def.column_value), [`protocol_address`](#def.protocol_address)
//!
//! <a id="def.arp_request"></a>
//!
//! ## `arp_request`
//!
//! Who is asked for (RFC 826, "Packet Generation").
//!
//! ```text
//! abbrev pub arp_request : ArpValue → List ℕ
//! arp_request a =
//!     codes " ARP who-has "
//!     ++ (address_text a.protocol_type a.target_protocol
//!     ++ (codes " tell " ++ address_text a.protocol_type a.sender_protocol))
//! ```
//!
//! Uses: [`ArpValue`](crate::definitions::ether_base#def.ArpValue), [`address_text`](#def.address_text)
//!
//! <a id="def.arp_reply"></a>
//!
//! ## `arp_reply`
//!
//! Who answers.
//!
//! ```text
//! abbrev pub arp_reply : ArpValue → List ℕ
//! arp_reply a =
//!     codes " ARP reply "
//!     ++ (address_text a.protocol_type a.sender_protocol ++ (codes " is-at " ++ colon_text a.sender_hardware))
//! ```
//!
//! Uses: [`ArpValue`](crate::definitions::ether_base#def.ArpValue), [`address_text`](#def.address_text), [`colon_text`](#def.colon_text)
//!
//! <a id="def.arp_other"></a>
//!
//! ## `arp_other`
//!
//! Another operation.
//!
//! ```text
//! abbrev pub arp_other : ArpValue → List ℕ
//! arp_other a =
//!     codes " ARP op "
//!     ++ (decimal a.operation
//!     ++ (codes " from " ++ (address_text a.protocol_type a.sender_protocol
//!     ++ (codes " to " ++ address_text a.protocol_type a.target_protocol))))
//! ```
//!
//! Uses: [`ArpValue`](crate::definitions::ether_base#def.ArpValue), [`address_text`](#def.address_text)
//!
//! <a id="def.brief_arp"></a>
//!
//! ## `brief_arp`
//!
//! ares\_op$REQUEST is 1, ares\_op$REPLY 2 (RFC 826, "Definitions").
//!
//! ```text
//! abbrev pub brief_arp : ArpValue → List ℕ
//! brief_arp a =
//!     if nat_eq a.operation 1 then arp_request a else (if nat_eq a.operation 2 then arp_reply a else arp_other a)
//! ```
//!
//! Uses: [`ArpValue`](crate::definitions::ether_base#def.ArpValue), [`arp_request`](#def.arp_request), [`arp_reply`](#def.arp_reply), [`arp_other`](#def.arp_other)
//!
//! <a id="def.sent_text"></a>
//!
//! ## `sent_text`
//!
//! How a packet was sent, by its name, or as a number.
//!
//! ```text
//! abbrev pub sent_text : Option (List ℕ) → ℕ → List ℕ
//! sent_text (Some name) n = name
//! sent_text None n = codes "type " ++ decimal n
//! ```
//!
//! <a id="def.packet_type_text"></a>
//!
//! ## `packet_type_text`
//!
//! ```text
//! unfoldable pub packet_type_text : ℕ → List ℕ
//! packet_type_text n = sent_text (description_in packet_type_names n) n
//! ```
//!
//! Uses: [`sent_text`](#def.sent_text), [`description_in`](crate::definitions::ether_base#def.description_in), [`packet_type_names`](crate::definitions::ether_fields#def.packet_type_names)
//!
//! <a id="def.cooked_text"></a>
//!
//! ## `cooked_text`
//!
//! A cooked header: how the packet was sent, and the sender's address.
//!
//! ```text
//! abbrev pub cooked_text : (packet_type : ℕ) → (address : List ℕ) → List ℕ
//! cooked_text packet_type address =
//!     codes " cooked " ++ (packet_type_text packet_type ++ (codes " from " ++ colon_text address))
//! ```
//!
//! Uses: [`packet_type_text`](#def.packet_type_text), [`colon_text`](#def.colon_text)
//!
//! <a id="def.brief_cooked"></a>
//!
//! ## `brief_cooked`
//!
//! ```text
//! abbrev pub brief_cooked : (packet_type len address : ℕ) → List ℕ
//! brief_cooked packet_type len address = cooked_text packet_type (take len (spelled 8 address))
//! ```
//!
//! Uses: [`cooked_text`](#def.cooked_text), [`spelled`](crate::definitions::ether_base#def.spelled)
//!
//! <a id="def.brief_header"></a>
//!
//! ## `brief_header`
//!
//! ```text
//! abbrev pub brief_header : Header → List ℕ
//! brief_header (headers.Ethernet2 e) = brief_ethernet2 e
//! brief_header (headers.Ethernet2Fcs e) = brief_ethernet2 e
//! brief_header (headers.LinuxSll s) = brief_cooked s.packet_type s.address_len s.address
//! brief_header (headers.Vlan v) = brief_vlan v
//! brief_header (headers.Macsec t) = brief_macsec t
//! brief_header (headers.Arp a) = brief_arp a
//! ```
//!
//! Uses: [`Header`](crate::definitions::ether_base#def.Header), [`headers.Ethernet2`](crate::definitions::ether_base#def.Header), [`brief_ethernet2`](#def.brief_ethernet2), [`headers.Ethernet2Fcs`](crate::definitions::ether_base#def.Header), [`headers.LinuxSll`](crate::definitions::ether_base#def.Header), [`brief_cooked`](#def.brief_cooked), [`headers.Vlan`](crate::definitions::ether_base#def.Header), [`brief_vlan`](#def.brief_vlan), [`headers.Macsec`](crate::definitions::ether_base#def.Header), [`brief_macsec`](#def.brief_macsec), [`headers.Arp`](crate::definitions::ether_base#def.Header), [`brief_arp`](#def.brief_arp)
//!
//! <a id="def.brief_cooked_v2"></a>
//!
//! ## `brief_cooked_v2`
//!
//! ```text
//! abbrev pub brief_cooked_v2 : LinuxSll2Value → List ℕ
//! brief_cooked_v2 s = codes " if " ++ (decimal s.interface_index ++ brief_cooked s.packet_type s.address_len s.address)
//! ```
//!
//! Uses: [`LinuxSll2Value`](crate::definitions::ether_sll2#def.LinuxSll2Value), [`brief_cooked`](#def.brief_cooked)
//!
//! <a id="def.brief_told"></a>
//!
//! ## `brief_told`
//!
//! ```text
//! abbrev pub brief_told : Told → List ℕ
//! brief_told (Walked place h fcs) = brief_header h
//! brief_told (CookedV2 place s) = brief_cooked_v2 s
//! ```
//!
//! Uses: [`Told`](#def.Told), [`Walked`](#def.Told), [`brief_header`](#def.brief_header), [`CookedV2`](#def.Told), [`brief_cooked_v2`](#def.brief_cooked_v2)
//!
//! **The end**
//!
//! <a id="def.name_or_number"></a>
//!
//! ## `name_or_number`
//!
//! ```text
//! abbrev pub name_or_number : Option (List ℕ) → ℕ → List ℕ
//! name_or_number (Some name) t = name
//! name_or_number None t = hex_number t
//! ```
//!
//! Uses: [`hex_number`](crate::definitions::ether_base#def.hex_number)
//!
//! <a id="def.type_text"></a>
//!
//! ## `type_text`
//!
//! An ether type by its name, or as a number.
//!
//! ```text
//! unfoldable pub type_text : ℕ → List ℕ
//! type_text t = name_or_number (description_in ether_type_names t) t
//! ```
//!
//! Uses: [`name_or_number`](#def.name_or_number), [`description_in`](crate::definitions::ether_base#def.description_in), [`ether_type_names`](crate::definitions::ether_fields#def.ether_type_names)
//!
//! <a id="def.are_both"></a>
//!
//! ## `are_both`
//!
//! Both addresses of LLC are this one.
//!
//! ```text
//! abbrev pub are_both : (dsap ssap sap : ℕ) → Bool
//! are_both dsap ssap sap = nat_eq dsap sap && nat_eq ssap sap
//! ```
//!
//! <a id="def.other_saps"></a>
//!
//! ## `other_saps`
//!
//! ```text
//! abbrev pub other_saps : (dsap ssap : ℕ) → List ℕ
//! other_saps dsap ssap = codes " LLC dsap 0x" ++ (hex_byte true dsap ++ (codes " ssap 0x" ++ hex_byte true ssap))
//! ```
//!
//! Uses: [`hex_byte`](crate::definitions::ether_base#def.hex_byte)
//!
//! <a id="def.saps_text"></a>
//!
//! ## `saps_text`
//!
//! The addresses of LLC (ISO/IEC 8802-2, 3.2): 0x42 is that of the spanning tree (IEEE 802.1Q, 8.13.3), 0xAA that of
//! SNAP (RFC 1042, "Header Format").
//!
//! ```text
//! abbrev pub saps_text : (dsap ssap : ℕ) → List ℕ
//! saps_text dsap ssap =
//!     if are_both dsap ssap 0x42 then codes " STP"
//!     else (if are_both dsap ssap 0xAA then codes " SNAP" else other_saps dsap ssap)
//! ```
//!
//! Uses: [`are_both`](#def.are_both), [`other_saps`](#def.other_saps)
//!
//! <a id="def.llc_text"></a>
//!
//! ## `llc_text`
//!
//! Client data begins with the two addresses of LLC, if both are there.
//!
//! ```text
//! unfoldable pub llc_text : List ℕ → List ℕ
//! llc_text (dsap ∷ ssap ∷ more) = saps_text dsap ssap
//! llc_text _ = []
//! ```
//!
//! Uses: [`saps_text`](#def.saps_text)
//!
//! <a id="def.counted_text"></a>
//!
//! ## `counted_text`
//!
//! A length, and what the bytes that it counts begin with.
//!
//! ```text
//! abbrev pub counted_text : ℕ → (rest : List ℕ) → List ℕ
//! counted_text n rest = codes "802.3 len " ++ (decimal n ++ llc_text (take n rest))
//! ```
//!
//! Uses: [`llc_text`](#def.llc_text)
//!
//! <a id="def.is_length"></a>
//!
//! ## `is_length`
//!
//! A number of at most 1500 is a length and not a type (IEEE 802.3, 3.2.6), in a frame of Ethernet (link type 1).
//!
//! ```text
//! abbrev pub is_length : PacketValue → ℕ → Bool
//! is_length p n = nat_le n 1500 && nat_eq p.link_type 1
//! ```
//!
//! Uses: [`PacketValue`](crate::definitions::ether_pcap#def.PacketValue)
//!
//! <a id="def.announced_text"></a>
//!
//! ## `announced_text`
//!
//! ```text
//! abbrev pub announced_text : PacketValue → ℕ → (rest : List ℕ) → List ℕ
//! announced_text p n rest = if is_length p n then counted_text n rest else type_text n
//! ```
//!
//! Uses: [`PacketValue`](crate::definitions::ether_pcap#def.PacketValue), [`is_length`](#def.is_length), [`counted_text`](#def.counted_text), [`type_text`](#def.type_text)
//!
//! <a id="def.brief_rest"></a>
//!
//! ## `brief_rest`
//!
//! What is left, and its length; the padding after an ARP packet is left out.
//!
//! ```text
//! abbrev pub brief_rest : PacketValue → (start finish : ℕ) → RestKind → List ℕ
//! brief_rest p start finish rests.AfterArp = []
//! brief_rest p start finish (rests.EtherType t) =
//!     codes " "
//!     ++ (announced_text p t.0 (slice_range p.packet start finish)
//!     ++ (codes " " ++ (decimal (finish - start) ++ codes " bytes")))
//! brief_rest p start finish kind =
//!     codes " " ++ (kind_word kind ++ (codes " " ++ (decimal (finish - start) ++ codes " bytes")))
//! ```
//!
//! Uses: [`PacketValue`](crate::definitions::ether_pcap#def.PacketValue), `rests` (`RestKind`), [`announced_text`](#def.announced_text), [`kind_word`](#def.kind_word)
//!
//! <a id="def.layer_word"></a>
//!
//! ## `layer_word`
//!
//! What was cut: a header, or a SecTag with the payload whose length it gives (IEEE 802.1AE, 9.7). The walk reads no
//! other layer.
//!
//! ```text
//! abbrev pub layer_word : Layer → List ℕ
//! layer_word layers.Ethernet2Header = codes "Ethernet II "
//! layer_word layers.LinuxSllHeader = codes "cooked header "
//! layer_word layers.VlanHeader = codes "vlan "
//! layer_word layers.MacsecHeader = codes "macsec "
//! layer_word layers.MacsecPacket = codes "macsec packet "
//! layer_word layers.Arp = codes "ARP "
//! layer_word _ = []
//! ```
//!
//! Uses: `layers` (`Layer`)
//!
//! <a id="def.lengths_text"></a>
//!
//! ## `lengths_text`
//!
//! ```text
//! abbrev pub lengths_text : Layer → (required available : ℕ) → List ℕ
//! lengths_text layer required available =
//!     layer_word layer ++ (codes "needs " ++ (decimal required ++ (codes " bytes, has " ++ decimal available)))
//! ```
//!
//! Uses: [`layer_word`](#def.layer_word)
//!
//! <a id="def.brief_cause"></a>
//!
//! ## `brief_cause`
//!
//! ```text
//! abbrev pub brief_cause : Cause → List ℕ
//! brief_cause (Length required available source layer) = lengths_text layer required available
//! brief_cause (UnknownPacketType n) = codes "packet type " ++ decimal n
//! brief_cause (UnknownHardwareType n) = codes "hardware type " ++ decimal n
//! brief_cause Version = codes "version 1 of MACsec"
//! brief_cause ShortLength = codes "short length 1"
//! ```
//!
//! Uses: [`Cause`](#def.Cause), [`Length`](#def.Cause), [`lengths_text`](#def.lengths_text), [`UnknownPacketType`](#def.Cause), [`UnknownHardwareType`](#def.Cause), [`Version`](#def.Cause), [`ShortLength`](#def.Cause)
//!
//! <a id="def.fault_text"></a>
//!
//! ## `fault_text`
//!
//! ```text
//! abbrev pub fault_text : (start : ℕ) → Cause → List ℕ
//! fault_text start cause = codes " fault at " ++ (decimal start ++ (codes ": " ++ brief_cause cause))
//! ```
//!
//! Uses: [`Cause`](#def.Cause), [`brief_cause`](#def.brief_cause)
//!
//! <a id="def.brief_end"></a>
//!
//! ## `brief_end`
//!
//! ```text
//! abbrev pub brief_end : PacketValue → End → List ℕ
//! brief_end p (Rest start finish kind) = brief_rest p start finish kind
//! brief_end p (Skipped len) = codes " skipped " ++ (decimal len ++ codes " bytes")
//! brief_end p (Fault start closed cause) = fault_text start cause
//! ```
//!
//! Uses: [`PacketValue`](crate::definitions::ether_pcap#def.PacketValue), [`End`](#def.End), [`Rest`](#def.End), [`brief_rest`](#def.brief_rest), [`Skipped`](#def.End), [`Fault`](#def.End), [`fault_text`](#def.fault_text)
//!
//! **The packet**
//!
//! <a id="def.fraction_text"></a>
//!
//! ## `fraction_text`
//!
//! Six decimals, or nine if the last three are not 0.
//!
//! ```text
//! abbrev pub fraction_text : ℕ → List ℕ
//! fraction_text n = if nat_eq (n % 1000) 0 then take 6 (nine_digits n) else nine_digits n
//! ```
//!
//! Uses: [`nine_digits`](#def.nine_digits)
//!
//! <a id="def.brief_moment"></a>
//!
//! ## `brief_moment`
//!
//! ```text
//! abbrev pub brief_moment : Moment → List ℕ
//! brief_moment m =
//!     if has_date m then date_text m ++ (codes "." ++ (fraction_text m.nanoseconds ++ codes "Z"))
//!     else decimal m.seconds ++ (codes "." ++ fraction_text m.nanoseconds)
//! ```
//!
//! Uses: [`has_date`](#def.has_date), [`date_text`](#def.date_text), [`fraction_text`](#def.fraction_text)
//!
//! <a id="def.brief_time"></a>
//!
//! ## `brief_time`
//!
//! ```text
//! abbrev pub brief_time : Option Moment → List ℕ
//! brief_time None = codes "-"
//! brief_time (Some m) = brief_moment m
//! ```
//!
//! Uses: [`brief_moment`](#def.brief_moment)
//!
//! <a id="def.brief_cut"></a>
//!
//! ## `brief_cut`
//!
//! How much of it was captured, if that is not all.
//!
//! ```text
//! abbrev pub brief_cut : PacketValue → List ℕ
//! brief_cut p =
//!     if is_cut p then codes " ("
//!     ++ (decimal (length p.packet) ++ (codes " of " ++ (decimal p.original_len ++ codes " bytes)"))) else []
//! ```
//!
//! Uses: [`PacketValue`](crate::definitions::ether_pcap#def.PacketValue), [`is_cut`](crate::definitions::ether_content#def.is_cut)
//!
//! <a id="def.brief_front"></a>
//!
//! ## `brief_front`
//!
//! The number and the time.
//!
//! ```text
//! abbrev pub brief_front : ℕ → Option Moment → List ℕ
//! brief_front number moment = decimal number ++ (codes " " ++ brief_time moment)
//! ```
//!
//! Uses: [`brief_time`](#def.brief_time)
//!
//! <a id="def.brief_line"></a>
//!
//! ## `brief_line`
//!
//! ```text
//! abbrev pub brief_line : ℕ → PacketValue → Option Moment → List Told → End → List ℕ
//! brief_line number p moment headers end =
//!     brief_front number moment ++ (flat_map brief_told headers ++ (brief_end p end ++ (brief_cut p ++ codes "\n")))
//! ```
//!
//! Uses: [`PacketValue`](crate::definitions::ether_pcap#def.PacketValue), [`Told`](#def.Told), [`End`](#def.End), [`brief_front`](#def.brief_front), [`brief_told`](#def.brief_told), [`brief_end`](#def.brief_end), [`brief_cut`](#def.brief_cut)
//!
//! # Splits
//!
//! Texts that are split at a byte.
//!
//! <a id="def.SplitsAt"></a>
//!
//! ## `SplitsAt`
//!
//! The first occurrence of a byte in a text is between these parts.
//!
//! ```text
//! pub record SplitsAt (byte : ℕ) (text before after : List ℕ) : Type 0 where
//!   pub none_before : All (λ b. (b == byte) ≡ false) before
//!   pub parts : text ≡ before ++ byte ∷ after
//! ```
//!
//! # Columns
//!
//! A packet as a row of columns.
//!
//! **What a packet tells, in sections**
//!
//! <a id="def.Section"></a>
//!
//! ## `Section`
//!
//! ```text
//! pub record Section : Type 0 where
//!   pub name : List ℕ
//!   pub members : List Member
//! ```
//!
//! Uses: [`Member`](#def.Member)
//!
//! <a id="def.section"></a>
//!
//! ## `section`
//!
//! ```text
//! abbrev pub section : List ℕ → List Member → Section
//! section name members = record { name = name; members = members }
//! ```
//!
//! Uses: [`Member`](#def.Member), [`Section`](#def.Section)
//!
//! <a id="def.header_sections"></a>
//!
//! ## `header_sections`
//!
//! A header is a section with its own name; its name and place are also a section `headers`.
//!
//! ```text
//! abbrev pub header_sections : Told → List Section
//! header_sections h =
//!     section (section_name (told_section h)) (told_members h)
//!     ∷ section (codes "headers") (members place_rows (told_place_values h)) ∷ []
//! ```
//!
//! Uses: [`Told`](#def.Told), [`Section`](#def.Section), [`section`](#def.section), [`section_name`](crate::definitions::ether_fields#def.section_name), [`told_section`](#def.told_section), [`told_members`](#def.told_members), [`members`](#def.members), [`place_rows`](crate::definitions::ether_fields#def.place_rows), [`told_place_values`](#def.told_place_values)
//!
//! <a id="def.sections"></a>
//!
//! ## `sections`
//!
//! The packet, its headers, and how the walk through them ends.
//!
//! ```text
//! abbrev pub sections : OriginValue → PacketValue → Option Moment → List Told → End → List Section
//! sections origin p moment headers end =
//!     section (codes "frame") (members frame_rows (packet_columns origin p moment))
//!     ∷ (flat_map header_sections headers ++ (section (section_name (end_section end)) (end_members end) ∷ []))
//! ```
//!
//! Uses: [`OriginValue`](#def.OriginValue), [`PacketValue`](crate::definitions::ether_pcap#def.PacketValue), [`Told`](#def.Told), [`End`](#def.End), [`Section`](#def.Section), [`section`](#def.section), [`members`](#def.members), [`frame_rows`](crate::definitions::ether_fields#def.frame_rows), [`packet_columns`](#def.packet_columns), [`header_sections`](#def.header_sections), [`section_name`](crate::definitions::ether_fields#def.section_name), [`end_section`](#def.end_section), [`end_members`](#def.end_members)
//!
//! **A column**
//!
//! <a id="def.ColumnValue"></a>
//!
//! ## `ColumnValue`
//!
//! The name of a section, and that of a field.
//!
//! ```text
//! pub record ColumnValue : Type 0 where
//!   pub section : List ℕ
//!   pub member : List ℕ
//! ```
//!
//! <a id="def.column_name"></a>
//!
//! ## `column_name`
//!
//! As `vlan.vid`.
//!
//! ```text
//! abbrev pub column_name : ColumnValue → List ℕ
//! column_name c = c.section ++ (codes "." ++ c.member)
//! ```
//!
//! Uses: [`ColumnValue`](#def.ColumnValue)
//!
//! <a id="def.values_named"></a>
//!
//! ## `values_named`
//!
//! ```text
//! abbrev pub values_named : List ℕ → List Member → List Value
//! values_named name [] = []
//! values_named name (m ∷ ms) = if bytes_eq m.name name then m.value ∷ values_named name ms else values_named name ms
//! ```
//!
//! Uses: [`Member`](#def.Member), [`Value`](#def.Members.Value)
//!
//! <a id="def.values_in"></a>
//!
//! ## `values_in`
//!
//! ```text
//! abbrev pub values_in : ColumnValue → Section → List Value
//! values_in c s = if bytes_eq s.name c.section then values_named c.member s.members else []
//! ```
//!
//! Uses: [`ColumnValue`](#def.ColumnValue), [`Section`](#def.Section), [`Value`](#def.Members.Value), [`values_named`](#def.values_named)
//!
//! <a id="def.column_text"></a>
//!
//! ## `column_text`
//!
//! Their values, with a comma between two.
//!
//! ```text
//! abbrev pub column_text : ColumnValue → List Section → List ℕ
//! column_text c parts = join_by column_value (codes ",") (flat_map (values_in c) parts)
//! ```
//!
//! Uses: [`ColumnValue`](#def.ColumnValue), [`Section`](#def.Section), [`column_value`](#def.column_value), [`values_in`](#def.values_in)
//!
//! **A row: columns with a tab between two, and the line of their names**
//!
//! <a id="def.row_text"></a>
//!
//! ## `row_text`
//!
//! ```text
//! abbrev pub row_text : List ColumnValue → List Section → List ℕ
//! row_text columns parts = join_by (λ c. column_text c parts) (codes "\t") columns ++ codes "\n"
//! ```
//!
//! Uses: [`ColumnValue`](#def.ColumnValue), [`Section`](#def.Section), [`column_text`](#def.column_text)
//!
//! <a id="def.heading_text"></a>
//!
//! ## `heading_text`
//!
//! ```text
//! abbrev pub heading_text : List ColumnValue → List ℕ
//! heading_text columns = join_by column_name (codes "\t") columns ++ codes "\n"
//! ```
//!
//! Uses: [`ColumnValue`](#def.ColumnValue), [`column_name`](#def.column_name)
//!
//! **Which columns there are**
//!
//! <a id="def.IsColumn"></a>
//!
//! ## `IsColumn`
//!
//! ```text
//! pub record IsColumn (c : ColumnValue) : Type 0 where
//!   pub of : DeclaredSection
//!   pub is_section : c.section ≡ section_name of
//!   pub is_field : IsAmong (column_names (section_rows of)) c.member
//! ```
//!
//! Uses: [`ColumnValue`](#def.ColumnValue), `DeclaredSection` (`Section`), [`section_name`](crate::definitions::ether_fields#def.section_name), [`column_names`](crate::definitions::ether_fields#def.column_names), [`section_rows`](crate::definitions::ether_fields#def.section_rows)
//!
//! <a id="def.AreColumns"></a>
//!
//! ## `AreColumns`
//!
//! A text names these columns, at most 32, with a comma (44) between two.
//!
//! ```text
//! pub record AreColumns (text : List ℕ) (columns : List ColumnValue) : Type 0 where
//!   pub names : slice_split (λ b. b == 44) text ≡ map column_name columns
//!   pub known : All IsColumn columns
//!   pub most : length columns ≤ 32
//! ```
//!
//! Uses: [`ColumnValue`](#def.ColumnValue), [`column_name`](#def.column_name), [`IsColumn`](#def.IsColumn)
//!
//! <a id="def.NamesColumn"></a>
//!
//! ## `NamesColumn`
//!
//! A column has this name.
//!
//! ```text
//! abbrev pub NamesColumn : (name : List ℕ) → Type 0
//! NamesColumn name = (c : ColumnValue) × IsColumn c × (column_name c ≡ name)
//! ```
//!
//! Uses: [`ColumnValue`](#def.ColumnValue), [`IsColumn`](#def.IsColumn), [`column_name`](#def.column_name)
//!
//! <a id="def.IsUnknownIn"></a>
//!
//! ## `IsUnknownIn`
//!
//! The first of these names that no column has, if there is one.
//!
//! ```text
//! abbrev pub IsUnknownIn : (names : List (List ℕ)) → (unknown : Option (List ℕ)) → Type 0
//! IsUnknownIn [] unknown = unknown ≡ None
//! IsUnknownIn (name ∷ names) unknown =
//!     ((¬ (NamesColumn name)) × (unknown ≡ Some name)) ⊎ (NamesColumn name × IsUnknownIn names unknown)
//! ```
//!
//! Uses: [`NamesColumn`](#def.NamesColumn)
//!
//! <a id="def.original_column"></a>
//!
//! ## `original_column`
//!
//! The length that a packet had (snap lengths aside).
//!
//! ```text
//! abbrev pub original_column : ColumnValue
//! original_column = record { section = codes "frame"; member = codes "original" }
//! ```
//!
//! Uses: [`ColumnValue`](#def.ColumnValue)
//!
//! <a id="def.common_columns"></a>
//!
//! ## `common_columns`
//!
//! The columns that a summary counts if none are named.
//!
//! ```text
//! abbrev pub common_columns : List ColumnValue
//! common_columns =
//!     record { section = codes "headers"; member = codes "header" }
//!     ∷ record { section = codes "vlan"; member = codes "vid" }
//!     ∷ record { section = codes "eth"; member = codes "type" } ∷ record { section = codes "vlan"; member = codes "type" }
//!     ∷ record { section = codes "rest"; member = codes "type" }
//!     ∷ record { section = codes "fault"; member = codes "kind" }
//!     ∷ record { section = codes "arp"; member = codes "sha" } ∷ record { section = codes "arp"; member = codes "spa" }
//!     ∷ []
//! ```
//!
//! Uses: [`ColumnValue`](#def.ColumnValue)
//!
//! **Columns as they are declared**
//!
//! <a id="def.name_at"></a>
//!
//! ## `name_at`
//!
//! The name of the row at an index.
//!
//! ```text
//! abbrev pub name_at : List Row → ℕ → List ℕ
//! name_at rows n = slice_index_or (map (λ r. r.name) rows) n []
//! ```
//!
//! Uses: [`Row`](crate::definitions::ether_fields#def.Row)
//!
//! <a id="def.column_view"></a>
//!
//! ## `column_view`
//!
//! ```text
//! abbrev pub column_view : DeclaredColumn → ColumnValue
//! column_view c = record { section = section_name c.section; member = name_at (section_rows c.section) c.index }
//! ```
//!
//! Uses: [`DeclaredColumn`](#def.Column), [`ColumnValue`](#def.ColumnValue), [`section_name`](crate::definitions::ether_fields#def.section_name), [`name_at`](#def.name_at), [`section_rows`](crate::definitions::ether_fields#def.section_rows)
//!
//! <a id="def.columns_view"></a>
//!
//! ## `columns_view`
//!
//! ```text
//! abbrev pub columns_view : DeclaredColumns → List ColumnValue
//! columns_view c = column_view c.first ∷ map column_view (take c.count c.others)
//! ```
//!
//! Uses: `DeclaredColumns` (`Columns`), [`ColumnValue`](#def.ColumnValue), [`column_view`](#def.column_view)
//!
//! # Csv
//!
//! A packet as a record of CSV (RFC 4180, 2).
//!
//! <a id="def.is_special"></a>
//!
//! ## `is_special`
//!
//! A double quote (34), a comma (44), CR (13) or LF (10).
//!
//! ```text
//! abbrev pub is_special : ℕ → Bool
//! is_special b = nat_eq b 34 || (nat_eq b 44 || (nat_eq b 13 || nat_eq b 10))
//! ```
//!
//! <a id="def.has_special"></a>
//!
//! ## `has_special`
//!
//! ```text
//! abbrev pub has_special : List ℕ → Bool
//! has_special [] = false
//! has_special (b ∷ bs) = is_special b || has_special bs
//! ```
//!
//! Uses: [`is_special`](#def.is_special)
//!
//! <a id="def.escaped"></a>
//!
//! ## `escaped`
//!
//! Each double quote with another one before it (rule 7).
//!
//! ```text
//! abbrev pub escaped : List ℕ → List ℕ
//! escaped text = flat_map (λ b. if nat_eq b 34 then 34 ∷ 34 ∷ [] else b ∷ []) text
//! ```
//!
//! <a id="def.csv_field"></a>
//!
//! ## `csv_field`
//!
//! A field that has one of these is enclosed in double quotes (rule 6), any other one is not (rule 5).
//!
//! ```text
//! abbrev pub csv_field : List ℕ → List ℕ
//! csv_field text = if has_special text then codes "\"" ++ (escaped text ++ codes "\"") else text
//! ```
//!
//! Uses: [`has_special`](#def.has_special), [`escaped`](#def.escaped)
//!
//! <a id="def.csv_record"></a>
//!
//! ## `csv_record`
//!
//! Fields with a comma between two (rule 4), on a line that ends with CR LF (rule 1).
//!
//! ```text
//! abbrev pub csv_record : {X : Type 0} → (text : X → List ℕ) → List X → List ℕ
//! csv_record text columns = join_by (λ c. csv_field (text c)) (codes ",") columns ++ (13 ∷ 10 ∷ [])
//! ```
//!
//! Uses: [`csv_field`](#def.csv_field)
//!
//! <a id="def.csv_value"></a>
//!
//! ## `csv_value`
//!
//! A text as its own bytes, another value as in a row.
//!
//! ```text
//! abbrev pub csv_value : Value → List ℕ
//! csv_value (Text bytes) = bytes
//! csv_value value = column_value value
//! ```
//!
//! Uses: [`Value`](#def.Members.Value), [`Text`](#def.Members.Value), [`column_value`](#def.column_value)
//!
//! <a id="def.csv_text"></a>
//!
//! ## `csv_text`
//!
//! The values of a column, with a comma between two.
//!
//! ```text
//! abbrev pub csv_text : ColumnValue → List Section → List ℕ
//! csv_text c parts = join_by csv_value (codes ",") (flat_map (values_in c) parts)
//! ```
//!
//! Uses: [`ColumnValue`](#def.ColumnValue), [`Section`](#def.Section), [`csv_value`](#def.csv_value), [`values_in`](#def.values_in)
//!
//! <a id="def.csv_row"></a>
//!
//! ## `csv_row`
//!
//! The columns of a packet.
//!
//! ```text
//! abbrev pub csv_row : List ColumnValue → List Section → List ℕ
//! csv_row columns parts = csv_record (λ c. csv_text c parts) columns
//! ```
//!
//! Uses: [`ColumnValue`](#def.ColumnValue), [`Section`](#def.Section), [`csv_record`](#def.csv_record), [`csv_text`](#def.csv_text)
//!
//! <a id="def.csv_heading"></a>
//!
//! ## `csv_heading`
//!
//! The line of their names (rule 3).
//!
//! ```text
//! abbrev pub csv_heading : List ColumnValue → List ℕ
//! csv_heading columns = csv_record column_name columns
//! ```
//!
//! Uses: [`ColumnValue`](#def.ColumnValue), [`csv_record`](#def.csv_record), [`column_name`](#def.column_name)
//!
//! # Formats
//!
//! Which format a text names.
//!
//! <a id="def.NamesFormat"></a>
//!
//! ## `NamesFormat`
//!
//! ```text
//! abbrev pub NamesFormat : (text : List ℕ) → Format → Type 0
//! NamesFormat text Json = text ≡ codes "json"
//! NamesFormat text JsonBytes = ⊥
//! NamesFormat text Brief = text ≡ codes "brief"
//! NamesFormat text (Fields columns) = AreColumns text (columns_view columns)
//! NamesFormat text (Csv columns) = ⊥
//! ```
//!
//! Uses: `Json` (`Format::Json`), `JsonBytes` (`Format::JsonBytes`), `Brief` (`Format::Brief`), `Fields` (`Format::Fields`), [`AreColumns`](#def.AreColumns), [`columns_view`](#def.columns_view), `Csv` (`Format::Csv`)
//!
//! # Texts
//!
//! The text of a captured packet in a format.
//!
//! <a id="def.format_text"></a>
//!
//! ## `format_text`
//!
//! ```text
//! abbrev pub format_text : Format → OriginValue → PacketValue → Option Moment → List Told → End → List ℕ
//! format_text Json origin p moment headers end = json_line origin p moment headers end
//! format_text JsonBytes origin p moment headers end = json_bytes_line origin p moment headers end
//! format_text Brief origin p moment headers end = brief_line origin.number p moment headers end
//! format_text (Fields columns) origin p moment headers end =
//!     row_text (columns_view columns) (sections origin p moment headers end)
//! format_text (Csv columns) origin p moment headers end =
//!     csv_row (columns_view columns) (sections origin p moment headers end)
//! ```
//!
//! Uses: [`OriginValue`](#def.OriginValue), [`PacketValue`](crate::definitions::ether_pcap#def.PacketValue), [`Told`](#def.Told), [`End`](#def.End), `Json` (`Format::Json`), [`json_line`](#def.json_line), `JsonBytes` (`Format::JsonBytes`), [`json_bytes_line`](#def.json_bytes_line), `Brief` (`Format::Brief`), [`brief_line`](#def.brief_line), `Fields` (`Format::Fields`), [`row_text`](#def.row_text), [`columns_view`](#def.columns_view), [`sections`](#def.sections), `Csv` (`Format::Csv`), [`csv_row`](#def.csv_row)
//!
//! <a id="def.format_heading"></a>
//!
//! ## `format_heading`
//!
//! The line of the names of columns.
//!
//! ```text
//! abbrev pub format_heading : Format → List ℕ
//! format_heading Json = []
//! format_heading JsonBytes = []
//! format_heading Brief = []
//! format_heading (Fields columns) = heading_text (columns_view columns)
//! format_heading (Csv columns) = csv_heading (columns_view columns)
//! ```
//!
//! Uses: `Json` (`Format::Json`), `JsonBytes` (`Format::JsonBytes`), `Brief` (`Format::Brief`), `Fields` (`Format::Fields`), [`heading_text`](#def.heading_text), [`columns_view`](#def.columns_view), `Csv` (`Format::Csv`), [`csv_heading`](#def.csv_heading)
//!
//! <a id="def.HasText"></a>
//!
//! ## `HasText`
//!
//! The text of a packet of this origin, of what it tells; and whether no header is refused.
//!
//! ```text
//! pub record HasText (format : Format) (limit : Option ℕ) (origin : OriginValue) (p : PacketValue) (text : List ℕ)
//!     (accepted : Bool) : Type 0 where
//!   pub moment : Option Moment
//!   pub is_moment : AreMoments p.time moment
//!   pub headers : List Told
//!   pub end : End
//!   pub tells : Tells limit (length p.packet) (content_of p) headers end accepted
//!   pub is_text : text ≡ format_text format origin p moment headers end
//! ```
//!
//! Uses: [`OriginValue`](#def.OriginValue), [`PacketValue`](crate::definitions::ether_pcap#def.PacketValue), [`AreMoments`](#def.AreMoments), [`Told`](#def.Told), [`End`](#def.End), [`Tells`](#def.Tells), [`content_of`](crate::definitions::ether_content#def.content_of), [`format_text`](#def.format_text)
//!
//! # Types
//!
//! Types that are not public. Definitions use them as they are declared.
//!
//! <a id="def.Cause"></a>
//!
//! ## `Cause`
//!
//! What is wrong with the bytes that should be a header.
//!
//! ```text
//! enum Cause {
//!     /// They are fewer than are required: how many are required and available, what names the number of those that are
//!     /// available, and the layer that was read. A header of cooked capture of either version is `LinuxSllHeader`.
//!     Length(usize, usize, LenSource, Layer),
//!     /// The packet type of a cooked capture has no meaning.
//!     UnknownPacketType(u16),
//!     /// The hardware type of a cooked capture is not supported.
//!     UnknownHardwareType(u16),
//!     /// A SecTag has version 1.
//!     Version,
//!     /// The short length of a SecTag is 1, though its payload is unmodified.
//!     ShortLength,
//! }
//! ```
//!
//! <a id="def.Column"></a>
//!
//! ## `Column`
//!
//! A column: a field of a section.
//!
//! ```text
//! struct Column {
//!     /// The section.
//!     pub(crate) section: Section,
//!     /// The index of the field in its section, counted from 0.
//!     pub(crate) index: u8,
//! }
//! ```
//!
//! <a id="def.End"></a>
//!
//! ## `End`
//!
//! How the walk through a packet ends.
//!
//! ```text
//! enum End {
//!     /// What is left: the offsets of its start and its end, and what it is announced as.
//!     Rest(usize, usize, RestKind),
//!     /// A packet whose link type the walk does not know, with its length in bytes.
//!     Skipped(usize),
//!     /// A fault: its offset, whether bytes appended to the packet would lie outside the window there, and what is wrong.
//!     Fault(usize, bool, Cause),
//! }
//! ```
//!
//! Uses: [`Cause`](#def.Cause)
//!
//! <a id="def.Interval"></a>
//!
//! ## `Interval`
//!
//! An interval of a time: its minute, its hour or its day.
//!
//! ```text
//! enum Interval {
//!     Minute,
//!     Hour,
//!     Day,
//! }
//! ```
//!
//! <a id="def.Place"></a>
//!
//! ## `Place`
//!
//! Where a header is in its packet, in bytes.
//!
//! ```text
//! struct Place {
//!     /// Where it starts.
//!     pub(crate) start: usize,
//!     /// Where it ends, and its payload starts.
//!     pub(crate) header_end: usize,
//!     /// Where its payload ends.
//!     pub(crate) payload_end: usize,
//!     /// Whether bytes appended to the packet would lie outside its payload.
//!     pub(crate) closed: bool,
//! }
//! ```
//!
