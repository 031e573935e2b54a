//! Captured packets, each read by its link type.
//!
//! # Content
//!
//! The part of a captured packet that is walked.
//!
//! <a id="def.is_cut"></a>
//!
//! ## `is_cut`
//!
//! Some bytes of the packet were not captured.
//!
//! ```text
//! abbrev pub is_cut : PacketValue → Bool
//! is_cut p = nat_lt (length p.packet) p.original_len
//! ```
//!
//! Uses: [`PacketValue`](crate::definitions::ether_pcap#def.PacketValue)
//!
//! <a id="def.fcs_len"></a>
//!
//! ## `fcs_len`
//!
//! The length of the frame check sequence at the end of the packet before it was cut.
//!
//! ```text
//! abbrev pub fcs_len : PacketValue → ℕ
//! fcs_len p = unwrap_or p.fcs_len 0
//! ```
//!
//! Uses: [`PacketValue`](crate::definitions::ether_pcap#def.PacketValue)
//!
//! <a id="def.whole_len"></a>
//!
//! ## `whole_len`
//!
//! The length of the packet before it was cut, without the frame check sequence.
//!
//! ```text
//! abbrev pub whole_len : PacketValue → ℕ
//! whole_len p = max p.original_len (length p.packet) - fcs_len p
//! ```
//!
//! Uses: [`PacketValue`](crate::definitions::ether_pcap#def.PacketValue), [`fcs_len`](#def.fcs_len)
//!
//! <a id="def.without_fcs"></a>
//!
//! ## `without_fcs`
//!
//! The captured bytes without those of the frame check sequence.
//!
//! ```text
//! abbrev pub without_fcs : PacketValue → List ℕ
//! without_fcs p = take (whole_len p) p.packet
//! ```
//!
//! Uses: [`PacketValue`](crate::definitions::ether_pcap#def.PacketValue), [`whole_len`](#def.whole_len)
//!
//! <a id="def.has_fcs"></a>
//!
//! ## `has_fcs`
//!
//! An Ethernet frame was captured with its whole frame check sequence.
//!
//! ```text
//! abbrev pub has_fcs : PacketValue → Bool
//! has_fcs p = not (is_cut p) && nat_eq (fcs_len p) 4
//! ```
//!
//! Uses: [`PacketValue`](crate::definitions::ether_pcap#def.PacketValue), [`is_cut`](#def.is_cut), [`fcs_len`](#def.fcs_len)
//!
//! <a id="def.ContentValue"></a>
//!
//! ## `ContentValue`
//!
//! The part of a packet that is walked: a frame, with how its walk starts; the payload of a packet of Linux cooked
//! capture v1, with its header; a packet of Linux cooked capture v2; or nothing.
//!
//! ```text
//! pub data ContentValue : Type 0 where
//!   Frame : Next → List ℕ → ContentValue
//!   LinuxSll : LinuxSllValue → (payload : List ℕ) → ContentValue
//!   LinuxSll2 : List ℕ → ContentValue
//!   Unknown : ContentValue
//! ```
//!
//! Uses: [`Next`](crate::definitions::ether_peel#def.Next), [`LinuxSllValue`](crate::definitions::ether_base#def.LinuxSllValue)
//!
//! <a id="def.has_other_hardware"></a>
//!
//! ## `has_other_hardware`
//!
//! Bytes begin with a header of cooked capture v1 whose packet type has a meaning, and whose hardware type is not that
//! of Ethernet and gives protocol numbers no meaning of its own (LINKTYPE\_LINUX\_SLL). The walk refuses such a header.
//!
//! ```text
//! abbrev pub has_other_hardware : List ℕ → Bool
//! has_other_hardware bytes =
//!     nat_le 16 (length bytes) && nat_le (linux_sll_of bytes).packet_type 7
//!     && not (is_supported (linux_sll_of bytes).hardware_type)
//! ```
//!
//! Uses: [`linux_sll_of`](crate::definitions::ether_base#def.linux_sll_of), [`is_supported`](crate::definitions::ether_base#def.is_supported)
//!
//! <a id="def.cooked_content"></a>
//!
//! ## `cooked_content`
//!
//! A packet of cooked capture v1 is read as a frame, or by its header and payload.
//!
//! ```text
//! abbrev pub cooked_content : List ℕ → ContentValue
//! cooked_content bytes =
//!     if has_other_hardware bytes then LinuxSll (linux_sll_of bytes) (slice_range bytes 16 (length bytes))
//!     else Frame (Start kinds.LinuxSll) bytes
//! ```
//!
//! Uses: [`ContentValue`](#def.ContentValue), [`has_other_hardware`](#def.has_other_hardware), [`LinuxSll`](#def.ContentValue), [`linux_sll_of`](crate::definitions::ether_base#def.linux_sll_of), [`Frame`](#def.ContentValue), [`Start`](crate::definitions::ether_peel#def.Next), [`kinds.LinuxSll`](crate::definitions::ether_base#def.Kind)
//!
//! <a id="def.content_of"></a>
//!
//! ## `content_of`
//!
//! > `cooked_content`: a packet of cooked capture v1 is read as a frame, or by its header and payload
//!
//! .. by its link type: 1 is Ethernet, 113 and 276 are Linux cooked capture v1 and v2 (the list of link types of the
//! tcpdump group). A frame check sequence of four bytes is part of an Ethernet frame if all of it was captured.
//!
//! ```text
//! abbrev pub content_of : PacketValue → ContentValue
//! content_of p =
//!     if nat_eq p.link_type 1 then (if has_fcs p then Frame (Start kinds.Ethernet2Fcs) p.packet
//!     else Frame (Start kinds.Ethernet2) (without_fcs p))
//!     else (if nat_eq p.link_type 113 then cooked_content (without_fcs p)
//!     else (if nat_eq p.link_type 276 then LinuxSll2 (without_fcs p) else Unknown))
//! ```
//!
//! Uses: [`PacketValue`](crate::definitions::ether_pcap#def.PacketValue), [`ContentValue`](#def.ContentValue), [`has_fcs`](#def.has_fcs), [`Frame`](#def.ContentValue), [`Start`](crate::definitions::ether_peel#def.Next), [`kinds.Ethernet2Fcs`](crate::definitions::ether_base#def.Kind), [`kinds.Ethernet2`](crate::definitions::ether_base#def.Kind), [`without_fcs`](#def.without_fcs), [`cooked_content`](#def.cooked_content), [`LinuxSll2`](#def.ContentValue), [`Unknown`](#def.ContentValue)
//!
//! <a id="def.is_unknown"></a>
//!
//! ## `is_unknown`
//!
//! ```text
//! abbrev pub is_unknown : ContentValue → Bool
//! is_unknown (Frame next bytes) = false
//! is_unknown (LinuxSll s payload) = false
//! is_unknown (LinuxSll2 bytes) = false
//! is_unknown Unknown = true
//! ```
//!
//! Uses: [`ContentValue`](#def.ContentValue), [`Frame`](#def.ContentValue), [`LinuxSll`](#def.ContentValue), [`LinuxSll2`](#def.ContentValue), [`Unknown`](#def.ContentValue)
//!
//! <a id="def.IsWalked"></a>
//!
//! ## `IsWalked`
//!
//! How the walk starts, and the bytes that it goes through: a frame; the payload of cooked capture v1, whose protocol
//! number is read as an ether type; or the payload of cooked capture v2, if an ether type announces it.
//!
//! ```text
//! pub data IsWalked : ContentValue → Next → List ℕ → Type 0 where
//!   frame : (next : Next) (bytes : List ℕ) → IsWalked (Frame next bytes) next bytes
//!   cooked : (s : LinuxSllValue) (payload : List ℕ) → IsWalked (LinuxSll s payload) (EtherType s.protocol) payload
//!   payload : (bytes : List ℕ) (n : ℕ) → AcceptsLinuxSll2 bytes → told_ether_type (protocol_of_header bytes) ≡ Some n
//!       → IsWalked (LinuxSll2 bytes) (EtherType n) (slice_range bytes 20 (length bytes))
//! ```
//!
//! Uses: [`ContentValue`](#def.ContentValue), [`Next`](crate::definitions::ether_peel#def.Next), [`Frame`](#def.ContentValue), [`LinuxSllValue`](crate::definitions::ether_base#def.LinuxSllValue), [`LinuxSll`](#def.ContentValue), [`EtherType`](crate::definitions::ether_peel#def.Next), [`AcceptsLinuxSll2`](crate::definitions::ether_sll2#def.AcceptsLinuxSll2), [`told_ether_type`](crate::definitions::ether_base#def.told_ether_type), [`protocol_of_header`](crate::definitions::ether_sll2#def.protocol_of_header), [`LinuxSll2`](#def.ContentValue)
//!
//! # Content views
//!
//! The part of a packet that is walked, as a value.
//!
//! <a id="def.cooked_view"></a>
//!
//! ## `cooked_view`
//!
//! ```text
//! abbrev pub cooked_view : CookedHeader → LinuxSllValue
//! cooked_view h = record {
//!   packet_type = h.packet_type;
//!   hardware_type = h.hardware_type.0;
//!   address_len = h.address_len;
//!   address = number h.address;
//!   protocol = h.protocol.0;
//! }
//! ```
//!
//! Uses: [`LinuxSllValue`](crate::definitions::ether_base#def.LinuxSllValue), [`number`](crate::definitions::ether_base#def.number)
//!
//! <a id="def.content_view"></a>
//!
//! ## `content_view`
//!
//! ```text
//! abbrev pub content_view : Content → ContentValue
//! content_view (contents.Frame start bytes) = Frame (next_of start) bytes.now
//! content_view (contents.LinuxSll header payload) = LinuxSll (cooked_view header) payload.now
//! content_view (contents.LinuxSll2 bytes) = LinuxSll2 bytes.now
//! content_view contents.Unknown = Unknown
//! ```
//!
//! Uses: [`ContentValue`](#def.ContentValue), `contents` (`Content`), [`Frame`](#def.ContentValue), [`next_of`](crate::definitions::ether_peel#def.next_of), [`LinuxSll`](#def.ContentValue), [`cooked_view`](#def.cooked_view), [`LinuxSll2`](#def.ContentValue), [`Unknown`](#def.ContentValue)
//!
//! # Selecting
//!
//! Which packets of a capture a filter selects.
//!
//! <a id="def.nanoseconds_of"></a>
//!
//! ## `nanoseconds_of`
//!
//! The number of nanoseconds since the beginning of 1970.
//!
//! ```text
//! abbrev pub nanoseconds_of : TimeValue → ℕ
//! nanoseconds_of t = t.seconds * 10 ^ 9 + t.nanoseconds
//! ```
//!
//! Uses: [`TimeValue`](crate::definitions::ether_pcap#def.TimeValue)
//!
//! <a id="def.time_of"></a>
//!
//! ## `time_of`
//!
//! ```text
//! abbrev pub time_of : PacketValue → Option ℕ
//! time_of p = option_map nanoseconds_of p.time
//! ```
//!
//! Uses: [`PacketValue`](crate::definitions::ether_pcap#def.PacketValue), [`nanoseconds_of`](#def.nanoseconds_of)
//!
//! <a id="def.HoldsOf"></a>
//!
//! ## `HoldsOf`
//!
//! A filter's expression holds for the walk of a frame, in a packet with these lengths and this time.
//!
//! ```text
//! pub record HoldsOf (x : Expression) (next : Next) (frame : List ℕ) (captured original : ℕ) (time : Option ℕ)
//!     : Type 0 where
//!   pub headers : List Header
//!   pub ending : Ending
//!   pub walk : Walk (record { next = next; limit = None }) frame headers ending
//!   pub holds : Holds x (record {
//!     start = next;
//!     headers = headers;
//!     ending = ending;
//!     captured = captured;
//!     original = original;
//!     time = time;
//!   })
//! ```
//!
//! Uses: [`Expression`](crate::definitions::ether_filter#def.Expression), [`Next`](crate::definitions::ether_peel#def.Next), [`Header`](crate::definitions::ether_base#def.Header), [`Ending`](crate::definitions::ether_peel#def.Ending), [`Walk`](crate::definitions::ether_peel#def.Walk), [`Holds`](crate::definitions::ether_filter#def.Holds)
//!
//! <a id="def.Selects"></a>
//!
//! ## `Selects`
//!
//! > `HoldsOf`: a filter's expression holds for the walk of a frame, in a packet with these lengths and this time
//!
//! .. for the part of a packet that is walked.
//!
//! ```text
//! pub record Selects (x : Expression) (p : PacketValue) : Type 0 where
//!   pub next : Next
//!   pub frame : List ℕ
//!   pub walked : IsWalked (content_of p) next frame
//!   pub holds : HoldsOf x next frame (length p.packet) p.original_len (time_of p)
//! ```
//!
//! Uses: [`Expression`](crate::definitions::ether_filter#def.Expression), [`PacketValue`](crate::definitions::ether_pcap#def.PacketValue), [`Next`](crate::definitions::ether_peel#def.Next), [`IsWalked`](#def.IsWalked), [`content_of`](#def.content_of), [`HoldsOf`](#def.HoldsOf), [`time_of`](#def.time_of)
//!
//! **Packets that were cut**
//!
//! <a id="def.time_view"></a>
//!
//! ## `time_view`
//!
//! A time that a filter has.
//!
//! ```text
//! abbrev pub time_view : PacketTime → TimeValue
//! time_view t = record { seconds = t.seconds; nanoseconds = t.nanoseconds }
//! ```
//!
//! Uses: [`TimeValue`](crate::definitions::ether_pcap#def.TimeValue)
//!
//! <a id="def.missing_len"></a>
//!
//! ## `missing_len`
//!
//! The number of bytes that are missing before the frame check sequence.
//!
//! ```text
//! abbrev pub missing_len : PacketValue → ℕ
//! missing_len p = whole_len p - length (without_fcs p)
//! ```
//!
//! Uses: [`PacketValue`](crate::definitions::ether_pcap#def.PacketValue), [`whole_len`](#def.whole_len), [`without_fcs`](#def.without_fcs)
//!
//! <a id="def.cooked_header_len"></a>
//!
//! ## `cooked_header_len`
//!
//! The length of the header that says which part of a packet is walked (LINKTYPE\_LINUX\_SLL, LINKTYPE\_LINUX\_SLL2).
//!
//! ```text
//! abbrev pub cooked_header_len : (link_type : ℕ) → ℕ
//! cooked_header_len link_type = if nat_eq link_type 113 then 16 else (if nat_eq link_type 276 then 20 else 0)
//! ```
//!
//! <a id="def.IsHeaderCut"></a>
//!
//! ## `IsHeaderCut`
//!
//! Some of its bytes are missing, and it may be whole without them.
//!
//! ```text
//! pub record IsHeaderCut (p : PacketValue) : Type 0 where
//!   pub short : length (without_fcs p) < cooked_header_len p.link_type
//!   pub room : cooked_header_len p.link_type ≤ whole_len p
//! ```
//!
//! Uses: [`PacketValue`](crate::definitions::ether_pcap#def.PacketValue), [`without_fcs`](#def.without_fcs), [`cooked_header_len`](#def.cooked_header_len), [`whole_len`](#def.whole_len)
//!
//! <a id="def.has_other_fcs"></a>
//!
//! ## `has_other_fcs`
//!
//! The capture gives the length of a frame check sequence that Ethernet does not have (IEEE 802.3, 3.2.9).
//!
//! ```text
//! abbrev pub has_other_fcs : PacketValue → Bool
//! has_other_fcs p = not (nat_eq (fcs_len p) 0) && not (nat_eq p.link_type 1 && nat_eq (fcs_len p) 4)
//! ```
//!
//! Uses: [`PacketValue`](crate::definitions::ether_pcap#def.PacketValue), [`fcs_len`](#def.fcs_len)
//!
//! <a id="def.with_fcs"></a>
//!
//! ## `with_fcs`
//!
//! How the walk starts, in a frame that ends in a check sequence.
//!
//! ```text
//! abbrev pub with_fcs : PacketValue → Next → Next
//! with_fcs p next = if nat_eq (fcs_len p) 4 then announcing.Start kinds.Ethernet2Fcs else next
//! ```
//!
//! Uses: [`PacketValue`](crate::definitions::ether_pcap#def.PacketValue), [`Next`](crate::definitions::ether_peel#def.Next), [`fcs_len`](#def.fcs_len), [`announcing.Start`](crate::definitions::ether_peel#def.Next), [`kinds.Ethernet2Fcs`](crate::definitions::ether_base#def.Kind)
//!
//! <a id="def.IsAskedOf"></a>
//!
//! ## `IsAskedOf`
//!
//! What a filter is applied to: the part of a packet that is walked, with its frame check sequence.
//!
//! ```text
//! pub record IsAskedOf (p : PacketValue) (asked : Packet) : Type 0 where
//!   pub next : Next
//!   pub walked : IsWalked (content_of p) next asked.frame.now
//!   pub start : next_of asked.start ≡ with_fcs p next
//!   pub captured : asked.captured_len ≡ length p.packet
//!   pub original : asked.original_len ≡ p.original_len
//!   pub time : option_map time_view asked.time ≡ p.time
//! ```
//!
//! Uses: [`PacketValue`](crate::definitions::ether_pcap#def.PacketValue), [`Next`](crate::definitions::ether_peel#def.Next), [`IsWalked`](#def.IsWalked), [`content_of`](#def.content_of), [`next_of`](crate::definitions::ether_peel#def.next_of), [`with_fcs`](#def.with_fcs), [`time_view`](#def.time_view)
//!
//! <a id="def.Decides"></a>
//!
//! ## `Decides`
//!
//! A decision says this.
//!
//! ```text
//! pub record Decides (x : Expression) (asked : Packet) (d : Decision) : Type 0 where
//!   pub headers : List Header
//!   pub ending : Ending
//!   pub walk : Walk (start_of asked.start) asked.frame.now headers ending
//!   pub says : Says asked headers ending x d
//! ```
//!
//! Uses: [`Expression`](crate::definitions::ether_filter#def.Expression), [`Header`](crate::definitions::ether_base#def.Header), [`Ending`](crate::definitions::ether_peel#def.Ending), [`Walk`](crate::definitions::ether_peel#def.Walk), [`start_of`](crate::definitions::ether_peel#def.start_of), [`Says`](crate::definitions::ether_filter#def.Says)
//!
//! <a id="def.IsAnswer"></a>
//!
//! ## `IsAnswer`
//!
//! > `Decides`: a decision says this
//!
//! .. that the expression holds (true) or fails (false), or that more bytes are needed.
//!
//! ```text
//! abbrev pub IsAnswer : Expression → Packet → Option Bool → Type 0
//! IsAnswer x asked None = (n : ℕ) × Decides x asked (Needs n)
//! IsAnswer x asked (Some truth) = Decides x asked (decided truth)
//! ```
//!
//! Uses: [`Expression`](crate::definitions::ether_filter#def.Expression), [`Decides`](#def.Decides), `Needs` (`Decision::Needs`), [`decided`](crate::definitions::ether_filter#def.decided)
//!
//! <a id="def.LacksBytes"></a>
//!
//! ## `LacksBytes`
//!
//! Bytes are missing of the part that is walked, which is known.
//!
//! ```text
//! pub record LacksBytes (p : PacketValue) : Type 0 where
//!   pub lacks : 0 < missing_len p
//!   pub known : IsHeaderCut p → ⊥
//!   pub fcs : has_other_fcs p ≡ false
//! ```
//!
//! Uses: [`PacketValue`](crate::definitions::ether_pcap#def.PacketValue), [`missing_len`](#def.missing_len), [`IsHeaderCut`](#def.IsHeaderCut), [`has_other_fcs`](#def.has_other_fcs)
//!
//! <a id="def.IsSettled"></a>
//!
//! ## `IsSettled`
//!
//! Whatever the missing bytes are, an expression selects a packet (true), or does not (false).
//!
//! ```text
//! pub data IsSettled (x : Expression) (p : PacketValue) (truth : Bool) : Type 0 where
//!   whole : missing_len p ≡ 0 → IsTrue truth ↔ Selects x p → IsSettled x p truth
//!   walk : LacksBytes p → (asked : Packet) → IsAskedOf p asked → IsAnswer x asked (Some truth) → IsSettled x p truth
//!   unwalked : LacksBytes p → ((next : Next) (frame : List ℕ) → IsWalked (content_of p) next frame → ⊥) → truth ≡ false
//!       → IsSettled x p truth
//! ```
//!
//! Uses: [`Expression`](crate::definitions::ether_filter#def.Expression), [`PacketValue`](crate::definitions::ether_pcap#def.PacketValue), [`missing_len`](#def.missing_len), [`Selects`](#def.Selects), [`LacksBytes`](#def.LacksBytes), [`IsAskedOf`](#def.IsAskedOf), [`IsAnswer`](#def.IsAnswer), [`Next`](crate::definitions::ether_peel#def.Next), [`IsWalked`](#def.IsWalked), [`content_of`](#def.content_of)
//!
//! <a id="def.IsUndecided"></a>
//!
//! ## `IsUndecided`
//!
//! The captured bytes of a packet do not decide whether an expression selects it: it needs more bytes of the part that
//! is
//! walked; or the header of cooked capture that says what is walked was cut; or its frame check sequence has no meaning.
//!
//! ```text
//! pub data IsUndecided (x : Expression) (p : PacketValue) : Type 0 where
//!   walk : LacksBytes p → (asked : Packet) → IsAskedOf p asked → IsAnswer x asked None → IsUndecided x p
//!   header : 0 < missing_len p → IsHeaderCut p → IsUndecided x p
//!   fcs : 0 < missing_len p → has_other_fcs p ≡ true → IsUndecided x p
//! ```
//!
//! Uses: [`Expression`](crate::definitions::ether_filter#def.Expression), [`PacketValue`](crate::definitions::ether_pcap#def.PacketValue), [`LacksBytes`](#def.LacksBytes), [`IsAskedOf`](#def.IsAskedOf), [`IsAnswer`](#def.IsAnswer), [`missing_len`](#def.missing_len), [`IsHeaderCut`](#def.IsHeaderCut), [`has_other_fcs`](#def.has_other_fcs)
//!
//! <a id="def.IsOutcome"></a>
//!
//! ## `IsOutcome`
//!
//! What the captured bytes decide, if they do.
//!
//! ```text
//! abbrev pub IsOutcome : Expression → PacketValue → Option Bool → Type 0
//! IsOutcome x p None = IsUndecided x p
//! IsOutcome x p (Some truth) = IsSettled x p truth
//! ```
//!
//! Uses: [`Expression`](crate::definitions::ether_filter#def.Expression), [`PacketValue`](crate::definitions::ether_pcap#def.PacketValue), [`IsUndecided`](#def.IsUndecided), [`IsSettled`](#def.IsSettled)
//!
//! # Editing
//!
//! What an edit makes of a captured packet.
//!
//! <a id="def.EditValue"></a>
//!
//! ## `EditValue`
//!
//! The packet is cut to its headers; or the VLAN tag after its link's header is taken off; or a VLAN tag with this TPID
//! and identifier is put in there; or the outermost VLAN tag with the old identifier gets the new one.
//!
//! ```text
//! pub data EditValue : Type 0 where
//!   CutToHeaders : EditValue
//!   PopVlan : EditValue
//!   PushVlan : (tpid id : ℕ) → EditValue
//!   SetVlan : (old new : ℕ) → EditValue
//! ```
//!
//! <a id="def.frame_start"></a>
//!
//! ## `frame_start`
//!
//! ```text
//! abbrev pub frame_start : Next → Expectation
//! frame_start next = record { next = next; limit = None }
//! ```
//!
//! Uses: [`Next`](crate::definitions::ether_peel#def.Next), [`Expectation`](crate::definitions::ether_peel#def.Expectation)
//!
//! <a id="def.IsFrame"></a>
//!
//! ## `IsFrame`
//!
//! The packet is a frame of Ethernet or of cooked capture v1, with this walk.
//!
//! ```text
//! pub record IsFrame (p : PacketValue) (next : Next) (frame : List ℕ) (hs : List Header) (e : Ending) : Type 0 where
//!   pub content : content_of p ≡ Frame next frame
//!   pub walk : Walk (frame_start next) frame hs e
//! ```
//!
//! Uses: [`PacketValue`](crate::definitions::ether_pcap#def.PacketValue), [`Next`](crate::definitions::ether_peel#def.Next), [`Header`](crate::definitions::ether_base#def.Header), [`Ending`](crate::definitions::ether_peel#def.Ending), [`content_of`](#def.content_of), [`Frame`](#def.ContentValue), [`Walk`](crate::definitions::ether_peel#def.Walk), [`frame_start`](#def.frame_start)
//!
//! <a id="def.with_frame"></a>
//!
//! ## `with_frame`
//!
//! Another frame in place of the packet's; captured bytes after it, of a frame check sequence, are unchanged.
//!
//! ```text
//! abbrev pub with_frame : PacketValue → (frame new : List ℕ) → (original_len : ℕ) → EditedValue
//! with_frame p frame new original_len =
//!     record { original_len = original_len; packet = new ++ drop (length frame) p.packet }
//! ```
//!
//! Uses: [`PacketValue`](crate::definitions::ether_pcap#def.PacketValue), [`EditedValue`](crate::definitions::ether_pcap#def.EditedValue)
//!
//! <a id="def.Pops"></a>
//!
//! ## `Pops`
//!
//! The VLAN tag after the link's header is taken off, and the packet is four bytes shorter. It is still a frame, with
//! the walk that `IsPopped` says.
//!
//! ```text
//! pub record Pops (p : PacketValue) (edited : EditedValue) : Type 0 where
//!   pub next : Next
//!   pub frame : List ℕ
//!   pub headers : List Header
//!   pub ending : Ending
//!   pub tag : VlanValue
//!   pub new : List ℕ
//!   pub is_frame : IsFrame p next frame headers ending
//!   pub popped : IsPopped (frame_start next) frame headers ending tag new
//!   pub is : edited ≡ with_frame p frame (drop 4 new) (p.original_len - 4)
//!   pub content : content_of (edited_packet edited p) ≡ Frame next (drop 4 new)
//! ```
//!
//! Uses: [`PacketValue`](crate::definitions::ether_pcap#def.PacketValue), [`EditedValue`](crate::definitions::ether_pcap#def.EditedValue), [`Next`](crate::definitions::ether_peel#def.Next), [`Header`](crate::definitions::ether_base#def.Header), [`Ending`](crate::definitions::ether_peel#def.Ending), [`VlanValue`](crate::definitions::ether_base#def.VlanValue), [`IsFrame`](#def.IsFrame), [`IsPopped`](crate::definitions::ether_packet#def.IsPopped), [`frame_start`](#def.frame_start), [`with_frame`](#def.with_frame), [`content_of`](#def.content_of), [`edited_packet`](crate::definitions::ether_pcap#def.edited_packet), [`Frame`](#def.ContentValue)
//!
//! <a id="def.tag_with"></a>
//!
//! ## `tag_with`
//!
//! The tag that is put in, of priority 0; it gets the ether type of the link's header.
//!
//! ```text
//! abbrev pub tag_with : (id : ℕ) → VlanValue
//! tag_with id = record { pcp = 0; dei = 0; vid = id; ether_type = 0 }
//! ```
//!
//! Uses: [`VlanValue`](crate::definitions::ether_base#def.VlanValue)
//!
//! <a id="def.after_free"></a>
//!
//! ## `after_free`
//!
//! A frame after four free bytes.
//!
//! ```text
//! abbrev pub after_free : List ℕ → List ℕ
//! after_free frame = 0 ∷ 0 ∷ 0 ∷ 0 ∷ frame
//! ```
//!
//! <a id="def.Pushes"></a>
//!
//! ## `Pushes`
//!
//! A VLAN tag is put in after the link's header, and the packet is four bytes longer. It is still a frame, with the
//! walk that `IsPushed` says.
//!
//! ```text
//! pub record Pushes (tpid id : ℕ) (p : PacketValue) (edited : EditedValue) : Type 0 where
//!   pub next : Next
//!   pub frame : List ℕ
//!   pub headers : List Header
//!   pub ending : Ending
//!   pub new : List ℕ
//!   pub is_frame : IsFrame p next frame headers ending
//!   pub pushed : IsPushed (frame_start next) (after_free frame) headers ending (tag_with id) tpid new
//!   pub is : edited ≡ with_frame p frame new (p.original_len + 4)
//!   pub content : content_of (edited_packet edited p) ≡ Frame next new
//! ```
//!
//! Uses: [`PacketValue`](crate::definitions::ether_pcap#def.PacketValue), [`EditedValue`](crate::definitions::ether_pcap#def.EditedValue), [`Next`](crate::definitions::ether_peel#def.Next), [`Header`](crate::definitions::ether_base#def.Header), [`Ending`](crate::definitions::ether_peel#def.Ending), [`IsFrame`](#def.IsFrame), [`IsPushed`](crate::definitions::ether_packet#def.IsPushed), [`frame_start`](#def.frame_start), [`after_free`](#def.after_free), [`tag_with`](#def.tag_with), [`with_frame`](#def.with_frame), [`content_of`](#def.content_of), [`edited_packet`](crate::definitions::ether_pcap#def.edited_packet), [`Frame`](#def.ContentValue)
//!
//! <a id="def.Sets"></a>
//!
//! ## `Sets`
//!
//! The outermost VLAN tag with one identifier gets another one, and the packet is as long as before. It is still a
//! frame, with the walk that `SetsTag` says.
//!
//! ```text
//! pub record Sets (old new : ℕ) (p : PacketValue) (edited : EditedValue) : Type 0 where
//!   pub next : Next
//!   pub frame : List ℕ
//!   pub headers : List Header
//!   pub ending : Ending
//!   pub index : ℕ
//!   pub changed : List ℕ
//!   pub is_frame : IsFrame p next frame headers ending
//!   pub finds : FindsVlan headers old index
//!   pub set : SetsTag (frame_start next) frame headers ending index (λ tag. record tag { vid = new }) changed
//!   pub is : edited ≡ with_frame p frame changed p.original_len
//!   pub content : content_of (edited_packet edited p) ≡ Frame next changed
//! ```
//!
//! Uses: [`PacketValue`](crate::definitions::ether_pcap#def.PacketValue), [`EditedValue`](crate::definitions::ether_pcap#def.EditedValue), [`Next`](crate::definitions::ether_peel#def.Next), [`Header`](crate::definitions::ether_base#def.Header), [`Ending`](crate::definitions::ether_peel#def.Ending), [`IsFrame`](#def.IsFrame), [`FindsVlan`](crate::definitions::ether_packet#def.FindsVlan), [`SetsTag`](crate::definitions::ether_packet#def.SetsTag), [`frame_start`](#def.frame_start), [`with_frame`](#def.with_frame), [`content_of`](#def.content_of), [`edited_packet`](crate::definitions::ether_pcap#def.edited_packet), [`Frame`](#def.ContentValue)
//!
//! <a id="def.Stays"></a>
//!
//! ## `Stays`
//!
//! A packet is unchanged: it is not a frame, or its frame is refused.
//!
//! ```text
//! pub data Stays (Refuses : (frame : List ℕ) → List Header → Type 0) (p : PacketValue) : Type 0 where
//!   no_frame : ((next : Next) (frame : List ℕ) → content_of p ≢ Frame next frame) → Stays Refuses p
//!   refused : (next : Next) (frame : List ℕ) (hs : List Header) (e : Ending) → IsFrame p next frame hs e
//!       → Refuses frame hs
//!       → Stays Refuses p
//! ```
//!
//! Uses: [`Header`](crate::definitions::ether_base#def.Header), [`PacketValue`](crate::definitions::ether_pcap#def.PacketValue), [`Next`](crate::definitions::ether_peel#def.Next), [`content_of`](#def.content_of), [`Frame`](#def.ContentValue), [`Ending`](crate::definitions::ether_peel#def.Ending), [`IsFrame`](#def.IsFrame)
//!
//! <a id="def.Edits"></a>
//!
//! ## `Edits`
//!
//! What an edit makes of a packet; None if the packet is unchanged.
//!
//! ```text
//! pub data Edits : EditValue → PacketValue → Option EditedValue → Type 0 where
//!   cuts : (p : PacketValue) (n : ℕ) → HeadersTake (content_of p) n → n < length p.packet
//!       → Edits CutToHeaders p (Some (record { original_len = p.original_len; packet = take n p.packet }))
//!   not_cut : (p : PacketValue) (n : ℕ) → HeadersTake (content_of p) n → length p.packet ≤ n → Edits CutToHeaders p None
//!   pops : (p : PacketValue) (e : EditedValue) → Pops p e → Edits PopVlan p (Some e)
//!   not_popped : (p : PacketValue) → Stays (λ frame hs. (error : TagError) × RefusesPop hs error) p → Edits PopVlan p None
//!   pushes : (p : PacketValue) (tpid id : ℕ) (e : EditedValue) → Pushes tpid id p e → Edits (PushVlan tpid id) p (Some e)
//!   not_pushed : (p : PacketValue) (tpid id : ℕ)
//!       → Stays (λ frame hs. (error : TagError) × RefusesPush (after_free frame) hs tpid error) p
//!       → Edits (PushVlan tpid id) p None
//!   sets : (p : PacketValue) (old new : ℕ) (e : EditedValue) → Sets old new p e → Edits (SetVlan old new) p (Some e)
//!   not_set : (p : PacketValue) (old new : ℕ) → Stays (λ frame hs. LacksVlan hs old) p → Edits (SetVlan old new) p None
//! ```
//!
//! Uses: [`EditValue`](#def.EditValue), [`PacketValue`](crate::definitions::ether_pcap#def.PacketValue), [`EditedValue`](crate::definitions::ether_pcap#def.EditedValue), [`HeadersTake`](#def.HeadersTake), [`content_of`](#def.content_of), [`CutToHeaders`](#def.EditValue), [`Pops`](#def.Pops), [`PopVlan`](#def.EditValue), [`Stays`](#def.Stays), [`RefusesPop`](crate::definitions::ether_packet#def.RefusesPop), [`Pushes`](#def.Pushes), [`PushVlan`](#def.EditValue), [`RefusesPush`](crate::definitions::ether_packet#def.RefusesPush), [`after_free`](#def.after_free), [`Sets`](#def.Sets), [`SetVlan`](#def.EditValue), [`LacksVlan`](crate::definitions::ether_packet#def.LacksVlan)
//!
//! <a id="def.growth"></a>
//!
//! ## `growth`
//!
//! The most bytes that an edit adds to a packet.
//!
//! ```text
//! abbrev pub growth : EditValue → ℕ
//! growth (PushVlan tpid id) = 4
//! growth edit = 0
//! ```
//!
//! Uses: [`EditValue`](#def.EditValue), [`PushVlan`](#def.EditValue)
//!
//! # Editing views
//!
//! An edit, and a packet after an edit, as values.
//!
//! <a id="def.edit_view"></a>
//!
//! ## `edit_view`
//!
//! ```text
//! abbrev pub edit_view : PacketEdit → EditValue
//! edit_view edits.CutToHeaders = CutToHeaders
//! edit_view edits.PopVlan = PopVlan
//! edit_view (edits.PushVlan tpid vlan_id) = PushVlan tpid.0 vlan_id
//! edit_view (edits.SetVlan from to) = SetVlan from to
//! ```
//!
//! Uses: [`EditValue`](#def.EditValue), `edits` (`PacketEdit`), [`CutToHeaders`](#def.EditValue), [`PopVlan`](#def.EditValue), [`PushVlan`](#def.EditValue), [`SetVlan`](#def.EditValue)
//!
//! <a id="def.edited_view"></a>
//!
//! ## `edited_view`
//!
//! The captured bytes are part of a buffer.
//!
//! ```text
//! abbrev pub edited_view : (buffer : List ℕ) → EditedPacket → EditedValue
//! edited_view buffer e = record { original_len = e.original_len; packet = slice_range buffer e.start e.end }
//! ```
//!
//! Uses: [`EditedValue`](crate::definitions::ether_pcap#def.EditedValue)
//!
//! # Headers
//!
//! The number of bytes that the headers of a captured packet take.
//!
//! <a id="def.Reaches"></a>
//!
//! ## `Reaches`
//!
//! The headers of a frame take n bytes, with the payloads whose lengths they give.
//!
//! ```text
//! pub record Reaches (next : Next) (frame : List ℕ) (n : ℕ) : Type 0 where
//!   pub headers : List Header
//!   pub ending : Ending
//!   pub walk : Walk (record { next = next; limit = None }) frame headers ending
//!   pub is_reach : n ≡ reach 0 headers
//! ```
//!
//! Uses: [`Next`](crate::definitions::ether_peel#def.Next), [`Header`](crate::definitions::ether_base#def.Header), [`Ending`](crate::definitions::ether_peel#def.Ending), [`Walk`](crate::definitions::ether_peel#def.Walk), [`reach`](crate::definitions::ether_peel#def.reach)
//!
//! <a id="def.HeadersTake"></a>
//!
//! ## `HeadersTake`
//!
//! > `Reaches`: the headers of a frame take n bytes, with the payloads whose lengths they give
//!
//! .. and those of a packet. In cooked capture v1 that is not read as a frame these are its header and the headers of
//! its payload; in v2 its header, if that is accepted, and the headers of the payload that an ether type announces.
//!
//! ```text
//! pub data HeadersTake : ContentValue → ℕ → Type 0 where
//!   frame : (next : Next) (bytes : List ℕ) (n : ℕ) → Reaches next bytes n → HeadersTake (Frame next bytes) n
//!   cooked : (s : LinuxSllValue) (payload : List ℕ) (n : ℕ) → Reaches (EtherType s.protocol) payload n
//!       → HeadersTake (LinuxSll s payload) (16 + n)
//!   payload : (next : Next) (bytes frame : List ℕ) (n : ℕ) → IsWalked (LinuxSll2 bytes) next frame → Reaches next frame n
//!       → HeadersTake (LinuxSll2 bytes) (20 + n)
//!   header : (bytes : List ℕ) → AcceptsLinuxSll2 bytes → told_ether_type (protocol_of_header bytes) ≡ None
//!       → HeadersTake (LinuxSll2 bytes) 20
//!   no_header : (bytes : List ℕ) → ¬ (AcceptsLinuxSll2 bytes) → HeadersTake (LinuxSll2 bytes) 0
//!   unknown : HeadersTake Unknown 0
//! ```
//!
//! Uses: [`ContentValue`](#def.ContentValue), [`Next`](crate::definitions::ether_peel#def.Next), [`Reaches`](#def.Reaches), [`Frame`](#def.ContentValue), [`LinuxSllValue`](crate::definitions::ether_base#def.LinuxSllValue), [`EtherType`](crate::definitions::ether_peel#def.Next), [`LinuxSll`](#def.ContentValue), [`IsWalked`](#def.IsWalked), [`LinuxSll2`](#def.ContentValue), [`AcceptsLinuxSll2`](crate::definitions::ether_sll2#def.AcceptsLinuxSll2), [`told_ether_type`](crate::definitions::ether_base#def.told_ether_type), [`protocol_of_header`](crate::definitions::ether_sll2#def.protocol_of_header), [`Unknown`](#def.ContentValue)
//!
