//! The walk through a frame, from header to header.
//!
//! # Grammar: window
//!
//! Windows: parts of a whole list.
//!
//! <a id="def.Window"></a>
//!
//! ## `Window`
//!
//! From a start up to an end, which is not in it. Further bytes after the list belong to it only if it is open. Its
//! bound is what named its end: the list itself, or the short length of a SecTag around it.
//!
//! ```text
//! pub record Window : Type 0 where
//!   pub start : ℕ
//!   pub finish : ℕ
//!   pub closed : Bool
//!   pub bound : LenSource
//! ```
//!
//! <a id="def.within"></a>
//!
//! ## `within`
//!
//! The window's bytes.
//!
//! ```text
//! abbrev pub within : List ℕ → Window → List ℕ
//! within list w = slice_range list w.start w.finish
//! ```
//!
//! Uses: [`Window`](#def.Window)
//!
//! <a id="def.IsIn"></a>
//!
//! ## `IsIn`
//!
//! ```text
//! pub record IsIn (list : List ℕ) (w : Window) : Type 0 where
//!   pub ordered : w.start ≤ w.finish
//!   pub inside : w.finish ≤ length list
//! ```
//!
//! Uses: [`Window`](#def.Window)
//!
//! <a id="def.payload"></a>
//!
//! ## `payload`
//!
//! The window of the payload after a header at the window's start. If the header names the payload's length, it ends
//! after that many bytes, is closed and is bounded by the short length; if not, it ends before the trailer, and is
//! closed and bounded as the window is.
//!
//! ```text
//! abbrev pub payload : Window → Header → Window
//! payload w h = let start = w.start + header_len h in record {
//!   start = start;
//!   finish = unwrap_or (option_map (λ n. start + n) (payload_len h)) (w.finish - trailer_len h);
//!   closed = is_some (payload_len h) || w.closed;
//!   bound = if is_some (payload_len h) then sources.MacsecShortLength else w.bound;
//! }
//! ```
//!
//! Uses: [`Window`](#def.Window), [`Header`](crate::definitions::ether_base#def.Header), [`header_len`](crate::definitions::ether_base#def.header_len), [`payload_len`](crate::definitions::ether_base#def.payload_len), [`trailer_len`](crate::definitions::ether_base#def.trailer_len), `sources` (`LenSource`)
//!
//! # Grammar: expectation
//!
//! What is expected at a place, and what that announces.
//!
//! <a id="def.Next"></a>
//!
//! ## `Next`
//!
//! ```text
//! pub data Next : Type 0 where
//!   -- the kind with which a walk begins
//!   Start : Kind → Next
//!   EtherType : ℕ → Next
//!   Sll : LinuxSllProtocolType → Next
//!   Sealed : Next
//!   AfterArp : Next
//! ```
//!
//! Uses: [`Kind`](crate::definitions::ether_base#def.Kind)
//!
//! <a id="def.Expectation"></a>
//!
//! ## `Expectation`
//!
//! What comes next, and how many extensions may still be read, if that is limited.
//!
//! ```text
//! pub record Expectation : Type 0 where
//!   pub next : Next
//!   pub limit : Option ℕ
//! ```
//!
//! Uses: [`Next`](#def.Next)
//!
//! <a id="def.is_extension"></a>
//!
//! ## `is_extension`
//!
//! VLAN tags and MACsec units are extensions.
//!
//! ```text
//! abbrev pub is_extension : Kind → Bool
//! is_extension kinds.Vlan = true
//! is_extension kinds.Macsec = true
//! is_extension _ = false
//! ```
//!
//! Uses: [`Kind`](crate::definitions::ether_base#def.Kind), [`kinds.Vlan`](crate::definitions::ether_base#def.Kind), [`kinds.Macsec`](crate::definitions::ether_base#def.Kind)
//!
//! <a id="def.is_spent"></a>
//!
//! ## `is_spent`
//!
//! No extension may be read any more.
//!
//! ```text
//! abbrev pub is_spent : Option ℕ → Bool
//! is_spent (Some zero) = true
//! is_spent _ = false
//! ```
//!
//! <a id="def.announced_by"></a>
//!
//! ## `announced_by`
//!
//! The kind that an ether type announces: a VLAN tag (IEEE 802.1Q, table 9-1, and the older 0x9100), a MACsec SecTag
//! (IEEE 802.1AE, table 9-1), an ARP packet (RFC 826, "Definitions").
//!
//! ```text
//! abbrev pub announced_by : ℕ → Option Kind
//! announced_by t =
//!     if is_vlan_ether_type t then Some kinds.Vlan
//!     else (if nat_eq t 0x88E5 then Some kinds.Macsec
//!     else (if nat_eq t 0x0806 then Some kinds.Arp else None))
//! ```
//!
//! Uses: [`Kind`](crate::definitions::ether_base#def.Kind), [`is_vlan_ether_type`](crate::definitions::ether_base#def.is_vlan_ether_type), [`kinds.Vlan`](crate::definitions::ether_base#def.Kind), [`kinds.Macsec`](crate::definitions::ether_base#def.Kind), [`kinds.Arp`](crate::definitions::ether_base#def.Kind)
//!
//! <a id="def.announced_next"></a>
//!
//! ## `announced_next`
//!
//! ```text
//! abbrev pub announced_next : Next → Option Kind
//! announced_next (Start kind) = Some kind
//! announced_next (EtherType t) = announced_by t
//! announced_next _ = None
//! ```
//!
//! Uses: [`Next`](#def.Next), [`Kind`](crate::definitions::ether_base#def.Kind), [`Start`](#def.Next), [`EtherType`](#def.Next), [`announced_by`](#def.announced_by)
//!
//! <a id="def.permitted"></a>
//!
//! ## `permitted`
//!
//! An extension is not announced if none may be read any more.
//!
//! ```text
//! abbrev pub permitted : Option ℕ → Option Kind → Option Kind
//! permitted limit None = None
//! permitted limit (Some kind) = if is_extension kind && is_spent limit then None else Some kind
//! ```
//!
//! Uses: [`Kind`](crate::definitions::ether_base#def.Kind), [`is_extension`](#def.is_extension), [`is_spent`](#def.is_spent)
//!
//! <a id="def.announced"></a>
//!
//! ## `announced`
//!
//! ```text
//! abbrev pub announced : Expectation → Option Kind
//! announced x = permitted x.limit (announced_next x.next)
//! ```
//!
//! Uses: [`Expectation`](#def.Expectation), [`Kind`](crate::definitions::ether_base#def.Kind), [`permitted`](#def.permitted), [`announced_next`](#def.announced_next)
//!
//! <a id="def.after_capture"></a>
//!
//! ## `after_capture`
//!
//! The protocol number of a cooked capture is an ether type on Ethernet, which is hardware type 1 (LINKTYPE\_LINUX\_SLL).
//!
//! ```text
//! abbrev pub after_capture : (hardware number : ℕ) → Next
//! after_capture hardware number = if hardware == 1 then EtherType number else Sll (link_protocol_of hardware number)
//! ```
//!
//! Uses: [`Next`](#def.Next), [`EtherType`](#def.Next), [`Sll`](#def.Next), [`link_protocol_of`](crate::definitions::ether_base#def.link_protocol_of)
//!
//! <a id="def.after_payload"></a>
//!
//! ## `after_payload`
//!
//! ```text
//! abbrev pub after_payload : PayloadType → Next
//! after_payload (payloads.Unmodified ether_type) = EtherType ether_type
//! after_payload _ = Sealed
//! ```
//!
//! Uses: [`PayloadType`](crate::definitions::ether_base#def.PayloadType), [`Next`](#def.Next), [`payloads.Unmodified`](crate::definitions::ether_base#def.PayloadType), [`EtherType`](#def.Next), [`Sealed`](#def.Next)
//!
//! <a id="def.next_after"></a>
//!
//! ## `next_after`
//!
//! ```text
//! abbrev pub next_after : Header → Next
//! next_after (headers.Ethernet2 e) = EtherType e.ether_type
//! next_after (headers.Ethernet2Fcs e) = EtherType e.ether_type
//! next_after (headers.LinuxSll s) = after_capture s.hardware_type s.protocol
//! next_after (headers.Vlan v) = EtherType v.ether_type
//! next_after (headers.Macsec t) = after_payload t.payload_type
//! next_after (headers.Arp a) = AfterArp
//! ```
//!
//! Uses: [`Header`](crate::definitions::ether_base#def.Header), [`Next`](#def.Next), [`headers.Ethernet2`](crate::definitions::ether_base#def.Header), [`EtherType`](#def.Next), [`headers.Ethernet2Fcs`](crate::definitions::ether_base#def.Header), [`headers.LinuxSll`](crate::definitions::ether_base#def.Header), [`after_capture`](#def.after_capture), [`headers.Vlan`](crate::definitions::ether_base#def.Header), [`headers.Macsec`](crate::definitions::ether_base#def.Header), [`after_payload`](#def.after_payload), [`headers.Arp`](crate::definitions::ether_base#def.Header), [`AfterArp`](#def.Next)
//!
//! <a id="def.lowered"></a>
//!
//! ## `lowered`
//!
//! A limit, after a unit that is an extension or is none.
//!
//! ```text
//! abbrev pub lowered : Bool → Option ℕ → Option ℕ
//! lowered extension limit = if extension then option_map (λ n. n - 1) limit else limit
//! ```
//!
//! <a id="def.after"></a>
//!
//! ## `after`
//!
//! What is expected after a unit, if x was expected there.
//!
//! ```text
//! abbrev pub after : Expectation → Header → Expectation
//! after x h = record { next = next_after h; limit = lowered (is_extension (kind_of h)) x.limit }
//! ```
//!
//! Uses: [`Expectation`](#def.Expectation), [`Header`](crate::definitions::ether_base#def.Header), [`next_after`](#def.next_after), [`lowered`](#def.lowered), [`is_extension`](#def.is_extension), [`kind_of`](crate::definitions::ether_base#def.kind_of)
//!
//! <a id="def.next_has_fcs"></a>
//!
//! ## `next_has_fcs`
//!
//! ```text
//! abbrev pub next_has_fcs : Next → Bool
//! next_has_fcs (Start kinds.Ethernet2Fcs) = true
//! next_has_fcs _ = false
//! ```
//!
//! Uses: [`Next`](#def.Next), [`Start`](#def.Next), [`kinds.Ethernet2Fcs`](crate::definitions::ether_base#def.Kind)
//!
//! <a id="def.has_fcs"></a>
//!
//! ## `has_fcs`
//!
//! A frame that ends in a frame check sequence is expected.
//!
//! ```text
//! abbrev pub has_fcs : Expectation → Bool
//! has_fcs x = next_has_fcs x.next
//! ```
//!
//! Uses: [`Expectation`](#def.Expectation), [`next_has_fcs`](#def.next_has_fcs)
//!
//! # Grammar: stack
//!
//! Units one in another: the headers of a window of a list, by what is expected there.
//!
//! <a id="def.Ending"></a>
//!
//! ## `Ending`
//!
//! The last window, what is expected there, and the refusal if there is one.
//!
//! ```text
//! pub data Ending : Type 0 where
//!   Accepted : Window → Expectation → Ending
//!   Fault : Window → Expectation → Refusal → Ending
//! ```
//!
//! Uses: [`Window`](#def.Window), [`Expectation`](#def.Expectation), [`Refusal`](crate::definitions::ether_base#def.Refusal)
//!
//! <a id="def.last_window"></a>
//!
//! ## `last_window`
//!
//! The window in which it ends.
//!
//! ```text
//! abbrev pub last_window : Ending → Window
//! last_window (Accepted v y) = v
//! last_window (Fault v y r) = v
//! ```
//!
//! Uses: [`Ending`](#def.Ending), [`Window`](#def.Window), [`Accepted`](#def.Ending), [`Fault`](#def.Ending)
//!
//! <a id="def.last_expected"></a>
//!
//! ## `last_expected`
//!
//! What is expected there.
//!
//! ```text
//! abbrev pub last_expected : Ending → Expectation
//! last_expected (Accepted v y) = y
//! last_expected (Fault v y r) = y
//! ```
//!
//! Uses: [`Ending`](#def.Ending), [`Expectation`](#def.Expectation), [`Accepted`](#def.Ending), [`Fault`](#def.Ending)
//!
//! <a id="def.IsUnit"></a>
//!
//! ## `IsUnit`
//!
//! A header at the window's start, of an announced unit that is not refused.
//!
//! ```text
//! pub record IsUnit (list : List ℕ) (x : Expectation) (w : Window) (h : Header) : Type 0 where
//!   pub announced : announced x ≡ Some (kind_of h)
//!   pub accepted : Accepts w.bound (within list w) (kind_of h)
//!   pub means : Means (within list w) h
//! ```
//!
//! Uses: [`Expectation`](#def.Expectation), [`Window`](#def.Window), [`Header`](crate::definitions::ether_base#def.Header), [`kind_of`](crate::definitions::ether_base#def.kind_of), [`Accepts`](crate::definitions::ether_base#def.Accepts), [`within`](#def.within), [`Means`](crate::definitions::ether_base#def.Means)
//!
//! <a id="def.Stack"></a>
//!
//! ## `Stack`
//!
//! From an expectation and a window on the list has these headers, each in the payload of the one before it,
//! and then this ending: nothing is announced; a row of the table holds; a unit, and a stack in its payload.
//!
//! ```text
//! abbrev pub Stack : List ℕ → Expectation → Window → List Header → Ending → Type 0
//! Stack list x w [] (Accepted v y) = (v ≡ w) × (y ≡ x) × (announced x ≡ None)
//! Stack list x w [] (Fault v y r) =
//!     (v ≡ w) × (y ≡ x) × (kind : Kind) × (announced x ≡ Some kind) × Refuses w.bound (within list w) kind r
//! Stack list x w (h ∷ hs) e = IsUnit list x w h × Stack list (after x h) (payload w h) hs e
//! ```
//!
//! Uses: [`Expectation`](#def.Expectation), [`Window`](#def.Window), [`Header`](crate::definitions::ether_base#def.Header), [`Ending`](#def.Ending), [`Accepted`](#def.Ending), [`announced`](#def.announced), [`Fault`](#def.Ending), [`Kind`](crate::definitions::ether_base#def.Kind), [`Refuses`](crate::definitions::ether_base#def.Refuses), [`within`](#def.within), [`IsUnit`](#def.IsUnit), [`after`](#def.after), [`payload`](#def.payload)
//!
//! **Walks**
//!
//! <a id="def.whole"></a>
//!
//! ## `whole`
//!
//! The whole list, which bounds itself: open, but closed if a frame check sequence is expected, which further bytes
//! would move.
//!
//! ```text
//! abbrev pub whole : Expectation → List ℕ → Window
//! whole start list = record { start = 0; finish = length list; closed = has_fcs start; bound = sources.Slice }
//! ```
//!
//! Uses: [`Expectation`](#def.Expectation), [`Window`](#def.Window), [`has_fcs`](#def.has_fcs), `sources` (`LenSource`)
//!
//! <a id="def.Walk"></a>
//!
//! ## `Walk`
//!
//! The stack of the whole list.
//!
//! ```text
//! abbrev pub Walk : Expectation → List ℕ → List Header → Ending → Type 0
//! Walk start list hs e = Stack list start (whole start list) hs e
//! ```
//!
//! Uses: [`Expectation`](#def.Expectation), [`Header`](crate::definitions::ether_base#def.Header), [`Ending`](#def.Ending), [`Stack`](#def.Stack), [`whole`](#def.whole)
//!
//! # Grammar: endings
//!
//! Endings of walks: accepted, refused for good, or refused until more bytes are there.
//!
//! <a id="def.refusal_of"></a>
//!
//! ## `refusal_of`
//!
//! The refusal with which it ends, if it does not end accepted.
//!
//! ```text
//! abbrev pub refusal_of : Ending → Option Refusal
//! refusal_of (Accepted v y) = None
//! refusal_of (Fault v y r) = Some r
//! ```
//!
//! Uses: [`Ending`](#def.Ending), [`Refusal`](crate::definitions::ether_base#def.Refusal), [`Accepted`](#def.Ending), [`Fault`](#def.Ending)
//!
//! <a id="def.IsContent"></a>
//!
//! ## `IsContent`
//!
//! Refused for the content of the bytes, not for their number.
//!
//! ```text
//! abbrev pub IsContent : Refusal → Type 0
//! IsContent (Length required len source layer) = ⊥
//! IsContent _ = Unit {0}
//! ```
//!
//! Uses: [`Refusal`](crate::definitions::ether_base#def.Refusal), [`Length`](crate::definitions::ether_base#def.Refusal)
//!
//! <a id="def.OpenRefusal"></a>
//!
//! ## `OpenRefusal`
//!
//! An open refusal: of a length, in an open window.
//!
//! ```text
//! pub record OpenRefusal (e : Ending) : Type 0 where
//!   pub required : ℕ
//!   pub len : ℕ
//!   pub source : LenSource
//!   pub layer : Layer
//!   pub refused : refusal_of e ≡ Some (Length required len source layer)
//!   pub is_open : (last_window e).closed ≡ false
//! ```
//!
//! Uses: [`Ending`](#def.Ending), [`refusal_of`](#def.refusal_of), [`Length`](crate::definitions::ether_base#def.Refusal), [`last_window`](#def.last_window)
//!
//! <a id="def.named_len"></a>
//!
//! ## `named_len`
//!
//! The length of the list that it names: the bytes before its window, and those that are required in it.
//!
//! ```text
//! abbrev pub named_len : (e : Ending) → OpenRefusal e → ℕ
//! named_len e o = (last_window e).start + o.required
//! ```
//!
//! Uses: [`Ending`](#def.Ending), [`OpenRefusal`](#def.OpenRefusal), [`last_window`](#def.last_window)
//!
//! <a id="def.EndsAlike"></a>
//!
//! ## `EndsAlike`
//!
//! Two walks, of headers hs and ks, have the same headers and end at the same place: their last windows begin there and
//! have the same mark, and the same is expected. One of the windows may reach further.
//!
//! ```text
//! pub record EndsAlike (hs : List Header) (e : Ending) (ks : List Header) (f : Ending) : Type 0 where
//!   pub headers : ks ≡ hs
//!   pub start : (last_window f).start ≡ (last_window e).start
//!   pub closed : (last_window f).closed ≡ (last_window e).closed
//!   pub expected : last_expected f ≡ last_expected e
//! ```
//!
//! Uses: [`Header`](crate::definitions::ether_base#def.Header), [`Ending`](#def.Ending), [`last_window`](#def.last_window), [`last_expected`](#def.last_expected)
//!
//! # Grammar: places
//!
//! Where units lie in the list, and stacks that are moved to another place.
//!
//! <a id="def.place"></a>
//!
//! ## `place`
//!
//! Where the last of these headers ends, if the first of them begins at a place.
//!
//! ```text
//! abbrev pub place : ℕ → List Header → ℕ
//! place at [] = at
//! place at (h ∷ hs) = place (at + header_len h) hs
//! ```
//!
//! Uses: [`Header`](crate::definitions::ether_base#def.Header), [`header_len`](crate::definitions::ether_base#def.header_len)
//!
//! **Moving**
//!
//! <a id="def.moved"></a>
//!
//! ## `moved`
//!
//! The window that lies as far after one place as this window lies after another.
//!
//! ```text
//! abbrev pub moved : (old new : ℕ) → Window → Window
//! moved old new w =
//!     record { start = new + (w.start - old); finish = new + (w.finish - old); closed = w.closed; bound = w.bound }
//! ```
//!
//! Uses: [`Window`](#def.Window)
//!
//! <a id="def.moved_ending"></a>
//!
//! ## `moved_ending`
//!
//! ```text
//! abbrev pub moved_ending : (old new : ℕ) → Ending → Ending
//! moved_ending old new (Accepted v y) = Accepted (moved old new v) y
//! moved_ending old new (Fault v y r) = Fault (moved old new v) y r
//! ```
//!
//! Uses: [`Ending`](#def.Ending), [`Accepted`](#def.Ending), [`moved`](#def.moved), [`Fault`](#def.Ending)
//!
//! # Grammar: cuts
//!
//! What the cuts of a list, its fronts, keep of its walk.
//!
//! <a id="def.reach"></a>
//!
//! ## `reach`
//!
//! The greatest end of a unit, if the first of them begins at a place; 0 without units.
//!
//! ```text
//! abbrev pub reach : ℕ → List Header → ℕ
//! reach at [] = 0
//! reach at (h ∷ hs) = max (at + unit_len h) (reach (at + header_len h) hs)
//! ```
//!
//! Uses: [`Header`](crate::definitions::ether_base#def.Header), [`unit_len`](crate::definitions::ether_base#def.unit_len), [`header_len`](crate::definitions::ether_base#def.header_len)
//!
//! <a id="def.EndsInUnit"></a>
//!
//! ## `EndsInUnit`
//!
//! A cut of n bytes, with headers ks and ending f, ends in a unit of the whole list, whose headers are hs.
//!
//! ```text
//! pub record EndsInUnit (n : ℕ) (hs ks : List Header) (f : Ending) : Type 0 where
//!   -- it has exactly the units before that one
//!   pub unit : Header
//!   pub later : List Header
//!   pub units : hs ≡ ks ++ unit ∷ later
//!   -- which is the first whose end lies past n
//!   pub before : reach 0 ks ≤ n
//!   pub past : n < place 0 ks + unit_len unit
//!   -- and it ends in an open refusal at its start, whose named length is above n and at most its end
//!   pub refusal : OpenRefusal f
//!   pub start : (last_window f).start ≡ place 0 ks
//!   pub above : n < named_len f refusal
//!   pub at_most : named_len f refusal ≤ place 0 ks + unit_len unit
//! ```
//!
//! Uses: [`Header`](crate::definitions::ether_base#def.Header), [`Ending`](#def.Ending), [`reach`](#def.reach), [`place`](#def.place), [`unit_len`](crate::definitions::ether_base#def.unit_len), [`OpenRefusal`](#def.OpenRefusal), [`last_window`](#def.last_window), [`named_len`](#def.named_len)
//!
//! <a id="def.KeepsCut"></a>
//!
//! ## `KeepsCut`
//!
//! What a cut of n bytes, with headers ks and ending f, keeps of the whole list, with headers hs and ending e.
//!
//! ```text
//! pub record KeepsCut (hs : List Header) (e : Ending) (n : ℕ) (ks : List Header) (f : Ending) : Type 0 where
//!   -- its headers are a front of the headers of the whole
//!   pub front : (rest : List Header) × (hs ≡ ks ++ rest)
//!   -- a cut of an accepted list that has all its units is accepted, with the same headers and the same expectation
//!   pub whole_units : refusal_of e ≡ None → reach 0 hs ≤ n → EndsAlike hs e ks f × (refusal_of f ≡ None)
//!   -- any other cut of it ends in a unit
//!   pub in_unit : refusal_of e ≡ None → n < reach 0 hs → EndsInUnit n hs ks f
//! ```
//!
//! Uses: [`Header`](crate::definitions::ether_base#def.Header), [`Ending`](#def.Ending), [`refusal_of`](#def.refusal_of), [`reach`](#def.reach), [`EndsAlike`](#def.EndsAlike), [`EndsInUnit`](#def.EndsInUnit)
//!
//! # Grammar: extensions
//!
//! What the extensions of a list, the longer lists that begin with it, keep of its walk.
//!
//! <a id="def.KeepsExtension"></a>
//!
//! ## `KeepsExtension`
//!
//! What an extension of n bytes, the last of them added, with headers ks and ending f, keeps of the list before it, with
//! headers hs and ending e.
//!
//! ```text
//! pub record KeepsExtension (hs : List Header) (e : Ending) (n added : ℕ) (ks : List Header) (f : Ending) : Type 0 where
//!   -- if the list is accepted, so is the extension, with the same headers and the same expectation
//!   pub accepted : refusal_of e ≡ None → EndsAlike hs e ks f × (refusal_of f ≡ None)
//!   -- if the list is refused for content or in a closed window, the extension has the same refusal
//!   pub settled : (r : Refusal) → refusal_of e ≡ Some r → IsContent r ⊎ ((last_window e).closed ≡ true)
//!       → EndsAlike hs e ks f × (refusal_of f ≡ Some r)
//!   -- an open refusal remains until its named length is there, with the added bytes in its `len`
//!   pub waiting : (o : OpenRefusal e) → n < named_len e o → EndsAlike hs e ks f
//!       × (refusal_of f ≡ Some (Length o.required (o.len + added) o.source o.layer))
//! ```
//!
//! Uses: [`Header`](crate::definitions::ether_base#def.Header), [`Ending`](#def.Ending), [`refusal_of`](#def.refusal_of), [`EndsAlike`](#def.EndsAlike), [`Refusal`](crate::definitions::ether_base#def.Refusal), [`IsContent`](#def.IsContent), [`last_window`](#def.last_window), [`OpenRefusal`](#def.OpenRefusal), [`named_len`](#def.named_len), [`Length`](crate::definitions::ether_base#def.Refusal)
//!
//! <a id="def.KeepsExtensions"></a>
//!
//! ## `KeepsExtensions`
//!
//! It is so for each extension of a list with headers hs and ending e.
//!
//! ```text
//! abbrev pub KeepsExtensions : Expectation → List ℕ → List Header → Ending → Type 0
//! KeepsExtensions start list hs e = (more : List ℕ) (ks : List Header) (f : Ending) → Walk start (list ++ more) ks f
//!     → KeepsExtension hs e (length (list ++ more)) (length more) ks f
//! ```
//!
//! Uses: [`Expectation`](#def.Expectation), [`Header`](crate::definitions::ether_base#def.Header), [`Ending`](#def.Ending), [`Walk`](#def.Walk), [`KeepsExtension`](#def.KeepsExtension)
//!
//! # Grammar: cleared
//!
//! The list with two bits cleared in each SecTag, which the headers of its walk give if they are written back.
//!
//! <a id="def.cleared_at"></a>
//!
//! ## `cleared_at`
//!
//! Where a SecTag begins at a place, its second byte is replaced by its remainder by 64, which leaves out the two
//! reserved bits (IEEE 802.1AE, 9.7).
//!
//! ```text
//! abbrev pub cleared_at : List ℕ → ℕ → Header → List ℕ
//! cleared_at list at (headers.Macsec t) = slice_set list (at + 1) (slice_index list (at + 1) % 64)
//! cleared_at list at _ = list
//! ```
//!
//! Uses: [`Header`](crate::definitions::ether_base#def.Header), [`headers.Macsec`](crate::definitions::ether_base#def.Header)
//!
//! <a id="def.cleared"></a>
//!
//! ## `cleared`
//!
//! The list in which that is done for each of these headers, which follow one another from a place on.
//!
//! ```text
//! abbrev pub cleared : List ℕ → ℕ → List Header → List ℕ
//! cleared list at [] = list
//! cleared list at (h ∷ hs) = cleared_at (cleared list (at + header_len h) hs) at h
//! ```
//!
//! Uses: [`Header`](crate::definitions::ether_base#def.Header), [`cleared_at`](#def.cleared_at), [`header_len`](crate::definitions::ether_base#def.header_len)
//!
//! # Grammar: demands
//!
//! Demands: the lengths that the walks of longer and longer fronts of a list ask for, and how many there can be.
//!
//! <a id="def.IsDemand"></a>
//!
//! ## `IsDemand`
//!
//! A length that the list is asked for: the walk of the front that is one byte shorter ends in an open refusal that
//! names it.
//!
//! ```text
//! pub record IsDemand (start : Expectation) (list : List ℕ) (m : ℕ) : Type 0 where
//!   pub positive : 0 < m
//!   pub inside : m ≤ length list
//!   pub headers : List Header
//!   pub ending : Ending
//!   pub walk : Walk start (take (m - 1) list) headers ending
//!   pub refusal : OpenRefusal ending
//!   pub names : named_len ending refusal ≡ m
//! ```
//!
//! Uses: [`Expectation`](#def.Expectation), [`Header`](crate::definitions::ether_base#def.Header), [`Ending`](#def.Ending), [`Walk`](#def.Walk), [`OpenRefusal`](#def.OpenRefusal), [`named_len`](#def.named_len)
//!
//! <a id="def.AreDemands"></a>
//!
//! ## `AreDemands`
//!
//! The demands above a length, all of them, in order.
//!
//! ```text
//! abbrev pub AreDemands : Expectation → List ℕ → ℕ → List ℕ → Type 0
//! AreDemands start list above [] = (k : ℕ) → above < k → IsDemand start list k → ⊥
//! AreDemands start list above (m ∷ ms) =
//!     (above < m) × IsDemand start list m × ((k : ℕ) → above < k → k < m → IsDemand start list k → ⊥)
//!     × AreDemands start list m ms
//! ```
//!
//! Uses: [`Expectation`](#def.Expectation), [`IsDemand`](#def.IsDemand)
//!
//! <a id="def.greatest"></a>
//!
//! ## `greatest`
//!
//! The greatest of them, 0 if there is none.
//!
//! ```text
//! abbrev pub greatest : List ℕ → ℕ
//! greatest [] = 0
//! greatest (m ∷ ms) = max m (greatest ms)
//! ```
//!
//! **How many there can be**
//!
//! <a id="def.cap"></a>
//!
//! ## `cap`
//!
//! How often a unit can ask for more: never in a closed window; for its header, for what its first bytes make of that
//! (an ARP packet's addresses, the rest of a SecTag), and for the payload whose length a SecTag names.
//!
//! ```text
//! abbrev pub cap : Bool → Kind → ℕ
//! cap true kind = 0
//! cap false kinds.Ethernet2 = 1
//! cap false kinds.Ethernet2Fcs = 1
//! cap false kinds.LinuxSll = 1
//! cap false kinds.Vlan = 1
//! cap false kinds.Arp = 2
//! cap false kinds.Macsec = 3
//! ```
//!
//! Uses: [`Kind`](crate::definitions::ether_base#def.Kind), [`kinds.Ethernet2`](crate::definitions::ether_base#def.Kind), [`kinds.Ethernet2Fcs`](crate::definitions::ether_base#def.Kind), [`kinds.LinuxSll`](crate::definitions::ether_base#def.Kind), [`kinds.Vlan`](crate::definitions::ether_base#def.Kind), [`kinds.Arp`](crate::definitions::ether_base#def.Kind), [`kinds.Macsec`](crate::definitions::ether_base#def.Kind)
//!
//! <a id="def.caps"></a>
//!
//! ## `caps`
//!
//! For these units, the first of them read in a window of this mark.
//!
//! ```text
//! abbrev pub caps : Bool → List Header → ℕ
//! caps closed [] = 0
//! caps closed (h ∷ hs) = cap closed (kind_of h) + caps (is_some (payload_len h) || closed) hs
//! ```
//!
//! Uses: [`Header`](crate::definitions::ether_base#def.Header), [`cap`](#def.cap), [`kind_of`](crate::definitions::ether_base#def.kind_of), [`payload_len`](crate::definitions::ether_base#def.payload_len)
//!
//! <a id="def.announced_cap"></a>
//!
//! ## `announced_cap`
//!
//! For the unit that is announced at an ending, which is the refused one; an accepted ending has none.
//!
//! ```text
//! abbrev pub announced_cap : Bool → Option Kind → ℕ
//! announced_cap closed None = 0
//! announced_cap closed (Some kind) = cap closed kind
//! ```
//!
//! Uses: [`Kind`](crate::definitions::ether_base#def.Kind), [`cap`](#def.cap)
//!
//! <a id="def.last_cap"></a>
//!
//! ## `last_cap`
//!
//! ```text
//! abbrev pub last_cap : Ending → ℕ
//! last_cap e = announced_cap (last_window e).closed (announced (last_expected e))
//! ```
//!
//! Uses: [`Ending`](#def.Ending), [`announced_cap`](#def.announced_cap), [`last_window`](#def.last_window), [`announced`](#def.announced), [`last_expected`](#def.last_expected)
//!
//! <a id="def.TakesUnits"></a>
//!
//! ## `TakesUnits`
//!
//! A walk with headers ks and ending f takes exactly the units of an accepted list with headers hs: no shorter front has
//! all headers.
//!
//! ```text
//! pub record TakesUnits (start : Expectation) (list : List ℕ) (hs : List Header) (taken : ℕ) (ks : List Header)
//!     (f : Ending) : Type 0 where
//!   pub reaches : taken ≡ reach 0 hs
//!   pub all : ks ≡ hs
//!   pub accepted : refusal_of f ≡ None
//!   pub least : (n : ℕ) (gs : List Header) (g : Ending) → n < taken → Walk start (take n list) gs g → length gs
//!       < length hs
//! ```
//!
//! Uses: [`Expectation`](#def.Expectation), [`Header`](crate::definitions::ether_base#def.Header), [`Ending`](#def.Ending), [`reach`](#def.reach), [`refusal_of`](#def.refusal_of), [`Walk`](#def.Walk)
//!
//! # Grammar: completion
//!
//! The bytes that complete a unit if the list has only its first bytes.
//!
//! **What can be completed**
//!
//! <a id="def.CanBeCompleted"></a>
//!
//! ## `CanBeCompleted`
//!
//! A unit, by its layer and the number of its bytes that are there; a SecTag must have six, all but the SCI and the
//! ether type.
//!
//! ```text
//! pub data CanBeCompleted : Layer → ℕ → Type 0 where
//!   ethernet2 : (len : ℕ) → CanBeCompleted layers.Ethernet2Header len
//!   vlan : (len : ℕ) → CanBeCompleted layers.VlanHeader len
//!   macsec : (len : ℕ) → 6 ≤ len → CanBeCompleted layers.MacsecHeader len
//!   arp : (len : ℕ) → CanBeCompleted layers.Arp len
//! ```
//!
//! Uses: `layers` (`Layer`)
//!
//! **The whole unit**
//!
//! <a id="def.type_place"></a>
//!
//! ## `type_place`
//!
//! Where the ether type is in a SecTag, which has one exactly if E and C are 0: after the packet number, and the SCI if
//! there is one (IEEE 802.1AE, 9.3).
//!
//! ```text
//! abbrev pub type_place : (encrypted changed sci_present : ℕ) → Option ℕ
//! type_place zero zero sci_present = Some (6 + 8 * sci_present)
//! type_place _ _ sci_present = None
//! ```
//!
//! <a id="def.Grammar.Completion.Plan"></a>
//!
//! ## `Plan`
//!
//! A unit of a layer that begins with these bytes: the number of its bytes, and the place of its ether type if it has
//! one.
//!
//! ```text
//! pub data Plan (begun : List ℕ) : Layer → ℕ → Option ℕ → Type 0 where
//!   -- two addresses of 6 bytes and the ether type (IEEE 802.3, 3.2.3 to 3.2.6)
//!   ethernet2 : Plan begun layers.Ethernet2Header 14 (Some 12)
//!   -- tag control information and the ether type (IEEE 802.1Q, 9.6)
//!   vlan : Plan begun layers.VlanHeader 4 (Some 2)
//!   -- the header, and the payload if the short length names its length (IEEE 802.1AE, 9.3 and 9.7)
//!   macsec : (t : SecTagFront) → BeginsSecTag begun t
//!       → Plan begun layers.MacsecHeader (sec_tag_len t + unwrap_or (known_payload_len t) 0)
//!       (type_place t.encrypted t.changed t.sci_present)
//!   -- eight bytes and four addresses, whose two sizes are the fifth and the sixth byte (RFC 826, "Packet format"); a size
//!   -- that is not there counts as 0
//!   arp : Plan begun layers.Arp (8 + 2 * slice_index begun 4 + 2 * slice_index begun 5) None
//! ```
//!
//! Uses: `layers` (`Layer`), [`SecTagFront`](crate::definitions::ether_base#def.SecTagFront), [`BeginsSecTag`](crate::definitions::ether_base#def.BeginsSecTag), [`sec_tag_len`](crate::definitions::ether_base#def.sec_tag_len), [`known_payload_len`](crate::definitions::ether_base#def.known_payload_len), [`type_place`](#def.type_place)
//!
//! **The bytes**
//!
//! <a id="def.begins_vlan_type"></a>
//!
//! ## `begins_vlan_type`
//!
//! A 0 after this byte would make an ether type that announces a VLAN tag, 0x8100 or 0x9100.
//!
//! ```text
//! abbrev pub begins_vlan_type : ℕ → Bool
//! begins_vlan_type byte = nat_eq byte 0x81 || nat_eq byte 0x91
//! ```
//!
//! <a id="def.first_filled"></a>
//!
//! ## `first_filled`
//!
//! 0, but 1 after the first byte of an ether type that a 0 would make announce a VLAN tag.
//!
//! ```text
//! abbrev pub first_filled : List ℕ → Option ℕ → ℕ
//! first_filled begun None = 0
//! first_filled begun (Some place) = if nat_eq (length begun) (place + 1) && begins_vlan_type (slice_index begun place)
//!     then 1 else 0
//! ```
//!
//! Uses: [`begins_vlan_type`](#def.begins_vlan_type)
//!
//! <a id="def.fill"></a>
//!
//! ## `fill`
//!
//! The bytes up to a length; those after the first are 0.
//!
//! ```text
//! abbrev pub fill : List ℕ → ℕ → Option ℕ → List ℕ
//! fill begun total place = first_filled begun place ∷ replicate (total - length begun - 1) 0
//! ```
//!
//! Uses: [`first_filled`](#def.first_filled)
//!
//! **What they complete**
//!
//! <a id="def.Completes"></a>
//!
//! ## `Completes`
//!
//! These bytes complete a list.
//!
//! ```text
//! pub record Completes (start : Expectation) (list bytes : List ℕ) : Type 0 where
//!   -- its walk ends in an open refusal of a unit that can be completed
//!   pub headers : List Header
//!   pub ending : Ending
//!   pub walk : Walk start list headers ending
//!   pub refusal : OpenRefusal ending
//!   pub completable : CanBeCompleted refusal.layer refusal.len
//!   -- they are the fill of that unit
//!   pub total : ℕ
//!   pub place : Option ℕ
//!   pub plan : Plan (within list (last_window ending)) refusal.layer total place
//!   pub whole : length (within list (last_window ending)) + length bytes ≡ total
//!   pub is : bytes ≡ fill (within list (last_window ending)) total place
//!   -- the list followed by them is accepted, with exactly one further header
//!   pub unit : Header
//!   pub accepted : Ending
//!   pub walk_on : Walk start (list ++ bytes) (headers ++ unit ∷ []) accepted
//!   pub not_refused : refusal_of accepted ≡ None
//!   -- no fewer bytes after the list make it accepted
//!   pub least : (more : List ℕ) (ks : List Header) (f : Ending) → IsBytes more → Walk start (list ++ more) ks f
//!       → refusal_of f ≡ None → length bytes ≤ length more
//! ```
//!
//! Uses: [`Expectation`](#def.Expectation), [`Header`](crate::definitions::ether_base#def.Header), [`Ending`](#def.Ending), [`Walk`](#def.Walk), [`OpenRefusal`](#def.OpenRefusal), [`CanBeCompleted`](#def.CanBeCompleted), [`Plan`](#def.Grammar.Completion.Plan), [`within`](#def.within), [`last_window`](#def.last_window), [`fill`](#def.fill), [`refusal_of`](#def.refusal_of), [`IsBytes`](crate::definitions::ether_base#def.IsBytes)
//!
//! <a id="def.NothingToComplete"></a>
//!
//! ## `NothingToComplete`
//!
//! Its walk ends in no open refusal of a unit that can be completed.
//!
//! ```text
//! abbrev pub NothingToComplete : Expectation → List ℕ → Type 0
//! NothingToComplete start list = (hs : List Header) (e : Ending) → Walk start list hs e → (o : OpenRefusal e)
//!     → CanBeCompleted o.layer o.len → ⊥
//! ```
//!
//! Uses: [`Expectation`](#def.Expectation), [`Header`](crate::definitions::ether_base#def.Header), [`Ending`](#def.Ending), [`Walk`](#def.Walk), [`OpenRefusal`](#def.OpenRefusal), [`CanBeCompleted`](#def.CanBeCompleted)
//!
//! # Walker: state
//!
//! What callers see of a walker, and the representation that shows it.
//!
//! <a id="def.State"></a>
//!
//! ## `State`
//!
//! The bytes of the window left to read, its start, its mark, its bound and what is expected there, and whether the
//! fault was given.
//!
//! ```text
//! pub record State : Type 0 where
//!   pub rest : List ℕ
//!   pub offset : ℕ
//!   pub closed : Bool
//!   pub bound : LenSource
//!   pub expected : Expectation
//!   pub over : Bool
//! ```
//!
//! Uses: [`Expectation`](#def.Expectation)
//!
//! # Walker: start
//!
//! The starts of a walk as expectations, and expectations as what a walker shows of them.
//!
//! <a id="def.next_of"></a>
//!
//! ## `next_of`
//!
//! ```text
//! abbrev pub next_of : PeelStart → Next
//! next_of starts.Ethernet2 = Start kinds.Ethernet2
//! next_of starts.Ethernet2Fcs = Start kinds.Ethernet2Fcs
//! next_of starts.LinuxSll = Start kinds.LinuxSll
//! next_of (starts.EtherType t) = EtherType t.0
//! ```
//!
//! Uses: `PeelStart` (`Start`), [`Next`](#def.Next), `starts` (`Start`), [`Start`](#def.Next), [`kinds.Ethernet2`](crate::definitions::ether_base#def.Kind), [`kinds.Ethernet2Fcs`](crate::definitions::ether_base#def.Kind), [`kinds.LinuxSll`](crate::definitions::ether_base#def.Kind), [`EtherType`](#def.Next)
//!
//! <a id="def.start_with"></a>
//!
//! ## `start_with`
//!
//! ```text
//! abbrev pub start_with : PeelStart → Option ℕ → Expectation
//! start_with start limit = record { next = next_of start; limit = limit }
//! ```
//!
//! Uses: `PeelStart` (`Start`), [`Expectation`](#def.Expectation), [`next_of`](#def.next_of)
//!
//! <a id="def.start_of"></a>
//!
//! ## `start_of`
//!
//! Without a limit on extensions.
//!
//! ```text
//! abbrev pub start_of : PeelStart → Expectation
//! start_of start = start_with start None
//! ```
//!
//! Uses: `PeelStart` (`Start`), [`Expectation`](#def.Expectation), [`start_with`](#def.start_with)
//!
//! <a id="def.limited_start"></a>
//!
//! ## `limited_start`
//!
//! With a limit.
//!
//! ```text
//! abbrev pub limited_start : PeelStart → ℕ → Expectation
//! limited_start start limit = start_with start (Some limit)
//! ```
//!
//! Uses: `PeelStart` (`Start`), [`Expectation`](#def.Expectation), [`start_with`](#def.start_with)
//!
//! <a id="def.next_shown"></a>
//!
//! ## `next_shown`
//!
//! A start kind is shown without its name.
//!
//! ```text
//! abbrev pub next_shown : Next → RestKind
//! next_shown (Start kind) = rests.Start
//! next_shown (EtherType t) = rests.EtherType (record { 0 = t })
//! next_shown (Sll protocol) = rests.Sll protocol
//! next_shown Sealed = rests.Sealed
//! next_shown AfterArp = rests.AfterArp
//! ```
//!
//! Uses: [`Next`](#def.Next), [`Start`](#def.Next), `rests` (`RestKind`), [`EtherType`](#def.Next), [`Sll`](#def.Next), [`Sealed`](#def.Next), [`AfterArp`](#def.Next)
//!
//! <a id="def.kind_shown"></a>
//!
//! ## `kind_shown`
//!
//! A limit is not shown.
//!
//! ```text
//! abbrev pub kind_shown : Expectation → RestKind
//! kind_shown x = next_shown x.next
//! ```
//!
//! Uses: [`Expectation`](#def.Expectation), [`next_shown`](#def.next_shown)
//!
//! # Walker: fault
//!
//! The refusals of units as the faults that a walker gives.
//!
//! <a id="def.error_at"></a>
//!
//! ## `error_at`
//!
//! The refusal of a unit that starts at a place.
//!
//! ```text
//! abbrev pub error_at : ℕ → Refusal → PeelError
//! error_at start (Length required len source layer) =
//!     errors.Len (record {
//!       required_len = required;
//!       len = len;
//!       len_source = source;
//!       layer = layer;
//!       layer_start_offset = start;
//!     })
//! error_at start (UnsupportedPacketType n) = errors.LinuxSll (linux_sll.UnsupportedPacketTypeField n)
//! error_at start (UnsupportedHardwareType n) = errors.LinuxSll (linux_sll.UnsupportedArpHardwareId (record { 0 = n }))
//! error_at start UnexpectedVersion = errors.Macsec macsec.UnexpectedVersion
//! error_at start InvalidShortLen = errors.Macsec macsec.InvalidUnmodifiedShortLen
//! ```
//!
//! Uses: [`Refusal`](crate::definitions::ether_base#def.Refusal), [`Length`](crate::definitions::ether_base#def.Refusal), `errors` (`PeelError`), [`UnsupportedPacketType`](crate::definitions::ether_base#def.Refusal), `linux_sll` (`HeaderError`), [`UnsupportedHardwareType`](crate::definitions::ether_base#def.Refusal), [`UnexpectedVersion`](crate::definitions::ether_base#def.Refusal), `macsec` (`HeaderError`), [`InvalidShortLen`](crate::definitions::ether_base#def.Refusal)
//!
//! <a id="def.fault_in"></a>
//!
//! ## `fault_in`
//!
//! The refusal of a unit in a window, with the window's start and mark.
//!
//! ```text
//! abbrev pub fault_in : Window → Refusal → PeelFault
//! fault_in w r = record { offset = w.start; error = error_at w.start r; closed = w.closed }
//! ```
//!
//! Uses: [`Window`](#def.Window), [`Refusal`](crate::definitions::ether_base#def.Refusal), [`error_at`](#def.error_at)
//!
//! <a id="def.Misses"></a>
//!
//! ## `Misses`
//!
//! n bytes are missing: the fault is of a length, in an open window.
//!
//! ```text
//! pub record Misses (f : PeelFault) (n : ℕ) : Type 0 where
//!   pub is_open : f.closed ≡ false
//!   pub error : LenError
//!   pub of_length : f.error ≡ errors.Len error
//!   pub short : error.len < error.required_len
//!   pub missing : error.len + n ≡ error.required_len
//! ```
//!
//! Uses: `errors` (`PeelError`)
//!
//! # Walker: next
//!
//! A walker: what it shows at each moment, and what it gives, by the stack of the window that is left to read.
//!
//! <a id="def.Faces"></a>
//!
//! ## `Faces`
//!
//! The walker faces these headers and this ending: what it shows is this window of the list, and they are the stack
//! there.
//!
//! ```text
//! pub record Faces (list : List ℕ) (w : Window) (s : State) (hs : List Header) (e : Ending) : Type 0 where
//!   pub inside : IsIn list w
//!   pub rest : s.rest ≡ within list w
//!   pub offset : s.offset ≡ w.start
//!   pub closed : s.closed ≡ w.closed
//!   pub bound : s.bound ≡ w.bound
//!   pub stack : Stack list s.expected w hs e
//! ```
//!
//! Uses: [`Window`](#def.Window), [`State`](#def.State), [`Header`](crate::definitions::ether_base#def.Header), [`Ending`](#def.Ending), [`IsIn`](#def.IsIn), [`within`](#def.within), [`Stack`](#def.Stack)
//!
//! <a id="def.begun"></a>
//!
//! ## `begun`
//!
//! A walker that has read nothing of a list yet.
//!
//! ```text
//! abbrev pub begun : Expectation → List ℕ → State
//! begun x list = record { rest = list; offset = 0; closed = has_fcs x; bound = sources.Slice; expected = x; over = false }
//! ```
//!
//! Uses: [`Expectation`](#def.Expectation), [`State`](#def.State), [`has_fcs`](#def.has_fcs), `sources` (`LenSource`)
//!
//! <a id="def.FacesWalk"></a>
//!
//! ## `FacesWalk`
//!
//! The walker faces the walk of a list.
//!
//! ```text
//! pub record FacesWalk (x : Expectation) (list : List ℕ) (s : State) : Type 0 where
//!   pub headers : List Header
//!   pub ending : Ending
//!   pub walk : Walk x list headers ending
//!   pub faces : Faces list (whole x list) s headers ending
//! ```
//!
//! Uses: [`Expectation`](#def.Expectation), [`State`](#def.State), [`Header`](crate::definitions::ether_base#def.Header), [`Ending`](#def.Ending), [`Walk`](#def.Walk), [`Faces`](#def.Faces), [`whole`](#def.whole)
//!
//! <a id="def.ShowsMacsec"></a>
//!
//! ## `ShowsMacsec`
//!
//! A view of a SecTag has the tag's bytes, and the bytes of the payload's window with their type, if it can be read, and
//! what named their number.
//!
//! ```text
//! pub record ShowsMacsec (bytes rest : List ℕ) (t : SecTagValue) (m : MacsecSlice) : Type 0 where
//!   pub header : tag_bytes m.header ≡ slice_range bytes 0 (header_len (headers.Macsec t))
//!   pub payload : HoldsTyped m.payload (readable_type t.payload_type) (payload_source (payload_len (headers.Macsec t)))
//!       rest
//! ```
//!
//! Uses: [`SecTagValue`](crate::definitions::ether_base#def.SecTagValue), [`tag_bytes`](crate::definitions::ether_tags#def.tag_bytes), [`header_len`](crate::definitions::ether_base#def.header_len), [`headers.Macsec`](crate::definitions::ether_base#def.Header), [`HoldsTyped`](crate::definitions::ether_tags#def.HoldsTyped), [`readable_type`](crate::definitions::ether_tags#def.readable_type), [`payload_source`](crate::definitions::ether_tags#def.payload_source), [`payload_len`](crate::definitions::ether_base#def.payload_len)
//!
//! <a id="def.ShowsUnit"></a>
//!
//! ## `ShowsUnit`
//!
//! A view of a unit, of the bytes of the window in which it was read and those of the payload's window: it holds all of
//! the former, but a SecTag's holds tag and payload, and an ARP packet's the packet.
//!
//! ```text
//! abbrev pub ShowsUnit : (bytes rest : List ℕ) → Header → PeelUnit → Type 0
//! ShowsUnit bytes rest (headers.Ethernet2 e) u = u ≡ units.Ethernet2 (record { bytes = bytes; has_fcs = false })
//! ShowsUnit bytes rest (headers.Ethernet2Fcs e) u = u ≡ units.Ethernet2 (record { bytes = bytes; has_fcs = true })
//! ShowsUnit bytes rest (headers.LinuxSll s) u = u ≡ units.LinuxSll bytes
//! ShowsUnit bytes rest (headers.Vlan v) u = u ≡ units.Vlan bytes
//! ShowsUnit bytes rest (headers.Macsec t) u = (m : MacsecSlice) × (u ≡ units.Macsec m) × ShowsMacsec bytes rest t m
//! ShowsUnit bytes rest (headers.Arp a) u = u ≡ units.Arp (slice_range bytes 0 (header_len (headers.Arp a)))
//! ```
//!
//! Uses: [`Header`](crate::definitions::ether_base#def.Header), [`headers.Ethernet2`](crate::definitions::ether_base#def.Header), `units` (`PeelUnit`), [`headers.Ethernet2Fcs`](crate::definitions::ether_base#def.Header), [`headers.LinuxSll`](crate::definitions::ether_base#def.Header), [`headers.Vlan`](crate::definitions::ether_base#def.Header), [`headers.Macsec`](crate::definitions::ether_base#def.Header), [`ShowsMacsec`](#def.ShowsMacsec), [`headers.Arp`](crate::definitions::ether_base#def.Header), [`header_len`](crate::definitions::ether_base#def.header_len)
//!
//! <a id="def.GivesNext"></a>
//!
//! ## `GivesNext`
//!
//! What a call returns if these headers and this ending are faced: nothing, and nothing changes; or the fault, after
//! which calls return nothing; or the first header's unit, after which what it announces is expected, and the others are
//! faced in the window of its payload.
//!
//! ```text
//! abbrev pub GivesNext : List ℕ → Window → List Header → Ending → State → Option (Result PeelUnit PeelFault) → State
//!     → Type 0
//! GivesNext list w [] (Accepted v y) s result t = (result ≡ None) × (t ≡ s)
//! GivesNext list w [] (Fault v y r) s result t = (result ≡ Some (Err (fault_in w r))) × (t ≡ record s { over = true })
//! GivesNext list w (h ∷ hs) e s result t =
//!     (u : PeelUnit) × (result ≡ Some (Ok u)) × ShowsUnit s.rest t.rest h u × (t.over ≡ false)
//!     × (t.expected ≡ after s.expected h) × Faces list (payload w h) t hs e
//! ```
//!
//! Uses: [`Window`](#def.Window), [`Header`](crate::definitions::ether_base#def.Header), [`Ending`](#def.Ending), [`State`](#def.State), [`Accepted`](#def.Ending), [`Fault`](#def.Ending), [`fault_in`](#def.fault_in), [`ShowsUnit`](#def.ShowsUnit), [`after`](#def.after), [`Faces`](#def.Faces), [`payload`](#def.payload)
//!
//! <a id="def.Gives"></a>
//!
//! ## `Gives`
//!
//! A call of next.
//!
//! ```text
//! pub record Gives (s : State) (result : Option (Result PeelUnit PeelFault)) (t : State) : Type 0 where
//!   pub over : s.over ≡ true → (result ≡ None) × (t ≡ s)
//!   pub next : s.over ≡ false → (list : List ℕ) (w : Window) (hs : List Header) (e : Ending) → Faces list w s hs e
//!       → GivesNext list w hs e s result t
//! ```
//!
//! Uses: [`State`](#def.State), [`Window`](#def.Window), [`Header`](crate::definitions::ether_base#def.Header), [`Ending`](#def.Ending), [`Faces`](#def.Faces), [`GivesNext`](#def.GivesNext)
//!
//! # Walker: under way
//!
//! A walk that is under way.
//!
//! <a id="def.UnderWay"></a>
//!
//! ## `UnderWay`
//!
//! The walk of a list that has returned some headers, and has others left.
//!
//! ```text
//! pub record UnderWay (x : Expectation) (list : List ℕ) (s : State) : Type 0 where
//!   pub done : List Header
//!   pub left : List Header
//!   pub ending : Ending
//!   pub window : Window
//!   pub walk : Walk x list (done ++ left) ending
//!   pub faces : Faces list window s left ending
//!   pub going : s.over ≡ false
//! ```
//!
//! Uses: [`Expectation`](#def.Expectation), [`State`](#def.State), [`Header`](crate::definitions::ether_base#def.Header), [`Ending`](#def.Ending), [`Window`](#def.Window), [`Walk`](#def.Walk), [`Faces`](#def.Faces)
//!
//! # Walker: unit header
//!
//! The header that the bytes of a view mean.
//!
//! <a id="def.unit_header"></a>
//!
//! ## `unit_header`
//!
//! ```text
//! abbrev pub unit_header : PeelUnit → Header
//! unit_header (units.Ethernet2 frame) =
//!     let e = ethernet2_of frame.bytes in
//!     if frame.has_fcs then headers.Ethernet2Fcs e else headers.Ethernet2 e
//! unit_header (units.LinuxSll bytes) = headers.LinuxSll (linux_sll_of bytes)
//! unit_header (units.Vlan bytes) = headers.Vlan (vlan_of bytes)
//! unit_header (units.Macsec packet) = headers.Macsec (sec_tag_of (tag_bytes packet.header))
//! unit_header (units.Arp bytes) = headers.Arp (arp_of bytes)
//! ```
//!
//! Uses: [`Header`](crate::definitions::ether_base#def.Header), `units` (`PeelUnit`), [`ethernet2_of`](crate::definitions::ether_base#def.ethernet2_of), [`headers.Ethernet2Fcs`](crate::definitions::ether_base#def.Header), [`headers.Ethernet2`](crate::definitions::ether_base#def.Header), [`headers.LinuxSll`](crate::definitions::ether_base#def.Header), [`linux_sll_of`](crate::definitions::ether_base#def.linux_sll_of), [`headers.Vlan`](crate::definitions::ether_base#def.Header), [`vlan_of`](crate::definitions::ether_base#def.vlan_of), [`headers.Macsec`](crate::definitions::ether_base#def.Header), [`sec_tag_of`](crate::definitions::ether_base#def.sec_tag_of), [`tag_bytes`](crate::definitions::ether_tags#def.tag_bytes), [`headers.Arp`](crate::definitions::ether_base#def.Header), [`arp_of`](crate::definitions::ether_base#def.arp_of)
//!
//! # Walker: summary
//!
//! The result of a whole walk.
//!
//! <a id="def.fault_of"></a>
//!
//! ## `fault_of`
//!
//! The fault in which a walk ends, if it is refused.
//!
//! ```text
//! abbrev pub fault_of : Ending → Option PeelFault
//! fault_of (Accepted v y) = None
//! fault_of (Fault v y r) = Some (fault_in v r)
//! ```
//!
//! Uses: [`Ending`](#def.Ending), [`Accepted`](#def.Ending), [`Fault`](#def.Ending), [`fault_in`](#def.fault_in)
//!
//! <a id="def.summary_of"></a>
//!
//! ## `summary_of`
//!
//! ```text
//! abbrev pub summary_of : List Header → Ending → Summary
//! summary_of hs e = record {
//!   units = length hs;
//!   rest_start = (last_window e).start;
//!   rest_end = (last_window e).finish;
//!   kind = kind_shown (last_expected e);
//!   fault = fault_of e;
//! }
//! ```
//!
//! Uses: [`Header`](crate::definitions::ether_base#def.Header), [`Ending`](#def.Ending), [`last_window`](#def.last_window), [`kind_shown`](#def.kind_shown), [`last_expected`](#def.last_expected), [`fault_of`](#def.fault_of)
//!
//! <a id="def.IsSummary"></a>
//!
//! ## `IsSummary`
//!
//! A list has a walk and no second one, and this is its summary. Without a frame check sequence, every extension of the
//! list keeps what was found until the named length is there.
//!
//! ```text
//! pub record IsSummary (start : Expectation) (list : List ℕ) (s : Summary) : Type 0 where
//!   pub headers : List Header
//!   pub ending : Ending
//!   pub walk : Walk start list headers ending
//!   pub one : (hs : List Header) (e : Ending) → Walk start list hs e → (hs ≡ headers) × (e ≡ ending)
//!   pub is : s ≡ summary_of headers ending
//!   pub extensions : has_fcs start ≡ false → KeepsExtensions start list headers ending
//! ```
//!
//! Uses: [`Expectation`](#def.Expectation), [`Header`](crate::definitions::ether_base#def.Header), [`Ending`](#def.Ending), [`Walk`](#def.Walk), [`summary_of`](#def.summary_of), [`has_fcs`](#def.has_fcs), [`KeepsExtensions`](#def.KeepsExtensions)
//!
//! <a id="def.IsCutSummary"></a>
//!
//! ## `IsCutSummary`
//!
//! It is the summary of the list's first n bytes. Without a frame check sequence, this cut keeps what it has of the
//! whole list's walk.
//!
//! ```text
//! pub record IsCutSummary (start : Expectation) (list : List ℕ) (n : ℕ) (s : Summary) : Type 0 where
//!   pub summary : IsSummary start (take n list) s
//!   pub keeps : has_fcs start ≡ false → (hs : List Header) (e : Ending) → Walk start list hs e
//!       → KeepsCut hs e n summary.headers summary.ending
//! ```
//!
//! Uses: [`Expectation`](#def.Expectation), [`IsSummary`](#def.IsSummary), [`has_fcs`](#def.has_fcs), [`Header`](crate::definitions::ether_base#def.Header), [`Ending`](#def.Ending), [`Walk`](#def.Walk), [`KeepsCut`](#def.KeepsCut)
//!
//! # Walker: write back
//!
//! Headers written back before the rest.
//!
//! <a id="def.WritesBack"></a>
//!
//! ## `WritesBack`
//!
//! A target that holds the headers of the walk and the bytes of the last window, up to where that ends, and after them
//! what it held before. So it begins with the front of the cleared list.
//!
//! ```text
//! pub record WritesBack (start : Expectation) (list : List ℕ) (end : ℕ) (old new : List ℕ) : Type 0 where
//!   pub found : List Header
//!   pub ending : Ending
//!   pub walk : Walk start list found ending
//!   pub ends : end ≡ (last_window ending).finish
//!   pub room : end ≤ length old
//!   pub bytes : new ≡ flat_map header_bytes found ++ within list (last_window ending) ++ drop end old
//!   pub front : new ≡ take end (cleared list 0 found) ++ drop end old
//! ```
//!
//! Uses: [`Expectation`](#def.Expectation), [`Header`](crate::definitions::ether_base#def.Header), [`Ending`](#def.Ending), [`Walk`](#def.Walk), [`last_window`](#def.last_window), [`header_bytes`](crate::definitions::ether_base#def.header_bytes), [`within`](#def.within), [`cleared`](#def.cleared)
//!
//! <a id="def.RefusesBack"></a>
//!
//! ## `RefusesBack`
//!
//! The refusal of a target that is too short for them.
//!
//! ```text
//! pub record RefusesBack (start : Expectation) (list target : List ℕ) (error : SliceWriteSpaceError) : Type 0 where
//!   pub found : List Header
//!   pub ending : Ending
//!   pub walk : Walk start list found ending
//!   pub refused : IsRefusedSpace (last_window ending).finish layers.EtherPayload target error
//! ```
//!
//! Uses: [`Expectation`](#def.Expectation), [`Header`](crate::definitions::ether_base#def.Header), [`Ending`](#def.Ending), [`Walk`](#def.Walk), [`IsRefusedSpace`](crate::definitions::ether_base#def.IsRefusedSpace), [`last_window`](#def.last_window), `layers` (`Layer`)
//!
//! # Walker: limits
//!
//! What a limit on extensions changes.
//!
//! <a id="def.IsFrontOfUnlimited"></a>
//!
//! ## `IsFrontOfUnlimited`
//!
//! The headers of the walk with a limit are a front of those of the walk without one.
//!
//! ```text
//! abbrev pub IsFrontOfUnlimited : PeelStart → List ℕ → ℕ → Type 0
//! IsFrontOfUnlimited start list limit =
//!     (hs ks : List Header) (e f : Ending) → Walk (limited_start start limit) list hs e → Walk (start_of start) list ks f
//!     → (rest : List Header) × (ks ≡ hs ++ rest)
//! ```
//!
//! Uses: `PeelStart` (`Start`), [`Header`](crate::definitions::ether_base#def.Header), [`Ending`](#def.Ending), [`Walk`](#def.Walk), [`limited_start`](#def.limited_start), [`start_of`](#def.start_of)
//!
//! # Walker: feeding
//!
//! Feeding: a reader takes longer and longer fronts of a list, and asks for no byte that the walk of a front does not
//! name.
//!
//! <a id="def.IsFeed"></a>
//!
//! ## `IsFeed`
//!
//! The feed counts the demands, and takes the front whose length is the greatest of them. The walk of this front has the
//! fault, and its caps are at least as many. Without a frame check sequence all units of an accepted list are taken;
//! with one, nothing is asked for.
//!
//! ```text
//! pub record IsFeed (start : Expectation) (list : List ℕ) (f : Feed) : Type 0 where
//!   pub demands : List ℕ
//!   pub are : AreDemands start list 0 demands
//!   pub refusals : f.refusals ≡ length demands
//!   pub taken : f.taken ≡ greatest demands
//!   pub headers : List Header
//!   pub ending : Ending
//!   pub walk : Walk start (take f.taken list) headers ending
//!   pub fault : f.fault ≡ fault_of ending
//!   pub few : f.refusals ≤ caps (has_fcs start) headers + last_cap ending
//!   pub accepted : has_fcs start ≡ false → (hs : List Header) (e : Ending) → Walk start list hs e → refusal_of e ≡ None
//!       → TakesUnits start list hs f.taken headers ending
//!   pub nothing : has_fcs start ≡ true → (f.refusals ≡ 0) × (f.taken ≡ 0)
//! ```
//!
//! Uses: [`Expectation`](#def.Expectation), [`AreDemands`](#def.AreDemands), [`greatest`](#def.greatest), [`Header`](crate::definitions::ether_base#def.Header), [`Ending`](#def.Ending), [`Walk`](#def.Walk), [`fault_of`](#def.fault_of), [`caps`](#def.caps), [`has_fcs`](#def.has_fcs), [`last_cap`](#def.last_cap), [`refusal_of`](#def.refusal_of), [`TakesUnits`](#def.TakesUnits)
//!
