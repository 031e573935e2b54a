//! The headers of a frame in one value; packets that are built, and changed in place.
//!
//! # Packet unit
//!
//! A header of a packet by its window, and all headers that were read of a frame.
//!
//! <a id="def.PacketUnit"></a>
//!
//! ## `PacketUnit`
//!
//! Its kind, its offset, and the bytes of the window in which it was read.
//!
//! ```text
//! pub record PacketUnit : Type 0 where
//!   pub kind : Kind
//!   pub offset : ℕ
//!   pub bytes : List ℕ
//! ```
//!
//! Uses: [`Kind`](crate::definitions::ether_base#def.Kind)
//!
//! <a id="def.Read"></a>
//!
//! ## `Read`
//!
//! The frame, and its headers in order.
//!
//! ```text
//! pub record Read : Type 0 where
//!   pub frame : List ℕ
//!   pub units : List PacketUnit
//! ```
//!
//! Uses: [`PacketUnit`](#def.PacketUnit)
//!
//! # Views
//!
//! The headers of a packet by the bytes that mean them, and views of these headers.
//!
//! **Headers**
//!
//! <a id="def.header_in"></a>
//!
//! ## `header_in`
//!
//! The header of this kind at the front of a list of bytes.
//!
//! ```text
//! abbrev pub header_in : Kind → List ℕ → Header
//! header_in kinds.Ethernet2 bytes = headers.Ethernet2 (ethernet2_of bytes)
//! header_in kinds.Ethernet2Fcs bytes = headers.Ethernet2Fcs (ethernet2_of bytes)
//! header_in kinds.LinuxSll bytes = headers.LinuxSll (linux_sll_of bytes)
//! header_in kinds.Vlan bytes = headers.Vlan (vlan_of bytes)
//! header_in kinds.Macsec bytes = headers.Macsec (sec_tag_of bytes)
//! header_in kinds.Arp bytes = headers.Arp (arp_of bytes)
//! ```
//!
//! Uses: [`Kind`](crate::definitions::ether_base#def.Kind), [`Header`](crate::definitions::ether_base#def.Header), [`kinds.Ethernet2`](crate::definitions::ether_base#def.Kind), [`headers.Ethernet2`](crate::definitions::ether_base#def.Header), [`ethernet2_of`](crate::definitions::ether_base#def.ethernet2_of), [`kinds.Ethernet2Fcs`](crate::definitions::ether_base#def.Kind), [`headers.Ethernet2Fcs`](crate::definitions::ether_base#def.Header), [`kinds.LinuxSll`](crate::definitions::ether_base#def.Kind), [`headers.LinuxSll`](crate::definitions::ether_base#def.Header), [`linux_sll_of`](crate::definitions::ether_base#def.linux_sll_of), [`kinds.Vlan`](crate::definitions::ether_base#def.Kind), [`headers.Vlan`](crate::definitions::ether_base#def.Header), [`vlan_of`](crate::definitions::ether_base#def.vlan_of), [`kinds.Macsec`](crate::definitions::ether_base#def.Kind), [`headers.Macsec`](crate::definitions::ether_base#def.Header), [`sec_tag_of`](crate::definitions::ether_base#def.sec_tag_of), [`kinds.Arp`](crate::definitions::ether_base#def.Kind), [`headers.Arp`](crate::definitions::ether_base#def.Header), [`arp_of`](crate::definitions::ether_base#def.arp_of)
//!
//! <a id="def.header_of"></a>
//!
//! ## `header_of`
//!
//! ```text
//! abbrev pub header_of : PacketUnit → Header
//! header_of u = header_in u.kind u.bytes
//! ```
//!
//! Uses: [`PacketUnit`](#def.PacketUnit), [`Header`](crate::definitions::ether_base#def.Header), [`header_in`](#def.header_in)
//!
//! **Views of them**
//!
//! <a id="def.link_in"></a>
//!
//! ## `link_in`
//!
//! A view of the link's header, the first of a frame.
//!
//! ```text
//! abbrev pub link_in : Kind → List ℕ → Option LinkSlice
//! link_in kinds.Ethernet2 bytes = Some (links.Ethernet2 (record { bytes = bytes; has_fcs = false }))
//! link_in kinds.Ethernet2Fcs bytes = Some (links.Ethernet2 (record { bytes = bytes; has_fcs = true }))
//! link_in kinds.LinuxSll bytes = Some (links.LinuxSll bytes)
//! link_in _ bytes = None
//! ```
//!
//! Uses: [`Kind`](crate::definitions::ether_base#def.Kind), [`kinds.Ethernet2`](crate::definitions::ether_base#def.Kind), `links` (`LinkSlice`), [`kinds.Ethernet2Fcs`](crate::definitions::ether_base#def.Kind), [`kinds.LinuxSll`](crate::definitions::ether_base#def.Kind)
//!
//! <a id="def.link_of"></a>
//!
//! ## `link_of`
//!
//! ```text
//! abbrev pub link_of : List PacketUnit → Option LinkSlice
//! link_of [] = None
//! link_of (u ∷ us) = link_in u.kind u.bytes
//! ```
//!
//! Uses: [`PacketUnit`](#def.PacketUnit), [`link_in`](#def.link_in)
//!
//! <a id="def.exts_of"></a>
//!
//! ## `exts_of`
//!
//! The extensions.
//!
//! ```text
//! abbrev pub exts_of : List PacketUnit → List PacketUnit
//! exts_of us = filter (λ (u : PacketUnit). is_extension u.kind) us
//! ```
//!
//! Uses: [`PacketUnit`](#def.PacketUnit), [`is_extension`](crate::definitions::ether_peel#def.is_extension)
//!
//! <a id="def.vlan_in"></a>
//!
//! ## `vlan_in`
//!
//! The bytes of a VLAN tag with its payload.
//!
//! ```text
//! abbrev pub vlan_in : Kind → List ℕ → Option (List ℕ)
//! vlan_in kinds.Vlan bytes = Some bytes
//! vlan_in _ bytes = None
//! ```
//!
//! Uses: [`Kind`](crate::definitions::ether_base#def.Kind), [`kinds.Vlan`](crate::definitions::ether_base#def.Kind)
//!
//! <a id="def.vlan_of_unit"></a>
//!
//! ## `vlan_of_unit`
//!
//! ```text
//! abbrev pub vlan_of_unit : PacketUnit → Option (List ℕ)
//! vlan_of_unit u = vlan_in u.kind u.bytes
//! ```
//!
//! Uses: [`PacketUnit`](#def.PacketUnit), [`vlan_in`](#def.vlan_in)
//!
//! <a id="def.macsec_in"></a>
//!
//! ## `macsec_in`
//!
//! The bytes of a SecTag with its payload.
//!
//! ```text
//! abbrev pub macsec_in : Kind → List ℕ → Option (List ℕ)
//! macsec_in kinds.Macsec bytes = Some bytes
//! macsec_in _ bytes = None
//! ```
//!
//! Uses: [`Kind`](crate::definitions::ether_base#def.Kind), [`kinds.Macsec`](crate::definitions::ether_base#def.Kind)
//!
//! <a id="def.macsec_of_unit"></a>
//!
//! ## `macsec_of_unit`
//!
//! ```text
//! abbrev pub macsec_of_unit : PacketUnit → Option (List ℕ)
//! macsec_of_unit u = macsec_in u.kind u.bytes
//! ```
//!
//! Uses: [`PacketUnit`](#def.PacketUnit), [`macsec_in`](#def.macsec_in)
//!
//! <a id="def.ViewsSecTag"></a>
//!
//! ## `ViewsSecTag`
//!
//! A view of a SecTag with its payload.
//!
//! ```text
//! pub record ViewsSecTag (bytes : List ℕ) (m : MacsecSlice) : Type 0 where
//!   pub header : tag_bytes m.header ≡ tag_in bytes
//!   pub payload : HoldsPayload m.payload (sec_tag_front_in bytes) bytes
//! ```
//!
//! Uses: [`tag_bytes`](crate::definitions::ether_tags#def.tag_bytes), [`tag_in`](crate::definitions::ether_tags#def.tag_in), [`HoldsPayload`](crate::definitions::ether_tags#def.HoldsPayload), [`sec_tag_front_in`](crate::definitions::ether_base#def.sec_tag_front_in)
//!
//! <a id="def.ViewsSecTagIf"></a>
//!
//! ## `ViewsSecTagIf`
//!
//! > `ViewsSecTag`: a view of a SecTag with its payload
//!
//! .. if there is one.
//!
//! ```text
//! abbrev pub ViewsSecTagIf : Option (List ℕ) → Option MacsecSlice → Type 0
//! ViewsSecTagIf None result = result ≡ None
//! ViewsSecTagIf (Some bytes) None = ⊥
//! ViewsSecTagIf (Some bytes) (Some packet) = ViewsSecTag bytes packet
//! ```
//!
//! Uses: [`ViewsSecTag`](#def.ViewsSecTag)
//!
//! <a id="def.ViewsTag"></a>
//!
//! ## `ViewsTag`
//!
//! A view of an extension with its payload.
//!
//! ```text
//! abbrev pub ViewsTag : Kind → List ℕ → LinkExtSlice → Type 0
//! ViewsTag kind bytes (exts.Vlan slice) = (kind ≡ kinds.Vlan) × (slice ≡ bytes)
//! ViewsTag kind bytes (exts.Macsec packet) = (kind ≡ kinds.Macsec) × ViewsSecTag bytes packet
//! ```
//!
//! Uses: [`Kind`](crate::definitions::ether_base#def.Kind), `exts` (`LinkExtSlice`), [`kinds.Vlan`](crate::definitions::ether_base#def.Kind), [`kinds.Macsec`](crate::definitions::ether_base#def.Kind), [`ViewsSecTag`](#def.ViewsSecTag)
//!
//! <a id="def.ViewsExt"></a>
//!
//! ## `ViewsExt`
//!
//! > `ViewsTag`: a view of an extension with its payload
//!
//! .. with its offset, and the header that it means.
//!
//! ```text
//! pub record ViewsExt (u : PacketUnit) (ext : PacketExt) : Type 0 where
//!   pub offset : ext.offset ≡ u.offset
//!   pub tag : ViewsTag u.kind u.bytes ext.slice
//!   pub header : ext_slice_header ext.slice ≡ header_of u
//! ```
//!
//! Uses: [`PacketUnit`](#def.PacketUnit), [`ViewsTag`](#def.ViewsTag), [`ext_slice_header`](crate::definitions::ether_tags#def.ext_slice_header), [`header_of`](#def.header_of)
//!
//! <a id="def.ViewsExtIf"></a>
//!
//! ## `ViewsExtIf`
//!
//! > `ViewsTag`: a view of an extension with its payload
//! >
//! > `ViewsExt`: .. with its offset, and the header that it means
//!
//! .. if there is an extension.
//!
//! ```text
//! abbrev pub ViewsExtIf : Option PacketUnit → Option PacketExt → Type 0
//! ViewsExtIf None result = result ≡ None
//! ViewsExtIf (Some u) None = ⊥
//! ViewsExtIf (Some u) (Some ext) = ViewsExt u ext
//! ```
//!
//! Uses: [`PacketUnit`](#def.PacketUnit), [`ViewsExt`](#def.ViewsExt)
//!
//! <a id="def.ViewsExts"></a>
//!
//! ## `ViewsExts`
//!
//! > `ViewsTag`: a view of an extension with its payload
//! >
//! > `ViewsExt`: .. with its offset, and the header that it means
//! >
//! > `ViewsExtIf`: .. if there is an extension
//!
//! .. of each extension.
//!
//! ```text
//! abbrev pub ViewsExts : List PacketUnit → List PacketExt → Type 0
//! ViewsExts [] [] = Unit {0}
//! ViewsExts (u ∷ us) (ext ∷ exts) = ViewsExt u ext × ViewsExts us exts
//! ViewsExts _ _ = ⊥
//! ```
//!
//! Uses: [`PacketUnit`](#def.PacketUnit), [`ViewsExt`](#def.ViewsExt)
//!
//! <a id="def.arp_in"></a>
//!
//! ## `arp_in`
//!
//! The bytes of an ARP packet, without what follows it.
//!
//! ```text
//! abbrev pub arp_in : Kind → List ℕ → Option (List ℕ)
//! arp_in kinds.Arp bytes = Some (slice_range bytes 0 (arp_len (arp_front_in bytes)))
//! arp_in _ bytes = None
//! ```
//!
//! Uses: [`Kind`](crate::definitions::ether_base#def.Kind), [`kinds.Arp`](crate::definitions::ether_base#def.Kind), [`arp_len`](crate::definitions::ether_base#def.arp_len), [`arp_front_in`](crate::definitions::ether_base#def.arp_front_in)
//!
//! <a id="def.arp_view"></a>
//!
//! ## `arp_view`
//!
//! > `arp_in`: the bytes of an ARP packet, without what follows it
//!
//! .. of the first ARP packet.
//!
//! ```text
//! abbrev pub arp_view : List PacketUnit → Option (List ℕ)
//! arp_view us = slice_get (filter_map (λ (u : PacketUnit). arp_in u.kind u.bytes) us) 0
//! ```
//!
//! Uses: [`PacketUnit`](#def.PacketUnit), [`arp_in`](#def.arp_in)
//!
//! <a id="def.arp_start"></a>
//!
//! ## `arp_start`
//!
//! The offset of a unit, if it is an ARP packet.
//!
//! ```text
//! abbrev pub arp_start : Kind → ℕ → Option ℕ
//! arp_start kinds.Arp at = Some at
//! arp_start _ at = None
//! ```
//!
//! Uses: [`Kind`](crate::definitions::ether_base#def.Kind), [`kinds.Arp`](crate::definitions::ether_base#def.Kind)
//!
//! <a id="def.arp_offset"></a>
//!
//! ## `arp_offset`
//!
//! > `arp_start`: the offset of a unit, if it is an ARP packet
//!
//! .. of the first ARP packet.
//!
//! ```text
//! abbrev pub arp_offset : List PacketUnit → Option ℕ
//! arp_offset us = slice_get (filter_map (λ (u : PacketUnit). arp_start u.kind u.offset) us) 0
//! ```
//!
//! Uses: [`PacketUnit`](#def.PacketUnit), [`arp_start`](#def.arp_start)
//!
//! # Packet
//!
//! The packet of a list of bytes: the headers of its walk as values, each with its window, and the rest.
//!
//! <a id="def.link_exts_cap"></a>
//!
//! ## `link_exts_cap`
//!
//! The most extensions of a packet.
//!
//! ```text
//! abbrev pub link_exts_cap : ℕ
//! link_exts_cap = 3
//! ```
//!
//! <a id="def.packet_start"></a>
//!
//! ## `packet_start`
//!
//! The expectation that a packet is read with: that of its start, with this limit.
//!
//! ```text
//! abbrev pub packet_start : Start → Expectation
//! packet_start start = limited_start start link_exts_cap
//! ```
//!
//! Uses: [`Expectation`](crate::definitions::ether_peel#def.Expectation), [`limited_start`](crate::definitions::ether_peel#def.limited_start), [`link_exts_cap`](#def.link_exts_cap)
//!
//! <a id="def.packet_headers"></a>
//!
//! ## `packet_headers`
//!
//! The headers of a packet, in the order of the frame.
//!
//! ```text
//! abbrev pub packet_headers : PacketSlice → List Header
//! packet_headers p = map header_of p.read.units
//! ```
//!
//! Uses: [`Header`](crate::definitions::ether_base#def.Header), [`header_of`](#def.header_of)
//!
//! <a id="def.IsUnitAt"></a>
//!
//! ## `IsUnitAt`
//!
//! A header at the start of a window.
//!
//! ```text
//! pub record IsUnitAt (list : List ℕ) (w : Window) (h : Header) (u : PacketUnit) : Type 0 where
//!   pub kind : u.kind ≡ kind_of h
//!   pub offset : u.offset ≡ w.start
//!   pub bytes : u.bytes ≡ within list w
//! ```
//!
//! Uses: [`Window`](crate::definitions::ether_peel#def.Window), [`Header`](crate::definitions::ether_base#def.Header), [`PacketUnit`](#def.PacketUnit), [`kind_of`](crate::definitions::ether_base#def.kind_of), [`within`](crate::definitions::ether_peel#def.within)
//!
//! <a id="def.AreUnitsAt"></a>
//!
//! ## `AreUnitsAt`
//!
//! Headers in a window, each in the payload of the header before it.
//!
//! ```text
//! abbrev pub AreUnitsAt : List ℕ → Window → List Header → List PacketUnit → Type 0
//! AreUnitsAt list w [] [] = Unit {0}
//! AreUnitsAt list w (h ∷ hs) (u ∷ us) = IsUnitAt list w h u × AreUnitsAt list (payload w h) hs us
//! AreUnitsAt list w _ _ = ⊥
//! ```
//!
//! Uses: [`Window`](crate::definitions::ether_peel#def.Window), [`Header`](crate::definitions::ether_base#def.Header), [`PacketUnit`](#def.PacketUnit), [`IsUnitAt`](#def.IsUnitAt), [`payload`](crate::definitions::ether_peel#def.payload)
//!
//! <a id="def.IsPacket"></a>
//!
//! ## `IsPacket`
//!
//! The packet of a list, from a start on.
//!
//! ```text
//! pub record IsPacket (start : Expectation) (list : List ℕ) (p : PacketSlice) : Type 0 where
//!   -- its headers are those of the list's walk
//!   pub ending : Ending
//!   pub walk : Walk start list (packet_headers p) ending
//!   -- which is the only one
//!   pub one : (hs : List Header) (e : Ending)
//!       → Walk start list hs e → (hs ≡ packet_headers p) × (e ≡ ending)
//!   -- each has its offset and the bytes of its window
//!   pub frame : p.read.frame ≡ list
//!   pub units : AreUnitsAt list (whole start list) (packet_headers p) p.read.units
//!   -- the rest is the last window, with what is expected there, and the fault if there is one
//!   pub rest : p.rest.now ≡ within list (last_window ending)
//!   pub offset : p.rest_offset ≡ (last_window ending).start
//!   pub kind : p.rest_kind ≡ kind_shown (last_expected ending)
//!   pub fault : p.fault ≡ fault_of ending
//! ```
//!
//! Uses: [`Expectation`](crate::definitions::ether_peel#def.Expectation), [`Ending`](crate::definitions::ether_peel#def.Ending), [`Walk`](crate::definitions::ether_peel#def.Walk), [`packet_headers`](#def.packet_headers), [`Header`](crate::definitions::ether_base#def.Header), [`AreUnitsAt`](#def.AreUnitsAt), [`whole`](crate::definitions::ether_peel#def.whole), [`within`](crate::definitions::ether_peel#def.within), [`last_window`](crate::definitions::ether_peel#def.last_window), [`kind_shown`](crate::definitions::ether_peel#def.kind_shown), [`last_expected`](crate::definitions::ether_peel#def.last_expected), [`fault_of`](crate::definitions::ether_peel#def.fault_of)
//!
//! # Getters
//!
//! What a packet's getters return: its tags, the payload after them, and the shortest cut that keeps its headers.
//!
//! **Tags**
//!
//! <a id="def.vid_of"></a>
//!
//! ## `vid_of`
//!
//! ```text
//! abbrev pub vid_of : Header → Option ℕ
//! vid_of (headers.Vlan v) = Some v.vid
//! vid_of _ = None
//! ```
//!
//! Uses: [`Header`](crate::definitions::ether_base#def.Header), [`headers.Vlan`](crate::definitions::ether_base#def.Header)
//!
//! <a id="def.vlan_ids_of"></a>
//!
//! ## `vlan_ids_of`
//!
//! The identifiers of the VLAN tags among headers, in order.
//!
//! ```text
//! abbrev pub vlan_ids_of : List Header → List ℕ
//! vlan_ids_of hs = filter_map vid_of hs
//! ```
//!
//! Uses: [`Header`](crate::definitions::ether_base#def.Header), [`vid_of`](#def.vid_of)
//!
//! <a id="def.vlans_of"></a>
//!
//! ## `vlans_of`
//!
//! The bytes of the VLAN tags with their payloads, in order.
//!
//! ```text
//! abbrev pub vlans_of : List PacketUnit → List (List ℕ)
//! vlans_of us = filter_map vlan_of_unit us
//! ```
//!
//! Uses: [`PacketUnit`](#def.PacketUnit), [`vlan_of_unit`](#def.vlan_of_unit)
//!
//! <a id="def.first_tags"></a>
//!
//! ## `first_tags`
//!
//! The first VLAN tag, or the first two if there are several.
//!
//! ```text
//! abbrev pub first_tags : List (List ℕ) → Option VlanSlice
//! first_tags [] = None
//! first_tags (tag ∷ []) = Some (tags.SingleVlan tag)
//! first_tags (outer ∷ inner ∷ later) = Some (tags.DoubleVlan (record { outer = outer; inner = inner }))
//! ```
//!
//! Uses: `tags` (`VlanSlice`)
//!
//! <a id="def.sec_tags_of"></a>
//!
//! ## `sec_tags_of`
//!
//! The bytes of the SecTags with their payloads, in order.
//!
//! ```text
//! abbrev pub sec_tags_of : List PacketUnit → List (List ℕ)
//! sec_tags_of us = filter_map macsec_of_unit us
//! ```
//!
//! Uses: [`PacketUnit`](#def.PacketUnit), [`macsec_of_unit`](#def.macsec_of_unit)
//!
//! **Payloads**
//!
//! <a id="def.HoldsLinkPayload"></a>
//!
//! ## `HoldsLinkPayload`
//!
//! The payload of a link's header with its ether type, if its protocol is an ether type.
//!
//! ```text
//! abbrev pub HoldsLinkPayload : LinkSlice → Option EtherPayloadSlice → Type 0
//! HoldsLinkPayload link result =
//!     MatchOption result (told_ether_type (link_protocol link) ≡ None)
//!     (λ p. (told_ether_type (link_protocol link) ≡ Some p.ether_type.0)
//!     × (p.len_source ≡ link_source link) × (p.payload.now ≡ link_payload link))
//! ```
//!
//! Uses: [`told_ether_type`](crate::definitions::ether_base#def.told_ether_type), [`link_protocol`](crate::definitions::ether_sll#def.link_protocol), [`link_source`](crate::definitions::ether_sll#def.link_source), [`link_payload`](crate::definitions::ether_sll#def.link_payload)
//!
//! <a id="def.last_ext"></a>
//!
//! ## `last_ext`
//!
//! The last extension.
//!
//! ```text
//! abbrev pub last_ext : List PacketUnit → Option PacketUnit
//! last_ext us = slice_get (exts_of us) (length (exts_of us) - 1)
//! ```
//!
//! Uses: [`PacketUnit`](#def.PacketUnit), [`exts_of`](#def.exts_of)
//!
//! <a id="def.HoldsPayload"></a>
//!
//! ## `HoldsPayload`
//!
//! The payload of the last extension, or of the link's header if there is no extension.
//!
//! ```text
//! abbrev pub HoldsPayload : Option LinkSlice → Option PacketUnit → Option EtherPayloadSlice → Type 0
//! HoldsPayload link (Some u) result = (tag : LinkExtSlice) × ViewsTag u.kind u.bytes tag × HoldsExtPayload tag result
//! HoldsPayload (Some link) None result = HoldsLinkPayload link result
//! HoldsPayload None None result = result ≡ None
//! ```
//!
//! Uses: [`PacketUnit`](#def.PacketUnit), [`ViewsTag`](#def.ViewsTag), [`HoldsExtPayload`](crate::definitions::ether_tags#def.HoldsExtPayload), [`HoldsLinkPayload`](#def.HoldsLinkPayload)
//!
//! **Cuts**
//!
//! <a id="def.IsLeastSnap"></a>
//!
//! ## `IsLeastSnap`
//!
//! A cut of a list with the headers hs keeps them all if it has at least n bytes, and loses at least one if it has
//! fewer.
//!
//! ```text
//! pub record IsLeastSnap (start : Expectation) (list : List ℕ) (hs : List Header) (n : ℕ) : Type 0 where
//!   pub inside : n ≤ length list
//!   pub keeps : (m : ℕ) (ks : List Header) (f : Ending) → n ≤ m → m ≤ length list
//!       → Walk start (take m list) ks f → ks ≡ hs
//!   pub loses : (m : ℕ) (ks : List Header) (f : Ending) → m < n
//!       → Walk start (take m list) ks f → length ks < length hs
//! ```
//!
//! Uses: [`Expectation`](crate::definitions::ether_peel#def.Expectation), [`Header`](crate::definitions::ether_base#def.Header), [`Ending`](crate::definitions::ether_peel#def.Ending), [`Walk`](crate::definitions::ether_peel#def.Walk)
//!
//! <a id="def.SnapsAt"></a>
//!
//! ## `SnapsAt`
//!
//! This holds for each list that has the packet, if it has no frame check sequence.
//!
//! ```text
//! abbrev pub SnapsAt : PacketSlice → ℕ → Type 0
//! SnapsAt p n =
//!     (start : Expectation) (list : List ℕ)
//!     → IsBytes list → has_fcs start ≡ false → IsPacket start list p
//!     → IsLeastSnap start list (packet_headers p) n
//! ```
//!
//! Uses: [`Expectation`](crate::definitions::ether_peel#def.Expectation), [`IsBytes`](crate::definitions::ether_base#def.IsBytes), [`has_fcs`](crate::definitions::ether_peel#def.has_fcs), [`IsPacket`](#def.IsPacket), [`IsLeastSnap`](#def.IsLeastSnap), [`packet_headers`](#def.packet_headers)
//!
//! **Faults**
//!
//! <a id="def.TellsAccepted"></a>
//!
//! ## `TellsAccepted`
//!
//! This is true exactly if the walk of each list that has the packet ends accepted.
//!
//! ```text
//! abbrev pub TellsAccepted : PacketSlice → Bool → Type 0
//! TellsAccepted p complete =
//!     (start : Expectation) (list : List ℕ) (is : IsPacket start list p)
//!     → IsTrue complete ↔ (refusal_of is.ending ≡ None)
//! ```
//!
//! Uses: [`Expectation`](crate::definitions::ether_peel#def.Expectation), [`IsPacket`](#def.IsPacket), [`refusal_of`](crate::definitions::ether_peel#def.refusal_of)
//!
//! # Places
//!
//! How a packet keeps its headers: by the windows of the frame in which they were read.
//!
//! **The headers at these places**
//!
//! <a id="def.unit_at"></a>
//!
//! ## `unit_at`
//!
//! ```text
//! abbrev pub unit_at : Kind → FrameWindow → PacketUnit
//! unit_at kind p = record { kind = kind; offset = p.start; bytes = p.bytes.now }
//! ```
//!
//! Uses: [`Kind`](crate::definitions::ether_base#def.Kind), [`FrameWindow`](#def.FrameWindow), [`PacketUnit`](#def.PacketUnit)
//!
//! **Which can be read again**
//!
//! <a id="def.Reads"></a>
//!
//! ## `Reads`
//!
//! No row of the table of refusals holds for the window, so the header can be read again.
//!
//! ```text
//! abbrev pub Reads : List ℕ → Kind → Type 0
//! Reads bytes kind = Accepts sources.Slice bytes kind
//! ```
//!
//! Uses: [`Kind`](crate::definitions::ether_base#def.Kind), [`Accepts`](crate::definitions::ether_base#def.Accepts), `sources` (`LenSource`)
//!
//! <a id="def.IsReadable"></a>
//!
//! ## `IsReadable`
//!
//! ```text
//! abbrev pub IsReadable : Kind → FrameWindow → Type 0
//! IsReadable kind p = Reads p.bytes.now kind
//! ```
//!
//! Uses: [`Kind`](crate::definitions::ether_base#def.Kind), [`FrameWindow`](#def.FrameWindow), [`Reads`](#def.Reads)
//!
//! **One header more**
//!
//! <a id="def.kind_read"></a>
//!
//! ## `kind_read`
//!
//! The kind of a unit of a walk.
//!
//! ```text
//! abbrev pub kind_read : PeelUnit → Kind
//! kind_read u = kind_of (unit_header u)
//! ```
//!
//! Uses: [`Kind`](crate::definitions::ether_base#def.Kind), [`kind_of`](crate::definitions::ether_base#def.kind_of), [`unit_header`](crate::definitions::ether_peel#def.unit_header)
//!
//! <a id="def.HasPlaceForExt"></a>
//!
//! ## `HasPlaceForExt`
//!
//! Fewer than three extensions, and no ARP packet.
//!
//! ```text
//! abbrev pub HasPlaceForExt : Read → Type 0
//! HasPlaceForExt r = (length (exts_of r.units) < 3) × (arp_view r.units ≡ None)
//! ```
//!
//! Uses: [`Read`](#def.Read), [`exts_of`](#def.exts_of), [`arp_view`](#def.arp_view)
//!
//! <a id="def.HasPlace"></a>
//!
//! ## `HasPlace`
//!
//! The header can be appended: a link's header only to no others; an extension to at most two extensions; and nothing
//! to an ARP packet.
//!
//! ```text
//! abbrev pub HasPlace : Read → PeelUnit → FrameWindow → Type 0
//! HasPlace r (shown.Ethernet2 frame) p = (r.units ≡ []) × (p.start ≡ 0) × (p.bytes.now ≡ r.frame)
//! HasPlace r (shown.LinuxSll bytes) p = (r.units ≡ []) × (p.start ≡ 0) × (p.bytes.now ≡ r.frame)
//! HasPlace r (shown.Vlan bytes) p = HasPlaceForExt r
//! HasPlace r (shown.Macsec packet) p = HasPlaceForExt r
//! HasPlace r (shown.Arp bytes) p = arp_view r.units ≡ None
//! ```
//!
//! Uses: [`Read`](#def.Read), [`FrameWindow`](#def.FrameWindow), `shown` (`PeelUnit`), [`HasPlaceForExt`](#def.HasPlaceForExt), [`arp_view`](#def.arp_view)
//!
//! <a id="def.read_with"></a>
//!
//! ## `read_with`
//!
//! The headers with this one appended.
//!
//! ```text
//! abbrev pub read_with : Read → Kind → FrameWindow → Read
//! read_with r kind p = record r { units = r.units ++ unit_at kind p ∷ [] }
//! ```
//!
//! Uses: [`Read`](#def.Read), [`Kind`](crate::definitions::ether_base#def.Kind), [`FrameWindow`](#def.FrameWindow), [`unit_at`](#def.unit_at)
//!
//! # Gathered
//!
//! A packet that holds all headers that a walk has returned so far.
//!
//! <a id="def.Gathered.window_after"></a>
//!
//! ## `window_after`
//!
//! The window after some headers.
//!
//! ```text
//! abbrev pub window_after : Window → List Header → Window
//! window_after w [] = w
//! window_after w (h ∷ hs) = window_after (payload w h) hs
//! ```
//!
//! Uses: [`Window`](crate::definitions::ether_peel#def.Window), [`Header`](crate::definitions::ether_base#def.Header), [`payload`](crate::definitions::ether_peel#def.payload)
//!
//! <a id="def.Ready"></a>
//!
//! ## `Ready`
//!
//! What is known of the headers before a unit that is to be read: there `x` is expected, and up to `free` further
//! extensions may be read.
//!
//! ```text
//! pub record Ready (r : Read) (x : Expectation) (free : ℕ) : Type 0 where
//!   pub limit : x.limit ≡ Some free
//!   pub first : (kind : Kind) → x.next ≡ Start kind → r.units ≡ []
//!   pub arp : (arp_view r.units ≡ None) ⊎ (x.next ≡ AfterArp)
//! ```
//!
//! Uses: [`Read`](#def.Read), [`Expectation`](crate::definitions::ether_peel#def.Expectation), [`Kind`](crate::definitions::ether_base#def.Kind), [`Start`](crate::definitions::ether_peel#def.Next), [`arp_view`](#def.arp_view), [`AfterArp`](crate::definitions::ether_peel#def.Next)
//!
//! <a id="def.Gathered"></a>
//!
//! ## `Gathered`
//!
//! ```text
//! pub record Gathered (start : Expectation) (list : List ℕ) (s : State) (r : Read) : Type 0 where
//!   pub way : AWalk start list s
//!   pub comes_after : way.window ≡ window_after (whole start list) way.done
//!   -- the packet holds the headers that were read
//!   pub values : map header_of r.units ≡ way.done
//!   pub frame : r.frame ≡ list
//!   pub units : AreUnitsAt list (whole start list) way.done r.units
//!   -- and has room for further extensions
//!   pub free : ℕ
//!   pub room : length (exts_of r.units) + free ≡ 3
//!   pub ready : Ready r s.expected free
//! ```
//!
//! Uses: [`Expectation`](crate::definitions::ether_peel#def.Expectation), [`State`](crate::definitions::ether_peel#def.State), [`Read`](#def.Read), [`AWalk`](crate::definitions::ether_peel#def.UnderWay), [`window_after`](#def.Gathered.window_after), [`whole`](crate::definitions::ether_peel#def.whole), [`header_of`](#def.header_of), [`AreUnitsAt`](#def.AreUnitsAt), [`exts_of`](#def.exts_of), [`Ready`](#def.Ready)
//!
//! <a id="def.item_of"></a>
//!
//! ## `item_of`
//!
//! What a walker without further units returns: its fault if there is one.
//!
//! ```text
//! abbrev pub item_of : Option PeelFault → Option (Result PeelUnit PeelFault)
//! item_of None = None
//! item_of (Some f) = Some (Err f)
//! ```
//!
//! **A walk that is under way, and its end**
//!
//! <a id="def.next_left"></a>
//!
//! ## `next_left`
//!
//! At most this many headers follow: the link's, the extensions that the limit allows, and an ARP packet.
//!
//! ```text
//! abbrev pub next_left : Next → ℕ
//! next_left (Start kind) = 2
//! next_left AfterArp = 0
//! next_left _ = 1
//! ```
//!
//! Uses: [`Next`](crate::definitions::ether_peel#def.Next), [`Start`](crate::definitions::ether_peel#def.Next), [`AfterArp`](crate::definitions::ether_peel#def.Next)
//!
//! <a id="def.headers_left"></a>
//!
//! ## `headers_left`
//!
//! ```text
//! abbrev pub headers_left : Expectation → ℕ
//! headers_left x = next_left x.next + unwrap_or x.limit 0
//! ```
//!
//! Uses: [`Expectation`](crate::definitions::ether_peel#def.Expectation), [`next_left`](#def.next_left)
//!
//! <a id="def.UnderWay"></a>
//!
//! ## `UnderWay`
//!
//! ```text
//! pub record UnderWay (start : Expectation) (list : List ℕ) (w : PacketWalk) : Type 0 where
//!   pub bytes : IsBytes list
//!   pub gathered : Gathered start list w.peel w.read
//!   pub no_fault : w.fault ≡ None
//! ```
//!
//! Uses: [`Expectation`](crate::definitions::ether_peel#def.Expectation), [`PacketWalk`](#def.PacketWalk), [`IsBytes`](crate::definitions::ether_base#def.IsBytes), [`Gathered`](#def.Gathered)
//!
//! <a id="def.IsUnderWay"></a>
//!
//! ## `IsUnderWay`
//!
//! ```text
//! abbrev pub IsUnderWay : PacketWalk → Type 0
//! IsUnderWay w = (start : Expectation) × (list : List ℕ) × UnderWay start list w
//! ```
//!
//! Uses: [`PacketWalk`](#def.PacketWalk), [`Expectation`](crate::definitions::ether_peel#def.Expectation), [`UnderWay`](#def.UnderWay)
//!
//! <a id="def.HasEnded"></a>
//!
//! ## `HasEnded`
//!
//! The walker returned None or a fault.
//!
//! ```text
//! pub record HasEnded (start : Expectation) (list : List ℕ) (w : PacketWalk) : Type 0 where
//!   pub before : State
//!   pub gathered : Gathered start list before w.read
//!   pub gives : Gives before (item_of w.fault) w.peel
//! ```
//!
//! Uses: [`Expectation`](crate::definitions::ether_peel#def.Expectation), [`PacketWalk`](#def.PacketWalk), [`State`](crate::definitions::ether_peel#def.State), [`Gathered`](#def.Gathered), [`Gives`](crate::definitions::ether_peel#def.Gives), [`item_of`](#def.item_of)
//!
//! <a id="def.EndsAnyhow"></a>
//!
//! ## `EndsAnyhow`
//!
//! The walk has ended.
//!
//! ```text
//! abbrev pub EndsAnyhow : (old new : PacketWalk) → Type 0
//! EndsAnyhow old new = (start : Expectation) (list : List ℕ) → UnderWay start list old → HasEnded start list new
//! ```
//!
//! Uses: [`PacketWalk`](#def.PacketWalk), [`Expectation`](crate::definitions::ether_peel#def.Expectation), [`UnderWay`](#def.UnderWay), [`HasEnded`](#def.HasEnded)
//!
//! # Building
//!
//! A packet as it is built: headers, each of which announces the next one, and a payload.
//!
//! **What a header announces**
//!
//! <a id="def.vlan_type"></a>
//!
//! ## `vlan_type`
//!
//! The ether type that announces a VLAN tag before these headers: of a service tag if another VLAN tag follows it, else
//! of a customer tag (IEEE 802.1Q, table 9-1).
//!
//! ```text
//! abbrev pub vlan_type : List Header → ℕ
//! vlan_type (headers.Vlan inner ∷ hs) = 0x88A8
//! vlan_type hs = 0x8100
//! ```
//!
//! Uses: [`Header`](crate::definitions::ether_base#def.Header), [`headers.Vlan`](crate::definitions::ether_base#def.Header)
//!
//! <a id="def.payload_ether_type"></a>
//!
//! ## `payload_ether_type`
//!
//! ```text
//! abbrev pub payload_ether_type : PayloadType → ℕ
//! payload_ether_type (payloads.Unmodified t) = t
//! payload_ether_type p = 0
//! ```
//!
//! Uses: [`PayloadType`](crate::definitions::ether_base#def.PayloadType), [`payloads.Unmodified`](crate::definitions::ether_base#def.PayloadType)
//!
//! <a id="def.own_type"></a>
//!
//! ## `own_type`
//!
//! The ether type in a header, 0 if it has none.
//!
//! ```text
//! abbrev pub own_type : Header → ℕ
//! own_type (headers.Ethernet2 e) = e.ether_type
//! own_type (headers.LinuxSll s) = s.protocol
//! own_type (headers.Vlan v) = v.ether_type
//! own_type (headers.Macsec m) = payload_ether_type m.payload_type
//! own_type h = 0
//! ```
//!
//! Uses: [`Header`](crate::definitions::ether_base#def.Header), [`headers.Ethernet2`](crate::definitions::ether_base#def.Header), [`headers.LinuxSll`](crate::definitions::ether_base#def.Header), [`headers.Vlan`](crate::definitions::ether_base#def.Header), [`headers.Macsec`](crate::definitions::ether_base#def.Header), [`payload_ether_type`](#def.payload_ether_type)
//!
//! <a id="def.type_of"></a>
//!
//! ## `type_of`
//!
//! The ether type that announces these headers, or a payload of type t if there is no header. The header before them
//! has the ether type `own`, and keeps it if it announces a VLAN tag and one follows.
//!
//! ```text
//! abbrev pub type_of : (own : ℕ) → List Header → (t : ℕ) → ℕ
//! type_of own [] t = t
//! type_of own (headers.Vlan v ∷ hs) t = if is_vlan_ether_type own then own else vlan_type hs
//! type_of own (headers.Macsec m ∷ hs) t = 0x88E5
//! type_of own (headers.Arp a ∷ hs) t = 0x0806
//! type_of own (h ∷ hs) t = 0
//! ```
//!
//! Uses: [`Header`](crate::definitions::ether_base#def.Header), [`headers.Vlan`](crate::definitions::ether_base#def.Header), [`is_vlan_ether_type`](crate::definitions::ether_base#def.is_vlan_ether_type), [`vlan_type`](#def.vlan_type), [`headers.Macsec`](crate::definitions::ether_base#def.Header), [`headers.Arp`](crate::definitions::ether_base#def.Header)
//!
//! <a id="def.retyped"></a>
//!
//! ## `retyped`
//!
//! ```text
//! abbrev pub retyped : PayloadType → ℕ → PayloadType
//! retyped (payloads.Unmodified old) t = payloads.Unmodified t
//! retyped p t = p
//! ```
//!
//! Uses: [`PayloadType`](crate::definitions::ether_base#def.PayloadType), [`payloads.Unmodified`](crate::definitions::ether_base#def.PayloadType)
//!
//! <a id="def.before"></a>
//!
//! ## `before`
//!
//! A header before n bytes of the ether type t: a SecTag names their number if it fits.
//!
//! ```text
//! abbrev pub before : Header → (t n : ℕ) → Header
//! before (headers.Ethernet2 e) t n = headers.Ethernet2 (record e { ether_type = t })
//! before (headers.LinuxSll s) t n = headers.LinuxSll (record s { protocol = t })
//! before (headers.Vlan v) t n = headers.Vlan (record v { ether_type = t })
//! before (headers.Macsec m) t n = let p =
//!     retyped m.payload_type t in headers.Macsec (record m { payload_type = p; short_len = short_len_for p n })
//! before h t n = h
//! ```
//!
//! Uses: [`Header`](crate::definitions::ether_base#def.Header), [`headers.Ethernet2`](crate::definitions::ether_base#def.Header), [`headers.LinuxSll`](crate::definitions::ether_base#def.Header), [`headers.Vlan`](crate::definitions::ether_base#def.Header), [`headers.Macsec`](crate::definitions::ether_base#def.Header), [`retyped`](#def.retyped), [`short_len_for`](crate::definitions::ether_tags#def.short_len_for)
//!
//! <a id="def.built"></a>
//!
//! ## `built`
//!
//! Headers before a payload of n bytes of type t.
//!
//! ```text
//! abbrev pub built : List Header → (t n : ℕ) → List Header
//! built [] t n = []
//! built (h ∷ hs) t n = before h (type_of (own_type h) hs t) (place n hs) ∷ built hs t n
//! ```
//!
//! Uses: [`Header`](crate::definitions::ether_base#def.Header), [`before`](#def.before), [`type_of`](#def.type_of), [`own_type`](#def.own_type), [`place`](crate::definitions::ether_peel#def.place)
//!
//! <a id="def.is_unmodified"></a>
//!
//! ## `is_unmodified`
//!
//! ```text
//! abbrev pub is_unmodified : PayloadType → Bool
//! is_unmodified (payloads.Unmodified t) = true
//! is_unmodified p = false
//! ```
//!
//! Uses: [`PayloadType`](crate::definitions::ether_base#def.PayloadType), [`payloads.Unmodified`](crate::definitions::ether_base#def.PayloadType)
//!
//! <a id="def.is_readable"></a>
//!
//! ## `is_readable`
//!
//! A header whose payload can be read.
//!
//! ```text
//! abbrev pub is_readable : Header → Bool
//! is_readable (headers.Macsec m) = is_unmodified m.payload_type
//! is_readable (headers.Arp a) = false
//! is_readable h = true
//! ```
//!
//! Uses: [`Header`](crate::definitions::ether_base#def.Header), [`headers.Macsec`](crate::definitions::ether_base#def.Header), [`is_unmodified`](#def.is_unmodified), [`headers.Arp`](crate::definitions::ether_base#def.Header)
//!
//! <a id="def.IsChain"></a>
//!
//! ## `IsChain`
//!
//! Only the last header may have a payload that can't be read.
//!
//! ```text
//! abbrev pub IsChain : List Header → Type 0
//! IsChain [] = Unit {0}
//! IsChain (h ∷ []) = Unit {0}
//! IsChain (h ∷ g ∷ hs) = (is_readable h ≡ true) × IsChain (g ∷ hs)
//! ```
//!
//! Uses: [`Header`](crate::definitions::ether_base#def.Header), [`is_readable`](#def.is_readable)
//!
//! <a id="def.AllFit"></a>
//!
//! ## `AllFit`
//!
//! All numbers of all headers are in their ranges.
//!
//! ```text
//! abbrev pub AllFit : List Header → Type 0
//! AllFit [] = Unit {0}
//! AllFit (h ∷ hs) = FitsHeader h × AllFit hs
//! ```
//!
//! Uses: [`Header`](crate::definitions::ether_base#def.Header), [`FitsHeader`](crate::definitions::ether_base#def.FitsHeader)
//!
//! **The walk of what is written**
//!
//! <a id="def.expected_after"></a>
//!
//! ## `expected_after`
//!
//! ```text
//! abbrev pub expected_after : Expectation → List Header → Expectation
//! expected_after x [] = x
//! expected_after x (h ∷ hs) = expected_after (after x h) hs
//! ```
//!
//! Uses: [`Expectation`](crate::definitions::ether_peel#def.Expectation), [`Header`](crate::definitions::ether_base#def.Header), [`after`](crate::definitions::ether_peel#def.after)
//!
//! <a id="def.Building.window_after"></a>
//!
//! ## `window_after`
//!
//! ```text
//! abbrev pub window_after : Window → List Header → Window
//! window_after w [] = w
//! window_after w (h ∷ hs) = window_after (payload w h) hs
//! ```
//!
//! Uses: [`Window`](crate::definitions::ether_peel#def.Window), [`Header`](crate::definitions::ether_base#def.Header), [`payload`](crate::definitions::ether_peel#def.payload)
//!
//! <a id="def.BeginsWith"></a>
//!
//! ## `BeginsWith`
//!
//! A list begins with these headers. The window after them is this payload, and what is read in it follows them.
//!
//! ```text
//! pub record BeginsWith (start : Expectation) (list : List ℕ) (hs : List Header) (rest : List ℕ) : Type 0 where
//!   pub payload : within list (window_after (whole start list) hs) ≡ rest
//!   pub ends : (window_after (whole start list) hs).finish ≡ length list
//!   pub walk : (ks : List Header) (e : Ending) → Stack list (expected_after start hs) (window_after (whole start list) hs)
//!       ks e → Walk start list (hs ++ ks) e
//! ```
//!
//! Uses: [`Expectation`](crate::definitions::ether_peel#def.Expectation), [`Header`](crate::definitions::ether_base#def.Header), [`within`](crate::definitions::ether_peel#def.within), [`window_after`](#def.Building.window_after), [`whole`](crate::definitions::ether_peel#def.whole), [`Ending`](crate::definitions::ether_peel#def.Ending), [`Stack`](crate::definitions::ether_peel#def.Stack), [`expected_after`](#def.expected_after), [`Walk`](crate::definitions::ether_peel#def.Walk)
//!
//! # Builder
//!
//! What a builder writes, by its parts.
//!
//! <a id="def.link_header"></a>
//!
//! ## `link_header`
//!
//! ```text
//! abbrev pub link_header : LinkHeader → Header
//! link_header (links.LinuxSll h) = headers.LinuxSll (linux_sll_view h)
//! link_header (links.Ethernet2 h) = headers.Ethernet2 (ethernet2_view h)
//! ```
//!
//! Uses: [`Header`](crate::definitions::ether_base#def.Header), `links` (`LinkHeader`), [`headers.LinuxSll`](crate::definitions::ether_base#def.Header), [`linux_sll_view`](crate::definitions::ether_sll#def.linux_sll_view), [`headers.Ethernet2`](crate::definitions::ether_base#def.Header), [`ethernet2_view`](crate::definitions::ether_tags#def.ethernet2_view)
//!
//! <a id="def.link_start"></a>
//!
//! ## `link_start`
//!
//! The expectation with which a frame of this header is read.
//!
//! ```text
//! abbrev pub link_start : LinkHeader → Expectation
//! link_start (links.LinuxSll h) = record { next = Start kinds.LinuxSll; limit = None }
//! link_start (links.Ethernet2 h) = record { next = Start kinds.Ethernet2; limit = None }
//! ```
//!
//! Uses: [`Expectation`](crate::definitions::ether_peel#def.Expectation), `links` (`LinkHeader`), [`Start`](crate::definitions::ether_peel#def.Next), [`kinds.LinuxSll`](crate::definitions::ether_base#def.Kind), [`kinds.Ethernet2`](crate::definitions::ether_base#def.Kind)
//!
//! <a id="def.content_headers"></a>
//!
//! ## `content_headers`
//!
//! ```text
//! abbrev pub content_headers : PacketContent → List Header
//! content_headers (contents.Payload t bytes) = []
//! content_headers (contents.Arp packet) = headers.Arp packet.now ∷ []
//! ```
//!
//! Uses: [`Header`](crate::definitions::ether_base#def.Header), `contents` (`PacketContent`), [`headers.Arp`](crate::definitions::ether_base#def.Header)
//!
//! <a id="def.content_type"></a>
//!
//! ## `content_type`
//!
//! ```text
//! abbrev pub content_type : PacketContent → ℕ
//! content_type (contents.Payload t bytes) = t.0
//! content_type (contents.Arp packet) = 0
//! ```
//!
//! Uses: `contents` (`PacketContent`)
//!
//! <a id="def.content_payload"></a>
//!
//! ## `content_payload`
//!
//! ```text
//! abbrev pub content_payload : PacketContent → List ℕ
//! content_payload (contents.Payload t bytes) = bytes.now
//! content_payload (contents.Arp packet) = []
//! ```
//!
//! Uses: `contents` (`PacketContent`)
//!
//! <a id="def.inner_headers"></a>
//!
//! ## `inner_headers`
//!
//! The headers after that of the link.
//!
//! ```text
//! abbrev pub inner_headers : PacketBuilder → List Header
//! inner_headers p = map ext_header_view p.link_exts.now ++ content_headers p.content
//! ```
//!
//! Uses: [`Header`](crate::definitions::ether_base#def.Header), [`ext_header_view`](crate::definitions::ether_tags#def.ext_header_view), [`content_headers`](#def.content_headers)
//!
//! <a id="def.built_headers"></a>
//!
//! ## `built_headers`
//!
//! The headers as they are written.
//!
//! ```text
//! abbrev pub built_headers : PacketBuilder → List Header
//! built_headers p =
//!     built (link_header p.link ∷ inner_headers p) (content_type p.content) (length (content_payload p.content))
//! ```
//!
//! Uses: [`Header`](crate::definitions::ether_base#def.Header), [`built`](#def.built), [`link_header`](#def.link_header), [`inner_headers`](#def.inner_headers), [`content_type`](#def.content_type), [`content_payload`](#def.content_payload)
//!
//! <a id="def.packet_len"></a>
//!
//! ## `packet_len`
//!
//! ```text
//! abbrev pub packet_len : PacketBuilder → ℕ
//! packet_len p = place (length (content_payload p.content)) (link_header p.link ∷ inner_headers p)
//! ```
//!
//! Uses: [`place`](crate::definitions::ether_peel#def.place), [`content_payload`](#def.content_payload), [`link_header`](#def.link_header), [`inner_headers`](#def.inner_headers)
//!
//! <a id="def.IsWritten"></a>
//!
//! ## `IsWritten`
//!
//! The target holds the headers, then the payload, and then what it held before. The walk of the packet finds these
//! headers, and then what it finds in the payload.
//!
//! ```text
//! pub record IsWritten (p : PacketBuilder) (old : List ℕ) (end : ℕ) (new : List ℕ) : Type 0 where
//!   pub ends : end ≡ packet_len p
//!   pub room : end ≤ length old
//!   pub bytes : new ≡ flat_map header_bytes (built_headers p) ++ content_payload p.content ++ drop end old
//!   pub walk : BeginsWith (link_start p.link) (take end new) (built_headers p) (content_payload p.content)
//! ```
//!
//! Uses: [`packet_len`](#def.packet_len), [`header_bytes`](crate::definitions::ether_base#def.header_bytes), [`built_headers`](#def.built_headers), [`content_payload`](#def.content_payload), [`BeginsWith`](#def.BeginsWith), [`link_start`](#def.link_start)
//!
//! **Refusals**
//!
//! <a id="def.IsEthernet"></a>
//!
//! ## `IsEthernet`
//!
//! A header of cooked capture has the hardware type of Ethernet (ARPHRD\_ETHER).
//!
//! ```text
//! abbrev pub IsEthernet : LinkHeader → Type 0
//! IsEthernet (links.LinuxSll h) = h.arp_hrd_type.0 ≡ 1
//! IsEthernet (links.Ethernet2 h) = Unit {0}
//! ```
//!
//! Uses: `links` (`LinkHeader`)
//!
//! <a id="def.HasPacketType"></a>
//!
//! ## `HasPacketType`
//!
//! The packet type of a cooked capture is a supported one.
//!
//! ```text
//! abbrev pub HasPacketType : LinkHeader → Type 0
//! HasPacketType (links.LinuxSll h) = h.packet_type ≤ 7
//! HasPacketType (links.Ethernet2 h) = Unit {0}
//! ```
//!
//! Uses: `links` (`LinkHeader`)
//!
//! <a id="def.AllReadable"></a>
//!
//! ## `AllReadable`
//!
//! ```text
//! abbrev pub AllReadable : List Header → Type 0
//! AllReadable [] = Unit {0}
//! AllReadable (h ∷ hs) = (is_readable h ≡ true) × AllReadable hs
//! ```
//!
//! Uses: [`Header`](crate::definitions::ether_base#def.Header), [`is_readable`](#def.is_readable)
//!
//! <a id="def.IsSealedAt"></a>
//!
//! ## `IsSealedAt`
//!
//! The first i headers have readable payloads; the next one does not, though a header follows it.
//!
//! ```text
//! pub record IsSealedAt (hs : List Header) (i : ℕ) : Type 0 where
//!   pub front : List Header
//!   pub sealed : Header
//!   pub follows : Header
//!   pub later : List Header
//!   pub split : hs ≡ front ++ sealed ∷ follows ∷ later
//!   pub place : length front ≡ i
//!   pub readable : AllReadable front
//!   pub unreadable : is_readable sealed ≡ false
//! ```
//!
//! Uses: [`Header`](crate::definitions::ether_base#def.Header), [`AllReadable`](#def.AllReadable), [`is_readable`](#def.is_readable)
//!
//! <a id="def.IsOtherLink"></a>
//!
//! ## `IsOtherLink`
//!
//! A header of cooked capture whose hardware type is not Ethernet is refused, and the error names that type.
//!
//! ```text
//! abbrev pub IsOtherLink : LinkHeader → BuildError → Type 0
//! IsOtherLink (links.LinuxSll h) e = (e ≡ errors.HardwareType h.arp_hrd_type) × (IsEthernet (links.LinuxSll h) → ⊥)
//! IsOtherLink (links.Ethernet2 h) e = ⊥
//! ```
//!
//! Uses: `links` (`LinkHeader`), `errors` (`BuildError`), [`IsEthernet`](#def.IsEthernet)
//!
//! <a id="def.RefusesPacket"></a>
//!
//! ## `RefusesPacket`
//!
//! ```text
//! pub data RefusesPacket (p : PacketBuilder) (target : List ℕ) : BuildError → Type 0 where
//!   hardware_type : (e : BuildError) → IsOtherLink p.link e → RefusesPacket p target e
//!   sealed : (i : ℕ) → IsEthernet p.link → IsSealedAt (inner_headers p) i → RefusesPacket p target (errors.Sealed i)
//!   space : (e : SliceWriteSpaceError) → IsEthernet p.link → IsChain (inner_headers p)
//!       → IsRefusedSpace (packet_len p) layers.EtherPayload target e → RefusesPacket p target (errors.Space e)
//! ```
//!
//! Uses: [`IsOtherLink`](#def.IsOtherLink), [`IsEthernet`](#def.IsEthernet), [`IsSealedAt`](#def.IsSealedAt), [`inner_headers`](#def.inner_headers), `errors` (`BuildError`), [`IsChain`](#def.IsChain), [`IsRefusedSpace`](crate::definitions::ether_base#def.IsRefusedSpace), [`packet_len`](#def.packet_len), `layers` (`Layer`)
//!
//! <a id="def.AcceptsPacket"></a>
//!
//! ## `AcceptsPacket`
//!
//! No reason for refusal holds.
//!
//! ```text
//! abbrev pub AcceptsPacket : (p : PacketBuilder) (target : List ℕ) → Type 0
//! AcceptsPacket p target = (e : BuildError) → RefusesPacket p target e → ⊥
//! ```
//!
//! Uses: [`RefusesPacket`](#def.RefusesPacket)
//!
//! <a id="def.RefusesSpace"></a>
//!
//! ## `RefusesSpace`
//!
//! The target is too short, and that is the only reason for refusal.
//!
//! ```text
//! abbrev pub RefusesSpace : (p : PacketBuilder) (target : List ℕ) → BuildError → Type 0
//! RefusesSpace p target (errors.Space e) = IsRefusedSpace (packet_len p) layers.EtherPayload target e
//! RefusesSpace p target e = ⊥
//! ```
//!
//! Uses: `errors` (`BuildError`), [`IsRefusedSpace`](crate::definitions::ether_base#def.IsRefusedSpace), [`packet_len`](#def.packet_len), `layers` (`Layer`)
//!
//! # Replacing
//!
//! Replacing a header of a frame in place.
//!
//! <a id="def.Agree"></a>
//!
//! ## `Agree`
//!
//! Two headers have the same kind and length, and say the same about what follows them: they announce the same, and
//! give the same payload length or none.
//!
//! ```text
//! abbrev pub Agree : Header → Header → Type 0
//! Agree (headers.Ethernet2 g) (headers.Ethernet2 h) = g.ether_type ≡ h.ether_type
//! Agree (headers.Ethernet2Fcs g) (headers.Ethernet2Fcs h) = g.ether_type ≡ h.ether_type
//! Agree (headers.LinuxSll g) (headers.LinuxSll h) = (g.hardware_type ≡ h.hardware_type) × (g.protocol ≡ h.protocol)
//! Agree (headers.Vlan g) (headers.Vlan h) = g.ether_type ≡ h.ether_type
//! Agree (headers.Macsec g) (headers.Macsec h) =
//!     (g.payload_type ≡ h.payload_type) × (g.short_len ≡ h.short_len) × (sci_present_of g.sci ≡ sci_present_of h.sci)
//! Agree (headers.Arp g) (headers.Arp h) =
//!     (length g.sender_hardware ≡ length h.sender_hardware) × (length g.sender_protocol ≡ length h.sender_protocol)
//! Agree g h = ⊥
//! ```
//!
//! Uses: [`Header`](crate::definitions::ether_base#def.Header), [`headers.Ethernet2`](crate::definitions::ether_base#def.Header), [`headers.Ethernet2Fcs`](crate::definitions::ether_base#def.Header), [`headers.LinuxSll`](crate::definitions::ether_base#def.Header), [`headers.Vlan`](crate::definitions::ether_base#def.Header), [`headers.Macsec`](crate::definitions::ether_base#def.Header), [`sci_present_of`](crate::definitions::ether_base#def.sci_present_of), [`headers.Arp`](crate::definitions::ether_base#def.Header)
//!
//! <a id="def.Differs"></a>
//!
//! ## `Differs`
//!
//! The first difference between two headers, in the order of kind and fields: before it they agree.
//!
//! ```text
//! abbrev pub Differs : Header → Header → Difference → Type 0
//! Differs g h differences.Kind = kind_of g ≢ kind_of h
//! Differs (headers.Vlan g) (headers.Vlan h) differences.EtherType = g.ether_type ≢ h.ether_type
//! Differs (headers.Macsec g) (headers.Macsec h) differences.PayloadType = g.payload_type ≢ h.payload_type
//! Differs (headers.Macsec g) (headers.Macsec h) differences.ShortLen =
//!     (g.payload_type ≡ h.payload_type) × (g.short_len ≢ h.short_len)
//! Differs (headers.Macsec g) (headers.Macsec h) differences.Sci =
//!     (g.payload_type ≡ h.payload_type) × (g.short_len ≡ h.short_len) × (sci_present_of g.sci ≢ sci_present_of h.sci)
//! Differs (headers.Arp g) (headers.Arp h) differences.HwAddrLen = length g.sender_hardware ≢ length h.sender_hardware
//! Differs (headers.Arp g) (headers.Arp h) differences.ProtocolAddrLen =
//!     (length g.sender_hardware ≡ length h.sender_hardware) × (length g.sender_protocol ≢ length h.sender_protocol)
//! Differs g h d = ⊥
//! ```
//!
//! Uses: [`Header`](crate::definitions::ether_base#def.Header), `differences` (`Difference`), [`kind_of`](crate::definitions::ether_base#def.kind_of), [`headers.Vlan`](crate::definitions::ether_base#def.Header), [`headers.Macsec`](crate::definitions::ether_base#def.Header), [`sci_present_of`](crate::definitions::ether_base#def.sci_present_of), [`headers.Arp`](crate::definitions::ether_base#def.Header)
//!
//! <a id="def.ext_count"></a>
//!
//! ## `ext_count`
//!
//! The number of extensions among these headers.
//!
//! ```text
//! abbrev pub ext_count : List Header → ℕ
//! ext_count [] = 0
//! ext_count (h ∷ hs) = (if is_extension (kind_of h) then 1 else 0) + ext_count hs
//! ```
//!
//! Uses: [`Header`](crate::definitions::ether_base#def.Header), [`is_extension`](crate::definitions::ether_peel#def.is_extension), [`kind_of`](crate::definitions::ether_base#def.kind_of)
//!
//! <a id="def.IsExtAt"></a>
//!
//! ## `IsExtAt`
//!
//! h is the extension at an index of the headers hs; the headers of front precede it, and the later ones follow it.
//!
//! ```text
//! pub record IsExtAt (hs : List Header) (i : ℕ) (front : List Header) (h : Header) (later : List Header)
//!     : Type 0 where
//!   pub parts : hs ≡ front ++ h ∷ later
//!   pub extension : is_extension (kind_of h) ≡ true
//!   pub before : ext_count front ≡ i
//! ```
//!
//! Uses: [`Header`](crate::definitions::ether_base#def.Header), [`is_extension`](crate::definitions::ether_peel#def.is_extension), [`kind_of`](crate::definitions::ether_base#def.kind_of), [`ext_count`](#def.ext_count)
//!
//! <a id="def.ReplacesExt"></a>
//!
//! ## `ReplacesExt`
//!
//! In a list with the headers hs and this ending g replaces the extension at an index. Only the bytes of that extension
//! change, and the walk has all other headers and the ending as before.
//!
//! ```text
//! pub record ReplacesExt (start : Expectation) (old : List ℕ) (hs : List Header) (e : Ending) (i : ℕ) (g : Header)
//!     (new : List ℕ)
//!     : Type 0 where
//!   pub front : List Header
//!   pub replaced : Header
//!   pub later : List Header
//!   pub found : IsExtAt hs i front replaced later
//!   pub same : Agree g replaced
//!   pub fits : FitsHeader g
//!   pub bytes : new ≡ overwritten old (place 0 front) (header_bytes g)
//!   pub len : length new ≡ length old
//!   pub walk : Walk start new (front ++ g ∷ later) e
//! ```
//!
//! Uses: [`Expectation`](crate::definitions::ether_peel#def.Expectation), [`Header`](crate::definitions::ether_base#def.Header), [`Ending`](crate::definitions::ether_peel#def.Ending), [`IsExtAt`](#def.IsExtAt), [`Agree`](#def.Agree), [`FitsHeader`](crate::definitions::ether_base#def.FitsHeader), [`overwritten`](crate::definitions::ether_base#def.overwritten), [`place`](crate::definitions::ether_peel#def.place), [`header_bytes`](crate::definitions::ether_base#def.header_bytes), [`Walk`](crate::definitions::ether_peel#def.Walk)
//!
//! <a id="def.RefusesExt"></a>
//!
//! ## `RefusesExt`
//!
//! g does not replace the extension at an index: there is none, or they differ, and this is the first difference.
//!
//! ```text
//! pub data RefusesExt (hs : List Header) (i : ℕ) (g : Header) : ReplaceError → Type 0 where
//!   none : ext_count hs ≤ i → RefusesExt hs i g (errors.NoLinkExt (ext_count hs))
//!   other : (front : List Header) (h : Header) (later : List Header) (d : Difference)
//!       → IsExtAt hs i front h later → Differs g h d → RefusesExt hs i g (errors.SaysOther d)
//! ```
//!
//! Uses: [`Header`](crate::definitions::ether_base#def.Header), [`ext_count`](#def.ext_count), `errors` (`ReplaceError`), [`IsExtAt`](#def.IsExtAt), [`Differs`](#def.Differs)
//!
//! # Replacing link
//!
//! Replacing a link's header in place.
//!
//! <a id="def.is_link"></a>
//!
//! ## `is_link`
//!
//! The kinds of a link's header.
//!
//! ```text
//! abbrev pub is_link : Kind → Bool
//! is_link kinds.Ethernet2 = true
//! is_link kinds.Ethernet2Fcs = true
//! is_link kinds.LinuxSll = true
//! is_link _ = false
//! ```
//!
//! Uses: [`Kind`](crate::definitions::ether_base#def.Kind), [`kinds.Ethernet2`](crate::definitions::ether_base#def.Kind), [`kinds.Ethernet2Fcs`](crate::definitions::ether_base#def.Kind), [`kinds.LinuxSll`](crate::definitions::ether_base#def.Kind)
//!
//! <a id="def.has_link"></a>
//!
//! ## `has_link`
//!
//! The first of these headers is a link's.
//!
//! ```text
//! abbrev pub has_link : List Header → Bool
//! has_link [] = false
//! has_link (h ∷ hs) = is_link (kind_of h)
//! ```
//!
//! Uses: [`Header`](crate::definitions::ether_base#def.Header), [`is_link`](#def.is_link), [`kind_of`](crate::definitions::ether_base#def.kind_of)
//!
//! <a id="def.protocol_in"></a>
//!
//! ## `protocol_in`
//!
//! The protocol type of a cooked capture: its protocol number, read according to the hardware type.
//!
//! ```text
//! abbrev pub protocol_in : LinuxSllValue → LinuxSllProtocolType
//! protocol_in s = protocol_of s.hardware_type s.protocol
//! ```
//!
//! Uses: [`LinuxSllValue`](crate::definitions::ether_base#def.LinuxSllValue), [`protocol_of`](crate::definitions::ether_base#def.protocol_of)
//!
//! <a id="def.LinkAgrees"></a>
//!
//! ## `LinkAgrees`
//!
//! A link's header has the same kind as the header of a walk, and says the same about what follows it.
//!
//! ```text
//! abbrev pub LinkAgrees : LinkHeader → Header → Type 0
//! LinkAgrees (links.Ethernet2 g) (headers.Ethernet2 h) = g.ether_type.0 ≡ h.ether_type
//! LinkAgrees (links.Ethernet2 g) (headers.Ethernet2Fcs h) = g.ether_type.0 ≡ h.ether_type
//! LinkAgrees (links.LinuxSll g) (headers.LinuxSll h) =
//!     (g.arp_hrd_type.0 ≡ h.hardware_type) × (g.protocol_type ≡ protocol_in h)
//! LinkAgrees g h = ⊥
//! ```
//!
//! Uses: [`Header`](crate::definitions::ether_base#def.Header), `links` (`LinkHeader`), [`headers.Ethernet2`](crate::definitions::ether_base#def.Header), [`headers.Ethernet2Fcs`](crate::definitions::ether_base#def.Header), [`headers.LinuxSll`](crate::definitions::ether_base#def.Header), [`protocol_in`](#def.protocol_in)
//!
//! <a id="def.LinkDiffers"></a>
//!
//! ## `LinkDiffers`
//!
//! The first difference between a link's header and the header of a walk, in the order of kind and fields.
//!
//! ```text
//! abbrev pub LinkDiffers : LinkHeader → Header → Difference → Type 0
//! LinkDiffers (links.Ethernet2 g) (headers.LinuxSll h) differences.Kind = ⊤
//! LinkDiffers (links.LinuxSll g) (headers.Ethernet2 h) differences.Kind = ⊤
//! LinkDiffers (links.LinuxSll g) (headers.Ethernet2Fcs h) differences.Kind = ⊤
//! LinkDiffers (links.Ethernet2 g) (headers.Ethernet2 h) differences.EtherType = g.ether_type.0 ≢ h.ether_type
//! LinkDiffers (links.Ethernet2 g) (headers.Ethernet2Fcs h) differences.EtherType = g.ether_type.0 ≢ h.ether_type
//! LinkDiffers (links.LinuxSll g) (headers.LinuxSll h) differences.HardwareType = g.arp_hrd_type.0 ≢ h.hardware_type
//! LinkDiffers (links.LinuxSll g) (headers.LinuxSll h) differences.ProtocolType =
//!     (g.arp_hrd_type.0 ≡ h.hardware_type) × (g.protocol_type ≢ protocol_in h)
//! LinkDiffers g h d = ⊥
//! ```
//!
//! Uses: [`Header`](crate::definitions::ether_base#def.Header), `links` (`LinkHeader`), [`headers.LinuxSll`](crate::definitions::ether_base#def.Header), `differences` (`Difference`), [`headers.Ethernet2`](crate::definitions::ether_base#def.Header), [`headers.Ethernet2Fcs`](crate::definitions::ether_base#def.Header), [`protocol_in`](#def.protocol_in)
//!
//! <a id="def.in_place_of"></a>
//!
//! ## `in_place_of`
//!
//! A link's header as a walk reads it in place of another one: with a frame check sequence if that one has one.
//!
//! ```text
//! abbrev pub in_place_of : LinkHeader → Header → Header
//! in_place_of (links.Ethernet2 g) (headers.Ethernet2Fcs h) = headers.Ethernet2Fcs (ethernet2_view g)
//! in_place_of g h = link_header g
//! ```
//!
//! Uses: [`Header`](crate::definitions::ether_base#def.Header), `links` (`LinkHeader`), [`headers.Ethernet2Fcs`](crate::definitions::ether_base#def.Header), [`ethernet2_view`](crate::definitions::ether_tags#def.ethernet2_view), [`link_header`](#def.link_header)
//!
//! <a id="def.TakesLink"></a>
//!
//! ## `TakesLink`
//!
//! g can replace the first of these headers.
//!
//! ```text
//! pub record TakesLink (hs : List Header) (g : LinkHeader) : Type 0 where
//!   pub replaced : Header
//!   pub later : List Header
//!   pub parts : hs ≡ replaced ∷ later
//!   pub same : LinkAgrees g replaced
//! ```
//!
//! Uses: [`Header`](crate::definitions::ether_base#def.Header), [`LinkAgrees`](#def.LinkAgrees)
//!
//! <a id="def.ReplacesLink"></a>
//!
//! ## `ReplacesLink`
//!
//! In a list with the headers hs and this ending g replaces the first header. Only the bytes of that header change, and
//! the walk has all other headers and the ending as before.
//!
//! ```text
//! pub record ReplacesLink (start : Expectation) (old : List ℕ) (hs : List Header) (e : Ending) (g : LinkHeader)
//!     (new : List ℕ) : Type 0 where
//!   pub takes : TakesLink hs g
//!   pub fits : FitsHeader (link_header g)
//!   pub bytes : new ≡ overwritten old 0 (header_bytes (link_header g))
//!   pub len : length new ≡ length old
//!   pub walk : Walk start new (in_place_of g takes.replaced ∷ takes.later) e
//! ```
//!
//! Uses: [`Expectation`](crate::definitions::ether_peel#def.Expectation), [`Header`](crate::definitions::ether_base#def.Header), [`Ending`](crate::definitions::ether_peel#def.Ending), [`TakesLink`](#def.TakesLink), [`FitsHeader`](crate::definitions::ether_base#def.FitsHeader), [`link_header`](#def.link_header), [`overwritten`](crate::definitions::ether_base#def.overwritten), [`header_bytes`](crate::definitions::ether_base#def.header_bytes), [`Walk`](crate::definitions::ether_peel#def.Walk), [`in_place_of`](#def.in_place_of)
//!
//! <a id="def.RefusesLink"></a>
//!
//! ## `RefusesLink`
//!
//! g does not replace the first header: it is not a link's, or this is the first difference between them.
//!
//! ```text
//! pub data RefusesLink (hs : List Header) (g : LinkHeader) : ReplaceError → Type 0 where
//!   no_link : has_link hs ≡ false → RefusesLink hs g errors.NoLink
//!   other_link : (h : Header) (later : List Header) (d : Difference)
//!       → hs ≡ h ∷ later → is_link (kind_of h) ≡ true → LinkDiffers g h d → RefusesLink hs g (errors.SaysOther d)
//! ```
//!
//! Uses: [`Header`](crate::definitions::ether_base#def.Header), [`has_link`](#def.has_link), `errors` (`ReplaceError`), [`is_link`](#def.is_link), [`kind_of`](crate::definitions::ether_base#def.kind_of), [`LinkDiffers`](#def.LinkDiffers)
//!
//! **How it is found**
//!
//! <a id="def.IsLinkOf"></a>
//!
//! ## `IsLinkOf`
//!
//! A link's header is the header of a walk.
//!
//! ```text
//! abbrev pub IsLinkOf : LinkHeader → Header → Type 0
//! IsLinkOf (links.Ethernet2 g) (headers.Ethernet2 h) = ethernet2_view g ≡ h
//! IsLinkOf (links.Ethernet2 g) (headers.Ethernet2Fcs h) = ethernet2_view g ≡ h
//! IsLinkOf (links.LinuxSll g) (headers.LinuxSll h) = (linux_sll_view g ≡ h) × (g.protocol_type ≡ protocol_in h)
//! IsLinkOf g h = ⊥
//! ```
//!
//! Uses: [`Header`](crate::definitions::ether_base#def.Header), `links` (`LinkHeader`), [`headers.Ethernet2`](crate::definitions::ether_base#def.Header), [`ethernet2_view`](crate::definitions::ether_tags#def.ethernet2_view), [`headers.Ethernet2Fcs`](crate::definitions::ether_base#def.Header), [`headers.LinuxSll`](crate::definitions::ether_base#def.Header), [`linux_sll_view`](crate::definitions::ether_sll#def.linux_sll_view), [`protocol_in`](#def.protocol_in)
//!
//! # Replacing ARP
//!
//! Replacing the ARP packet of a frame in place.
//!
//! <a id="def.is_arp"></a>
//!
//! ## `is_arp`
//!
//! ```text
//! abbrev pub is_arp : Kind → Bool
//! is_arp kinds.Arp = true
//! is_arp _ = false
//! ```
//!
//! Uses: [`Kind`](crate::definitions::ether_base#def.Kind), [`kinds.Arp`](crate::definitions::ether_base#def.Kind)
//!
//! <a id="def.has_arp"></a>
//!
//! ## `has_arp`
//!
//! One of these headers is an ARP packet.
//!
//! ```text
//! abbrev pub has_arp : List Header → Bool
//! has_arp [] = false
//! has_arp (h ∷ hs) = is_arp (kind_of h) || has_arp hs
//! ```
//!
//! Uses: [`Header`](crate::definitions::ether_base#def.Header), [`is_arp`](#def.is_arp), [`kind_of`](crate::definitions::ether_base#def.kind_of)
//!
//! <a id="def.ReplacesArp"></a>
//!
//! ## `ReplacesArp`
//!
//! In a list with the headers hs and this ending g replaces the ARP packet, which is the last header. Only the bytes of
//! that packet change, and the walk has all other headers and the ending as before.
//!
//! ```text
//! pub record ReplacesArp (start : Expectation) (old : List ℕ) (hs : List Header) (e : Ending) (g : ArpValue)
//!     (new : List ℕ) : Type 0 where
//!   pub front : List Header
//!   pub replaced : ArpValue
//!   pub parts : hs ≡ front ++ headers.Arp replaced ∷ []
//!   pub same : Agree (headers.Arp g) (headers.Arp replaced)
//!   pub fits : FitsHeader (headers.Arp g)
//!   pub bytes : new ≡ overwritten old (place 0 front) (arp_bytes g)
//!   pub len : length new ≡ length old
//!   pub walk : Walk start new (front ++ headers.Arp g ∷ []) e
//! ```
//!
//! Uses: [`Expectation`](crate::definitions::ether_peel#def.Expectation), [`Header`](crate::definitions::ether_base#def.Header), [`Ending`](crate::definitions::ether_peel#def.Ending), [`ArpValue`](crate::definitions::ether_base#def.ArpValue), [`headers.Arp`](crate::definitions::ether_base#def.Header), [`Agree`](#def.Agree), [`FitsHeader`](crate::definitions::ether_base#def.FitsHeader), [`overwritten`](crate::definitions::ether_base#def.overwritten), [`place`](crate::definitions::ether_peel#def.place), [`arp_bytes`](crate::definitions::ether_base#def.arp_bytes), [`Walk`](crate::definitions::ether_peel#def.Walk)
//!
//! <a id="def.RefusesArp"></a>
//!
//! ## `RefusesArp`
//!
//! g does not replace an ARP packet: there is none, or the lengths of the addresses differ, and this is the first such
//! difference.
//!
//! ```text
//! pub data RefusesArp (hs : List Header) (g : ArpValue) : ReplaceError → Type 0 where
//!   no_arp : has_arp hs ≡ false → RefusesArp hs g errors.NoArp
//!   other_arp : (front : List Header) (a : ArpValue) (d : Difference)
//!       → hs ≡ front ++ headers.Arp a ∷ [] → Differs (headers.Arp g) (headers.Arp a) d
//!       → RefusesArp hs g (errors.SaysOther d)
//! ```
//!
//! Uses: [`Header`](crate::definitions::ether_base#def.Header), [`ArpValue`](crate::definitions::ether_base#def.ArpValue), [`has_arp`](#def.has_arp), `errors` (`ReplaceError`), [`headers.Arp`](crate::definitions::ether_base#def.Header), [`Differs`](#def.Differs)
//!
//! # VLAN identifiers
//!
//! Setting the identifier of a VLAN tag in place.
//!
//! <a id="def.IsOutermost"></a>
//!
//! ## `IsOutermost`
//!
//! The extension at the index is this VLAN tag, and no VLAN tag precedes it.
//!
//! ```text
//! pub record IsOutermost (hs : List Header) (i : ℕ) (tag : VlanValue) : Type 0 where
//!   pub front : List Header
//!   pub later : List Header
//!   pub found : IsExtAt hs i front (headers.Vlan tag) later
//!   pub outermost : vlan_ids_of front ≡ []
//! ```
//!
//! Uses: [`Header`](crate::definitions::ether_base#def.Header), [`VlanValue`](crate::definitions::ether_base#def.VlanValue), [`IsExtAt`](#def.IsExtAt), [`headers.Vlan`](crate::definitions::ether_base#def.Header), [`vlan_ids_of`](#def.vlan_ids_of)
//!
//! # Typed link
//!
//! A link's header whose payload has an ether type.
//!
//! <a id="def.type_of_link"></a>
//!
//! ## `type_of_link`
//!
//! The number in the last two bytes of a link's header: the type of Ethernet II, the protocol type of a cooked capture.
//!
//! ```text
//! abbrev pub type_of_link : Header → ℕ
//! type_of_link (headers.Ethernet2 e) = e.ether_type
//! type_of_link (headers.Ethernet2Fcs e) = e.ether_type
//! type_of_link (headers.LinuxSll s) = s.protocol
//! type_of_link _ = 0
//! ```
//!
//! Uses: [`Header`](crate::definitions::ether_base#def.Header), [`headers.Ethernet2`](crate::definitions::ether_base#def.Header), [`headers.Ethernet2Fcs`](crate::definitions::ether_base#def.Header), [`headers.LinuxSll`](crate::definitions::ether_base#def.Header)
//!
//! <a id="def.with_type"></a>
//!
//! ## `with_type`
//!
//! The header with another number in its last two bytes, which announces what follows it.
//!
//! ```text
//! abbrev pub with_type : Header → ℕ → Header
//! with_type (headers.Ethernet2 e) t = headers.Ethernet2 (record e { ether_type = t })
//! with_type (headers.Ethernet2Fcs e) t = headers.Ethernet2Fcs (record e { ether_type = t })
//! with_type (headers.LinuxSll s) t = headers.LinuxSll (record s { protocol = t })
//! with_type (headers.Vlan v) t = headers.Vlan (record v { ether_type = t })
//! with_type (headers.Macsec m) t = headers.Macsec (record m { payload_type = retyped m.payload_type t })
//! with_type (headers.Arp a) t = headers.Arp a
//! ```
//!
//! Uses: [`Header`](crate::definitions::ether_base#def.Header), [`headers.Ethernet2`](crate::definitions::ether_base#def.Header), [`headers.Ethernet2Fcs`](crate::definitions::ether_base#def.Header), [`headers.LinuxSll`](crate::definitions::ether_base#def.Header), [`headers.Vlan`](crate::definitions::ether_base#def.Header), [`headers.Macsec`](crate::definitions::ether_base#def.Header), [`retyped`](#def.retyped), [`headers.Arp`](crate::definitions::ether_base#def.Header)
//!
//! <a id="def.BeginsTyped"></a>
//!
//! ## `BeginsTyped`
//!
//! The headers begin with a link's, whose payload has an ether type.
//!
//! ```text
//! pub record BeginsTyped (hs : List Header) (link : Header) (later : List Header) : Type 0 where
//!   pub parts : hs ≡ link ∷ later
//!   pub is_link : is_link (kind_of link) ≡ true
//!   pub typed : next_after link ≡ EtherType (type_of_link link)
//! ```
//!
//! Uses: [`Header`](crate::definitions::ether_base#def.Header), [`kind_of`](crate::definitions::ether_base#def.kind_of), [`next_after`](crate::definitions::ether_peel#def.next_after), [`EtherType`](crate::definitions::ether_peel#def.Next), [`type_of_link`](#def.type_of_link)
//!
//! <a id="def.RefusesTyped"></a>
//!
//! ## `RefusesTyped`
//!
//! They do not: there is no link's header, or it is of a cooked capture whose hardware type is not 1, Ethernet.
//!
//! ```text
//! pub data RefusesTyped (hs : List Header) : TagError → Type 0 where
//!   no_link : has_link hs ≡ false → RefusesTyped hs errors.NoLink
//!   hardware_type : (s : LinuxSllValue) (later : List Header)
//!       → hs ≡ headers.LinuxSll s ∷ later → (s.hardware_type ≡ 1 → ⊥)
//!       → RefusesTyped hs (errors.HardwareType (record { 0 = s.hardware_type }))
//! ```
//!
//! Uses: [`Header`](crate::definitions::ether_base#def.Header), [`has_link`](#def.has_link), `errors` (`TagError`), [`LinuxSllValue`](crate::definitions::ether_base#def.LinuxSllValue), [`headers.LinuxSll`](crate::definitions::ether_base#def.Header)
//!
//! # Unchanged
//!
//! Writing a packet with its headers as they are.
//!
//! <a id="def.given_headers"></a>
//!
//! ## `given_headers`
//!
//! ```text
//! abbrev pub given_headers : PacketBuilder → List Header
//! given_headers p = link_header p.link ∷ inner_headers p
//! ```
//!
//! Uses: [`Header`](crate::definitions::ether_base#def.Header), [`link_header`](#def.link_header), [`inner_headers`](#def.inner_headers)
//!
//! <a id="def.IsWrittenUnchanged"></a>
//!
//! ## `IsWrittenUnchanged`
//!
//! The target holds the headers, then the payload, and then what it held before.
//!
//! ```text
//! pub record IsWrittenUnchanged (p : PacketBuilder) (old : List ℕ) (end : ℕ) (new : List ℕ) : Type 0 where
//!   pub ends : end ≡ packet_len p
//!   pub room : end ≤ length old
//!   pub fit : AllFit (given_headers p)
//!   pub bytes : new ≡ flat_map header_bytes (given_headers p) ++ content_payload p.content ++ drop end old
//! ```
//!
//! Uses: [`packet_len`](#def.packet_len), [`AllFit`](#def.AllFit), [`given_headers`](#def.given_headers), [`header_bytes`](crate::definitions::ether_base#def.header_bytes), [`content_payload`](#def.content_payload)
//!
//! <a id="def.RefusesUnchanged"></a>
//!
//! ## `RefusesUnchanged`
//!
//! The target is too short.
//!
//! ```text
//! abbrev pub RefusesUnchanged : (p : PacketBuilder) (target : List ℕ) → SliceWriteSpaceError → Type 0
//! RefusesUnchanged p target error = IsRefusedSpace (packet_len p) layers.EtherPayload target error
//! ```
//!
//! Uses: [`IsRefusedSpace`](crate::definitions::ether_base#def.IsRefusedSpace), [`packet_len`](#def.packet_len), `layers` (`Layer`)
//!
//! # Parts
//!
//! The headers of a packet as values that can be changed and written.
//!
//! <a id="def.arp_headers"></a>
//!
//! ## `arp_headers`
//!
//! The ARP packet as a header, if there is one.
//!
//! ```text
//! abbrev pub arp_headers : Option ArpValue → List Header
//! arp_headers None = []
//! arp_headers (Some packet) = headers.Arp packet ∷ []
//! ```
//!
//! Uses: [`ArpValue`](crate::definitions::ether_base#def.ArpValue), [`Header`](crate::definitions::ether_base#def.Header), [`headers.Arp`](crate::definitions::ether_base#def.Header)
//!
//! <a id="def.parts_exts"></a>
//!
//! ## `parts_exts`
//!
//! ```text
//! abbrev pub parts_exts : PacketParts → List LinkExtHeader
//! parts_exts p = take p.tag_count p.tags
//! ```
//!
//! <a id="def.parts_inner"></a>
//!
//! ## `parts_inner`
//!
//! The headers after the link's.
//!
//! ```text
//! abbrev pub parts_inner : PacketParts → List Header
//! parts_inner p = map ext_header_view (parts_exts p) ++ arp_headers p.arp
//! ```
//!
//! Uses: [`Header`](crate::definitions::ether_base#def.Header), [`ext_header_view`](crate::definitions::ether_tags#def.ext_header_view), [`parts_exts`](#def.parts_exts), [`arp_headers`](#def.arp_headers)
//!
//! <a id="def.HaveHeaders"></a>
//!
//! ## `HaveHeaders`
//!
//! These are the headers: the link's, the extensions, and the ARP packet if there is one.
//!
//! ```text
//! pub record HaveHeaders (p : PacketParts) (hs : List Header) : Type 0 where
//!   pub link : Header
//!   pub parts : hs ≡ link ∷ parts_inner p
//!   pub is_link : IsLinkOf p.link link
//! ```
//!
//! Uses: [`Header`](crate::definitions::ether_base#def.Header), [`parts_inner`](#def.parts_inner), [`IsLinkOf`](#def.IsLinkOf)
//!
//! <a id="def.type_shown"></a>
//!
//! ## `type_shown`
//!
//! The ether type that announces the rest, or 0.
//!
//! ```text
//! abbrev pub type_shown : RestKind → ℕ
//! type_shown (rests.EtherType t) = t.0
//! type_shown _ = 0
//! ```
//!
//! Uses: `rests` (`RestKind`)
//!
//! <a id="def.trailer_of"></a>
//!
//! ## `trailer_of`
//!
//! The bytes of the frame after the rest.
//!
//! ```text
//! abbrev pub trailer_of : PacketSlice → List ℕ
//! trailer_of packet = drop (packet.rest_offset + length packet.rest.now) packet.read.frame
//! ```
//!
//! <a id="def.ArePartsOf"></a>
//!
//! ## `ArePartsOf`
//!
//! The parts of a packet.
//!
//! ```text
//! pub record ArePartsOf (p : PacketParts) (packet : PacketSlice) : Type 0 where
//!   pub have : HaveHeaders p (packet_headers packet)
//!   pub ether_type : p.ether_type.0 ≡ type_shown packet.rest_kind
//!   pub rest : p.rest.now ≡ packet.rest.now
//!   pub trailer : p.trailer.now ≡ trailer_of packet
//! ```
//!
//! Uses: [`HaveHeaders`](#def.HaveHeaders), [`packet_headers`](#def.packet_headers), [`type_shown`](#def.type_shown), [`trailer_of`](#def.trailer_of)
//!
//! <a id="def.IsNoExt"></a>
//!
//! ## `IsNoExt`
//!
//! There is no extension at the index, and the error names the number of extensions.
//!
//! ```text
//! abbrev pub IsNoExt : PacketParts → (index : ℕ) → ReplaceError → Type 0
//! IsNoExt p index error = (length (parts_exts p) ≤ index) × (error ≡ errors.NoLinkExt (length (parts_exts p)))
//! ```
//!
//! Uses: [`parts_exts`](#def.parts_exts), `errors` (`ReplaceError`)
//!
//! <a id="def.HasContent"></a>
//!
//! ## `HasContent`
//!
//! The ARP packet if there is one, else the bytes as a payload.
//!
//! ```text
//! abbrev pub HasContent : Option ArpValue → (ether_type : EtherType) (bytes : List ℕ) → PacketContent → Type 0
//! HasContent None t bytes (contents.Payload ether_type payload) = (ether_type ≡ t) × (payload.now ≡ bytes)
//! HasContent (Some a) t bytes (contents.Arp packet) = packet.now ≡ a
//! HasContent _ t bytes content = ⊥
//! ```
//!
//! Uses: [`ArpValue`](crate::definitions::ether_base#def.ArpValue), `contents` (`PacketContent`)
//!
//! <a id="def.IsBuilderOf"></a>
//!
//! ## `IsBuilderOf`
//!
//! ```text
//! pub record IsBuilderOf (p : PacketParts) (b : PacketBuilder) : Type 0 where
//!   pub link : b.link ≡ p.link
//!   pub exts : b.link_exts.now ≡ parts_exts p
//!   pub content : HasContent p.arp p.ether_type p.rest.now b.content
//! ```
//!
//! Uses: [`parts_exts`](#def.parts_exts), [`HasContent`](#def.HasContent)
//!
//! # Frames
//!
//! The whole frame of parts: their headers unchanged, then the rest, then the trailer.
//!
//! <a id="def.parts_headers"></a>
//!
//! ## `parts_headers`
//!
//! ```text
//! abbrev pub parts_headers : PacketParts → List Header
//! parts_headers p = link_header p.link ∷ parts_inner p
//! ```
//!
//! Uses: [`Header`](crate::definitions::ether_base#def.Header), [`link_header`](#def.link_header), [`parts_inner`](#def.parts_inner)
//!
//! <a id="def.frame_size"></a>
//!
//! ## `frame_size`
//!
//! The number of bytes of the frame.
//!
//! ```text
//! abbrev pub frame_size : PacketParts → ℕ
//! frame_size p = place (length p.rest.now + length p.trailer.now) (parts_headers p)
//! ```
//!
//! Uses: [`place`](crate::definitions::ether_peel#def.place), [`parts_headers`](#def.parts_headers)
//!
//! <a id="def.counted_size"></a>
//!
//! ## `counted_size`
//!
//! The same number, but at most the greatest `usize`.
//!
//! ```text
//! abbrev pub counted_size : PacketParts → ℕ
//! counted_size p = min (frame_size p) (2 ^ 64 - 1)
//! ```
//!
//! Uses: [`frame_size`](#def.frame_size)
//!
//! <a id="def.IsFrameWritten"></a>
//!
//! ## `IsFrameWritten`
//!
//! The target holds the whole frame, and then what it held before.
//!
//! ```text
//! pub record IsFrameWritten (p : PacketParts) (old : List ℕ) (end : ℕ) (new : List ℕ) : Type 0 where
//!   pub ends : end ≡ frame_size p
//!   pub room : end ≤ length old
//!   pub fit : AllFit (parts_headers p)
//!   pub packet_type : HasPacketType p.link
//!   pub bytes : new ≡ flat_map header_bytes (parts_headers p) ++ p.rest.now ++ p.trailer.now ++ drop end old
//! ```
//!
//! Uses: [`frame_size`](#def.frame_size), [`AllFit`](#def.AllFit), [`parts_headers`](#def.parts_headers), [`HasPacketType`](#def.HasPacketType), [`header_bytes`](crate::definitions::ether_base#def.header_bytes)
//!
//! <a id="def.RefusesFrame"></a>
//!
//! ## `RefusesFrame`
//!
//! The target is too short.
//!
//! ```text
//! abbrev pub RefusesFrame : (p : PacketParts) (target : List ℕ) → SliceWriteSpaceError → Type 0
//! RefusesFrame p target error = IsRefusedSpace (counted_size p) layers.EtherPayload target error
//! ```
//!
//! Uses: [`IsRefusedSpace`](crate::definitions::ether_base#def.IsRefusedSpace), [`counted_size`](#def.counted_size), `layers` (`Layer`)
//!
//! **Parts of a packet**
//!
//! <a id="def.IsWholeFrame"></a>
//!
//! ## `IsWholeFrame`
//!
//! If these are the parts of a packet, the target begins with the frame that was read, except for the two reserved bits
//! of each SecTag.
//!
//! ```text
//! abbrev pub IsWholeFrame : PacketParts → (end : ℕ) (new : List ℕ) → Type 0
//! IsWholeFrame p end new =
//!     (start : Expectation) (list : List ℕ) (packet : PacketSlice)
//!     → IsBytes list → IsPacket start list packet → ArePartsOf p packet
//!     → (end ≡ length list) × (take end new ≡ cleared list 0 (packet_headers packet))
//! ```
//!
//! Uses: [`Expectation`](crate::definitions::ether_peel#def.Expectation), [`IsBytes`](crate::definitions::ether_base#def.IsBytes), [`IsPacket`](#def.IsPacket), [`ArePartsOf`](#def.ArePartsOf), [`cleared`](crate::definitions::ether_peel#def.cleared), [`packet_headers`](#def.packet_headers)
//!
//! **Changed parts**
//!
//! <a id="def.AllAgree"></a>
//!
//! ## `AllAgree`
//!
//! Each header of one list says the same about what follows it as its counterpart in the other.
//!
//! ```text
//! abbrev pub AllAgree : List Header → List Header → Type 0
//! AllAgree [] [] = Unit {0}
//! AllAgree (g ∷ gs) (h ∷ hs) = Agree g h × AllAgree gs hs
//! AllAgree _ _ = ⊥
//! ```
//!
//! Uses: [`Header`](crate::definitions::ether_base#def.Header), [`Agree`](#def.Agree)
//!
//! <a id="def.headers_for"></a>
//!
//! ## `headers_for`
//!
//! The headers of parts as a walk reads them in place of others. The link's header has a frame check sequence if that
//! of the others has one.
//!
//! ```text
//! abbrev pub headers_for : PacketParts → List Header → List Header
//! headers_for p [] = parts_headers p
//! headers_for p (h ∷ hs) = in_place_of p.link h ∷ parts_inner p
//! ```
//!
//! Uses: [`Header`](crate::definitions::ether_base#def.Header), [`parts_headers`](#def.parts_headers), [`in_place_of`](#def.in_place_of), [`parts_inner`](#def.parts_inner)
//!
//! <a id="def.IsRead"></a>
//!
//! ## `IsRead`
//!
//! The target begins with a list as long as the old one, whose bytes after the headers are those of the old one. Its
//! walk has these headers and this ending.
//!
//! ```text
//! pub record IsRead (start : Expectation) (old : List ℕ) (hs : List Header) (e : Ending) (end : ℕ)
//!     (new : List ℕ) : Type 0 where
//!   pub len : end ≡ length old
//!   pub walk : Walk start (take end new) hs e
//!   pub kept : drop (place 0 hs) (take end new) ≡ drop (place 0 hs) old
//! ```
//!
//! Uses: [`Expectation`](crate::definitions::ether_peel#def.Expectation), [`Header`](crate::definitions::ether_base#def.Header), [`Ending`](crate::definitions::ether_peel#def.Ending), [`Walk`](crate::definitions::ether_peel#def.Walk), [`place`](crate::definitions::ether_peel#def.place)
//!
//! <a id="def.IsChangedFrame"></a>
//!
//! ## `IsChangedFrame`
//!
//! If each header agrees with its counterpart in a packet, and rest and trailer are the packet's, then the frame is
//! read with the new headers, and its walk ends as the packet's does.
//!
//! ```text
//! abbrev pub IsChangedFrame : PacketParts → (end : ℕ) (new : List ℕ) → Type 0
//! IsChangedFrame p end new =
//!     (start : Expectation) (list : List ℕ) (packet : PacketSlice) (e : Ending)
//!     → IsPacket start list packet → Walk start list (packet_headers packet) e
//!     → AllAgree (headers_for p (packet_headers packet)) (packet_headers packet)
//!     → p.rest.now ≡ packet.rest.now → p.trailer.now ≡ trailer_of packet
//!     → IsRead start list (headers_for p (packet_headers packet)) e end new
//! ```
//!
//! Uses: [`Expectation`](crate::definitions::ether_peel#def.Expectation), [`Ending`](crate::definitions::ether_peel#def.Ending), [`IsPacket`](#def.IsPacket), [`Walk`](crate::definitions::ether_peel#def.Walk), [`packet_headers`](#def.packet_headers), [`AllAgree`](#def.AllAgree), [`headers_for`](#def.headers_for), [`trailer_of`](#def.trailer_of), [`IsRead`](#def.IsRead)
//!
//! # Front
//!
//! The first headers of a frame.
//!
//! <a id="def.first_ethernet2"></a>
//!
//! ## `first_ethernet2`
//!
//! The first header, if it is of Ethernet II without a frame check sequence.
//!
//! ```text
//! abbrev pub first_ethernet2 : List Header → Option Ethernet2Value
//! first_ethernet2 (headers.Ethernet2 e ∷ hs) = Some e
//! first_ethernet2 _ = None
//! ```
//!
//! Uses: [`Header`](crate::definitions::ether_base#def.Header), [`Ethernet2Value`](crate::definitions::ether_base#def.Ethernet2Value), [`headers.Ethernet2`](crate::definitions::ether_base#def.Header)
//!
//! <a id="def.ether_type_in"></a>
//!
//! ## `ether_type_in`
//!
//! The ether type that announces the next unit, if one does.
//!
//! ```text
//! abbrev pub ether_type_in : Next → Option ℕ
//! ether_type_in (EtherType t) = Some t
//! ether_type_in _ = None
//! ```
//!
//! Uses: [`Next`](crate::definitions::ether_peel#def.Next), [`EtherType`](crate::definitions::ether_peel#def.Next)
//!
//! <a id="def.link_type"></a>
//!
//! ## `link_type`
//!
//! The ether type in the first header, if that is a link's.
//!
//! ```text
//! abbrev pub link_type : List Header → Option ℕ
//! link_type [] = None
//! link_type (h ∷ hs) = if is_link (kind_of h) then ether_type_in (next_after h) else None
//! ```
//!
//! Uses: [`Header`](crate::definitions::ether_base#def.Header), [`is_link`](#def.is_link), [`kind_of`](crate::definitions::ether_base#def.kind_of), [`ether_type_in`](#def.ether_type_in), [`next_after`](crate::definitions::ether_peel#def.next_after)
//!
//! <a id="def.first_tag"></a>
//!
//! ## `first_tag`
//!
//! The first header, if it is a VLAN tag.
//!
//! ```text
//! abbrev pub first_tag : List Header → Option VlanValue
//! first_tag (headers.Vlan v ∷ hs) = Some v
//! first_tag _ = None
//! ```
//!
//! Uses: [`Header`](crate::definitions::ether_base#def.Header), [`VlanValue`](crate::definitions::ether_base#def.VlanValue), [`headers.Vlan`](crate::definitions::ether_base#def.Header)
//!
//! <a id="def.outer_tag"></a>
//!
//! ## `outer_tag`
//!
//! The VLAN tag directly after a link's header.
//!
//! ```text
//! abbrev pub outer_tag : List Header → Option VlanValue
//! outer_tag [] = None
//! outer_tag (h ∷ hs) = if is_link (kind_of h) then first_tag hs else None
//! ```
//!
//! Uses: [`Header`](crate::definitions::ether_base#def.Header), [`VlanValue`](crate::definitions::ether_base#def.VlanValue), [`is_link`](#def.is_link), [`kind_of`](crate::definitions::ether_base#def.kind_of), [`first_tag`](#def.first_tag)
//!
//! # Popping
//!
//! Taking a VLAN tag off in place.
//!
//! <a id="def.IsPopped"></a>
//!
//! ## `IsPopped`
//!
//! A frame begins with a link's header and a VLAN tag. Only the bytes of the link before its type are moved, by four
//! bytes toward the end, and the frame then begins four bytes later. Its walk has the link with the type of the tag;
//! all later headers and the ending are as before, at offsets lower by four.
//!
//! ```text
//! pub record IsPopped (start : Expectation) (old : List ℕ) (hs : List Header) (e : Ending) (tag : VlanValue)
//!     (new : List ℕ)
//!     : Type 0 where
//!   pub link : Header
//!   pub later : List Header
//!   pub begins : BeginsTyped hs link (headers.Vlan tag ∷ later)
//!   pub bytes : new ≡ overwritten old 4 (take (header_len link - 2) old)
//!   pub walk : Walk start (drop 4 new) (with_type link tag.ether_type ∷ later)
//!       (moved_ending (header_len link + 4) (header_len link) e)
//! ```
//!
//! Uses: [`Expectation`](crate::definitions::ether_peel#def.Expectation), [`Header`](crate::definitions::ether_base#def.Header), [`Ending`](crate::definitions::ether_peel#def.Ending), [`VlanValue`](crate::definitions::ether_base#def.VlanValue), [`BeginsTyped`](#def.BeginsTyped), [`headers.Vlan`](crate::definitions::ether_base#def.Header), [`overwritten`](crate::definitions::ether_base#def.overwritten), [`header_len`](crate::definitions::ether_base#def.header_len), [`Walk`](crate::definitions::ether_peel#def.Walk), [`with_type`](#def.with_type), [`moved_ending`](crate::definitions::ether_peel#def.moved_ending)
//!
//! <a id="def.RefusesPop"></a>
//!
//! ## `RefusesPop`
//!
//! No tag is taken off: the frame does not begin with a link's header and an ether type; or that does not announce a
//! VLAN tag; or the walk ends before the tag, which is cut short.
//!
//! ```text
//! pub data RefusesPop (hs : List Header) : TagError → Type 0 where
//!   link : (error : TagError) → RefusesTyped hs error → RefusesPop hs error
//!   no_vlan : (link : Header) (later : List Header)
//!       → BeginsTyped hs link later → is_vlan_ether_type (type_of_link link) ≡ false → RefusesPop hs errors.NoVlan
//!   cut_vlan : (link : Header) → BeginsTyped hs link [] → is_vlan_ether_type (type_of_link link) ≡ true
//!       → RefusesPop hs errors.CutVlan
//! ```
//!
//! Uses: [`Header`](crate::definitions::ether_base#def.Header), [`RefusesTyped`](#def.RefusesTyped), [`BeginsTyped`](#def.BeginsTyped), [`is_vlan_ether_type`](crate::definitions::ether_base#def.is_vlan_ether_type), [`type_of_link`](#def.type_of_link), `errors` (`TagError`)
//!
//! # Pushing
//!
//! Putting a VLAN tag in, in place.
//!
//! <a id="def.pushed_bytes"></a>
//!
//! ## `pushed_bytes`
//!
//! The four bytes that are put in: the ether type that announces the tag, and its tag control information (IEEE 802.1Q,
//! 9.4).
//!
//! ```text
//! abbrev pub pushed_bytes : ℕ → VlanValue → List ℕ
//! pushed_bytes tpid tag = spelled 2 tpid ++ slice_range (vlan_bytes tag) 0 2
//! ```
//!
//! Uses: [`VlanValue`](crate::definitions::ether_base#def.VlanValue), [`spelled`](crate::definitions::ether_base#def.spelled), [`vlan_bytes`](crate::definitions::ether_base#def.vlan_bytes)
//!
//! <a id="def.IsPushed"></a>
//!
//! ## `IsPushed`
//!
//! A frame begins with a link's header, after four free bytes of a buffer. Only the bytes of the link before its type
//! are moved, by four bytes toward the front, and four bytes are put in after them. The walk of the whole buffer has
//! the link with the type that announces the tag, and the tag with the type of the link; all later headers and the
//! ending are as before, at offsets higher by four.
//!
//! ```text
//! pub record IsPushed (start : Expectation) (old : List ℕ) (hs : List Header) (e : Ending) (tag : VlanValue) (tpid : ℕ)
//!     (new : List ℕ)
//!     : Type 0 where
//!   pub link : Header
//!   pub later : List Header
//!   pub begins : BeginsTyped hs link later
//!   pub announces : is_vlan_ether_type tpid ≡ true
//!   pub bytes : new ≡ overwritten old 0 (slice_range old 4 (header_len link + 2) ++ pushed_bytes tpid tag)
//!   pub walk : Walk start new (with_type link tpid ∷ headers.Vlan (record tag { ether_type = type_of_link link }) ∷ later)
//!       (moved_ending (header_len link) (header_len link + 4) e)
//! ```
//!
//! Uses: [`Expectation`](crate::definitions::ether_peel#def.Expectation), [`Header`](crate::definitions::ether_base#def.Header), [`Ending`](crate::definitions::ether_peel#def.Ending), [`VlanValue`](crate::definitions::ether_base#def.VlanValue), [`BeginsTyped`](#def.BeginsTyped), [`is_vlan_ether_type`](crate::definitions::ether_base#def.is_vlan_ether_type), [`overwritten`](crate::definitions::ether_base#def.overwritten), [`header_len`](crate::definitions::ether_base#def.header_len), [`pushed_bytes`](#def.pushed_bytes), [`Walk`](crate::definitions::ether_peel#def.Walk), [`with_type`](#def.with_type), [`headers.Vlan`](crate::definitions::ether_base#def.Header), [`type_of_link`](#def.type_of_link), [`moved_ending`](crate::definitions::ether_peel#def.moved_ending)
//!
//! <a id="def.RefusesPush"></a>
//!
//! ## `RefusesPush`
//!
//! No tag is put in: the ether type does not announce one; or the buffer does not have four bytes before the frame; or
//! the frame does not begin with a link's header and an ether type.
//!
//! ```text
//! pub data RefusesPush (buffer : List ℕ) (hs : List Header) (tpid : ℕ) : TagError → Type 0 where
//!   other_tpid : is_vlan_ether_type tpid ≡ false → RefusesPush buffer hs tpid (errors.Tpid (record { 0 = tpid }))
//!   no_room : is_vlan_ether_type tpid ≡ true → length buffer < 4 → RefusesPush buffer hs tpid errors.NoRoom
//!   link : (error : TagError) → is_vlan_ether_type tpid ≡ true → 4 ≤ length buffer → RefusesTyped hs error
//!       → RefusesPush buffer hs tpid error
//! ```
//!
//! Uses: [`Header`](crate::definitions::ether_base#def.Header), [`is_vlan_ether_type`](crate::definitions::ether_base#def.is_vlan_ether_type), `errors` (`TagError`), [`RefusesTyped`](#def.RefusesTyped)
//!
//! # Setting
//!
//! Changing a VLAN tag in place, and the ether type that announces it.
//!
//! <a id="def.SetsTag"></a>
//!
//! ## `SetsTag`
//!
//! A frame has a VLAN tag at an index of its extensions, which is changed. Only the bytes of that tag change, and the
//! walk has all other headers and the ending as before.
//!
//! ```text
//! pub record SetsTag (start : Expectation) (old : List ℕ) (hs : List Header) (e : Ending) (i : ℕ) (change : VlanValue
//!     → VlanValue) (new : List ℕ)
//!     : Type 0 where
//!   pub front : List Header
//!   pub tag : VlanValue
//!   pub later : List Header
//!   pub found : IsExtAt hs i front (headers.Vlan tag) later
//!   pub bytes : new ≡ overwritten old (place 0 front) (vlan_bytes (change tag))
//!   pub walk : Walk start new (front ++ headers.Vlan (change tag) ∷ later) e
//! ```
//!
//! Uses: [`Expectation`](crate::definitions::ether_peel#def.Expectation), [`Header`](crate::definitions::ether_base#def.Header), [`Ending`](crate::definitions::ether_peel#def.Ending), [`VlanValue`](crate::definitions::ether_base#def.VlanValue), [`IsExtAt`](#def.IsExtAt), [`headers.Vlan`](crate::definitions::ether_base#def.Header), [`overwritten`](crate::definitions::ether_base#def.overwritten), [`place`](crate::definitions::ether_peel#def.place), [`vlan_bytes`](crate::definitions::ether_base#def.vlan_bytes), [`Walk`](crate::definitions::ether_peel#def.Walk)
//!
//! <a id="def.RefusesTag"></a>
//!
//! ## `RefusesTag`
//!
//! There is no VLAN tag at the index: there are too few extensions, or the one at the index is a SecTag.
//!
//! ```text
//! pub data RefusesTag (hs : List Header) (i : ℕ) : TagError → Type 0 where
//!   none : ext_count hs ≤ i → RefusesTag hs i (errors.NoLinkExt (ext_count hs))
//!   sec_tag : (front : List Header) (m : SecTagValue) (later : List Header)
//!       → IsExtAt hs i front (headers.Macsec m) later → RefusesTag hs i errors.NoVlan
//! ```
//!
//! Uses: [`Header`](crate::definitions::ether_base#def.Header), [`ext_count`](#def.ext_count), `errors` (`TagError`), [`SecTagValue`](crate::definitions::ether_base#def.SecTagValue), [`IsExtAt`](#def.IsExtAt), [`headers.Macsec`](crate::definitions::ether_base#def.Header)
//!
//! <a id="def.SetsTpid"></a>
//!
//! ## `SetsTpid`
//!
//! A frame has a VLAN tag at an index of its extensions, and a header before it, whose last two bytes announce the tag.
//! Only these two bytes change, and the walk has all other headers and the ending as before.
//!
//! ```text
//! pub record SetsTpid (start : Expectation) (old : List ℕ) (hs : List Header) (e : Ending) (i tpid : ℕ) (new : List ℕ)
//!     : Type 0 where
//!   pub front : List Header
//!   pub before : Header
//!   pub tag : VlanValue
//!   pub later : List Header
//!   pub found : IsExtAt hs i (front ++ before ∷ []) (headers.Vlan tag) later
//!   pub announces : is_vlan_ether_type tpid ≡ true
//!   pub bytes : new ≡ overwritten old (place 0 (front ++ before ∷ []) - 2) (spelled 2 tpid)
//!   pub walk : Walk start new (front ++ with_type before tpid ∷ headers.Vlan tag ∷ later) e
//! ```
//!
//! Uses: [`Expectation`](crate::definitions::ether_peel#def.Expectation), [`Header`](crate::definitions::ether_base#def.Header), [`Ending`](crate::definitions::ether_peel#def.Ending), [`VlanValue`](crate::definitions::ether_base#def.VlanValue), [`IsExtAt`](#def.IsExtAt), [`headers.Vlan`](crate::definitions::ether_base#def.Header), [`is_vlan_ether_type`](crate::definitions::ether_base#def.is_vlan_ether_type), [`overwritten`](crate::definitions::ether_base#def.overwritten), [`place`](crate::definitions::ether_peel#def.place), [`spelled`](crate::definitions::ether_base#def.spelled), [`Walk`](crate::definitions::ether_peel#def.Walk), [`with_type`](#def.with_type)
//!
//! <a id="def.RefusesTpid"></a>
//!
//! ## `RefusesTpid`
//!
//! The ether type is not set: it does not announce a VLAN tag; or there is no VLAN tag at the index; or the frame
//! begins with that tag.
//!
//! ```text
//! pub data RefusesTpid (hs : List Header) (i tpid : ℕ) : TagError → Type 0 where
//!   other_tpid : is_vlan_ether_type tpid ≡ false → RefusesTpid hs i tpid (errors.Tpid (record { 0 = tpid }))
//!   tag : (error : TagError) → is_vlan_ether_type tpid ≡ true → RefusesTag hs i error → RefusesTpid hs i tpid error
//!   unannounced : (v : VlanValue) (later : List Header)
//!       → is_vlan_ether_type tpid ≡ true → IsExtAt hs i [] (headers.Vlan v) later
//!       → RefusesTpid hs i tpid errors.Unannounced
//! ```
//!
//! Uses: [`Header`](crate::definitions::ether_base#def.Header), [`is_vlan_ether_type`](crate::definitions::ether_base#def.is_vlan_ether_type), `errors` (`TagError`), [`RefusesTag`](#def.RefusesTag), [`VlanValue`](crate::definitions::ether_base#def.VlanValue), [`IsExtAt`](#def.IsExtAt), [`headers.Vlan`](crate::definitions::ether_base#def.Header)
//!
//! **The outermost one with an identifier**
//!
//! <a id="def.LacksVlan"></a>
//!
//! ## `LacksVlan`
//!
//! No VLAN tag of these headers has this identifier.
//!
//! ```text
//! abbrev pub LacksVlan : List Header → (vid : ℕ) → Type 0
//! LacksVlan hs vid = All (λ id. id ≢ vid) (vlan_ids_of hs)
//! ```
//!
//! Uses: [`Header`](crate::definitions::ether_base#def.Header), [`vlan_ids_of`](#def.vlan_ids_of)
//!
//! <a id="def.FindsVlan"></a>
//!
//! ## `FindsVlan`
//!
//! The extension at the index is a VLAN tag with this identifier, and no VLAN tag before it has the identifier.
//!
//! ```text
//! pub record FindsVlan (hs : List Header) (vid i : ℕ) : Type 0 where
//!   pub front : List Header
//!   pub tag : VlanValue
//!   pub later : List Header
//!   pub found : IsExtAt hs i front (headers.Vlan tag) later
//!   pub has : tag.vid ≡ vid
//!   pub outermost : LacksVlan front vid
//! ```
//!
//! Uses: [`Header`](crate::definitions::ether_base#def.Header), [`VlanValue`](crate::definitions::ether_base#def.VlanValue), [`IsExtAt`](#def.IsExtAt), [`headers.Vlan`](crate::definitions::ether_base#def.Header), [`LacksVlan`](#def.LacksVlan)
//!
//! # Types
//!
//! Types that are not public. Definitions use them as they are declared.
//!
//! <a id="def.FrameWindow"></a>
//!
//! ## `FrameWindow`
//!
//! A window of a frame: its offset, and its bytes.
//!
//! ```text
//! struct FrameWindow<'a> {
//!     pub start: usize,
//!     pub bytes: &'a [u8],
//! }
//! ```
//!
//! <a id="def.ExtKind"></a>
//!
//! ## `ExtKind`
//!
//! Whether a tag is a VLAN tag or a SecTag.
//!
//! ```text
//! enum ExtKind {
//!     Vlan,
//!     Macsec,
//! }
//! ```
//!
//! <a id="def.ExtPlace"></a>
//!
//! ## `ExtPlace`
//!
//! A tag, and the window in which it was read.
//!
//! ```text
//! struct ExtPlace<'a> {
//!     pub kind: ExtKind,
//!     pub place: FrameWindow<'a>,
//! }
//! ```
//!
//! Uses: [`ExtKind`](#def.ExtKind), [`FrameWindow`](#def.FrameWindow)
//!
//! <a id="def.ExtPlaces"></a>
//!
//! ## `ExtPlaces`
//!
//! Up to three tags in order. Three fields take fewer instructions than an `ArrayVec`, whose unused places have to be
//! filled.
//!
//! ```text
//! struct ExtPlaces<'a> {
//!     first: Option<ExtPlace<'a>>,
//!     second: Option<ExtPlace<'a>>,
//!     third: Option<ExtPlace<'a>>,
//! }
//! ```
//!
//! Uses: [`ExtPlace`](#def.ExtPlace)
//!
//! <a id="def.LinkKind"></a>
//!
//! ## `LinkKind`
//!
//! The kind of the link's header at the front of a frame, if there is one.
//!
//! ```text
//! enum LinkKind {
//!     Missing,
//!     Ethernet2,
//!     Ethernet2Fcs,
//!     LinuxSll,
//! }
//! ```
//!
//! <a id="def.PacketUnits"></a>
//!
//! ## `PacketUnits`
//!
//! The headers that were read from a frame, each with its window.
//!
//! ```text
//! struct PacketUnits<'a> {
//!     frame: &'a [u8],
//!     link: LinkKind,
//!     exts: ExtPlaces<'a>,
//!     arp: Option<FrameWindow<'a>>,
//! }
//! ```
//!
//! Uses: [`LinkKind`](#def.LinkKind), [`ExtPlaces`](#def.ExtPlaces), [`FrameWindow`](#def.FrameWindow)
//!
//! <a id="def.PacketWalk"></a>
//!
//! ## `PacketWalk`
//!
//! A walk, the headers that it has returned, and the fault if it has ended in one.
//!
//! ```text
//! struct PacketWalk<'a> {
//!     pub peel: Peel<'a>,
//!     pub read: PacketUnits<'a>,
//!     pub fault: Option<PeelFault>,
//! }
//! ```
//!
//! Uses: [`PacketUnits`](#def.PacketUnits)
//!
