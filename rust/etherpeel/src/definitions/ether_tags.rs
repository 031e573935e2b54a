//! Views of Ethernet II frames, VLAN tags and MACsec SecTags.
//!
//! # Ethernet II
//!
//! Ethernet II headers as values of the wire format, and what callers see of a view of a frame.
//!
//! <a id="def.ethernet2_value"></a>
//!
//! ## `ethernet2_value`
//!
//! The addresses are the numbers of their bytes.
//!
//! ```text
//! abbrev pub ethernet2_value : (destination source : List ℕ) (ether_type : ℕ) → Ethernet2Value
//! ethernet2_value destination source ether_type =
//!     record { destination = number destination; source = number source; ether_type = ether_type }
//! ```
//!
//! Uses: [`Ethernet2Value`](crate::definitions::ether_base#def.Ethernet2Value), [`number`](crate::definitions::ether_base#def.number)
//!
//! <a id="def.ethernet2_view"></a>
//!
//! ## `ethernet2_view`
//!
//! ```text
//! abbrev pub ethernet2_view : Ethernet2Header → Ethernet2Value
//! ethernet2_view h = ethernet2_value h.destination h.source h.ether_type.0
//! ```
//!
//! Uses: [`Ethernet2Value`](crate::definitions::ether_base#def.Ethernet2Value), [`ethernet2_value`](#def.ethernet2_value)
//!
//! <a id="def.ethernet2_header_of"></a>
//!
//! ## `ethernet2_header_of`
//!
//! The header in a list of at least fourteen bytes.
//!
//! ```text
//! abbrev pub ethernet2_header_of : List ℕ → Ethernet2Header
//! ethernet2_header_of bytes =
//!     record {
//!       source = slice_range bytes 6 12;
//!       destination = slice_range bytes 0 6;
//!       ether_type = record { 0 = number (slice_range bytes 12 14) };
//!     }
//! ```
//!
//! Uses: [`number`](crate::definitions::ether_base#def.number)
//!
//! <a id="def.Frame"></a>
//!
//! ## `Frame`
//!
//! The frame's bytes as they were handed in, and whether the last four are a frame check sequence.
//!
//! ```text
//! pub record Frame : Type 0 where
//!   pub bytes : List ℕ
//!   pub has_fcs : Bool
//! ```
//!
//! <a id="def.fcs_len"></a>
//!
//! ## `fcs_len`
//!
//! ```text
//! abbrev pub fcs_len : Frame → ℕ
//! fcs_len f = if f.has_fcs then 4 else 0
//! ```
//!
//! Uses: [`Frame`](#def.Frame)
//!
//! <a id="def.payload_of"></a>
//!
//! ## `payload_of`
//!
//! The bytes between the header and the frame check sequence.
//!
//! ```text
//! abbrev pub payload_of : Frame → List ℕ
//! payload_of f = slice_range f.bytes 14 (length f.bytes - fcs_len f)
//! ```
//!
//! Uses: [`Frame`](#def.Frame), [`fcs_len`](#def.fcs_len)
//!
//! <a id="def.fcs_of"></a>
//!
//! ## `fcs_of`
//!
//! The frame check sequence, at the frame's very end.
//!
//! ```text
//! abbrev pub fcs_of : Frame → Option (List ℕ)
//! fcs_of f = if f.has_fcs then Some (slice_range f.bytes (length f.bytes - 4) (length f.bytes)) else None
//! ```
//!
//! Uses: [`Frame`](#def.Frame)
//!
//! # VLAN
//!
//! VLAN tags as values of the wire format, one or two, the outermost first.
//!
//! <a id="def.vlan_view"></a>
//!
//! ## `vlan_view`
//!
//! ```text
//! abbrev pub vlan_view : SingleVlanHeader → VlanValue
//! vlan_view h = record { pcp = h.pcp; dei = bit h.drop_eligible_indicator; vid = h.vlan_id; ether_type = h.ether_type.0 }
//! ```
//!
//! Uses: [`VlanValue`](crate::definitions::ether_base#def.VlanValue), [`bit`](crate::definitions::ether_base#def.bit)
//!
//! <a id="def.header_tags"></a>
//!
//! ## `header_tags`
//!
//! ```text
//! abbrev pub header_tags : VlanHeader → List VlanValue
//! header_tags (Single h) = vlan_view h ∷ []
//! header_tags (Double h) = vlan_view h.outer ∷ vlan_view h.inner ∷ []
//! ```
//!
//! Uses: [`VlanValue`](crate::definitions::ether_base#def.VlanValue), `Single` (`VlanHeader::Single`), [`vlan_view`](#def.vlan_view), `Double` (`VlanHeader::Double`)
//!
//! <a id="def.slice_tags"></a>
//!
//! ## `slice_tags`
//!
//! ```text
//! abbrev pub slice_tags : VlanSlice → List VlanValue
//! slice_tags (SingleVlan s) = vlan_of s ∷ []
//! slice_tags (DoubleVlan s) = vlan_of s.outer ∷ vlan_of s.inner ∷ []
//! ```
//!
//! Uses: [`VlanValue`](crate::definitions::ether_base#def.VlanValue), `SingleVlan` (`VlanSlice::SingleVlan`), [`vlan_of`](crate::definitions::ether_base#def.vlan_of), `DoubleVlan` (`VlanSlice::DoubleVlan`)
//!
//! <a id="def.next_type"></a>
//!
//! ## `next_type`
//!
//! The ether type after the last tag.
//!
//! ```text
//! abbrev pub next_type : VlanHeader → ℕ
//! next_type (Single h) = h.ether_type.0
//! next_type (Double h) = h.inner.ether_type.0
//! ```
//!
//! Uses: `Single` (`VlanHeader::Single`), `Double` (`VlanHeader::Double`)
//!
//! <a id="def.innermost"></a>
//!
//! ## `innermost`
//!
//! The bytes of the last tag and its payload.
//!
//! ```text
//! abbrev pub innermost : VlanSlice → List ℕ
//! innermost (SingleVlan s) = s
//! innermost (DoubleVlan s) = s.inner
//! ```
//!
//! Uses: `SingleVlan` (`VlanSlice::SingleVlan`), `DoubleVlan` (`VlanSlice::DoubleVlan`)
//!
//! # MACsec
//!
//! MACsec SecTags as the values that their bytes mean, and their refusals as rows of the table.
//!
//! <a id="def.payload_type_view"></a>
//!
//! ## `payload_type_view`
//!
//! ```text
//! abbrev pub payload_type_view : MacsecPType → PayloadType
//! payload_type_view (Unmodified ether_type) = payloads.Unmodified ether_type.0
//! payload_type_view Modified = payloads.Modified
//! payload_type_view Encrypted = payloads.Encrypted
//! payload_type_view EncryptedUnmodified = payloads.EncryptedUnmodified
//! ```
//!
//! Uses: [`PayloadType`](crate::definitions::ether_base#def.PayloadType), `Unmodified` (`MacsecPType::Unmodified`), [`payloads.Unmodified`](crate::definitions::ether_base#def.PayloadType), `Modified` (`MacsecPType::Modified`), [`payloads.Modified`](crate::definitions::ether_base#def.PayloadType), `Encrypted` (`MacsecPType::Encrypted`), [`payloads.Encrypted`](crate::definitions::ether_base#def.PayloadType), `EncryptedUnmodified` (`MacsecPType::EncryptedUnmodified`), [`payloads.EncryptedUnmodified`](crate::definitions::ether_base#def.PayloadType)
//!
//! <a id="def.readable_type"></a>
//!
//! ## `readable_type`
//!
//! The ether type that can be read after a tag.
//!
//! ```text
//! abbrev pub readable_type : PayloadType → Option ℕ
//! readable_type (payloads.Unmodified ether_type) = Some ether_type
//! readable_type _ = None
//! ```
//!
//! Uses: [`PayloadType`](crate::definitions::ether_base#def.PayloadType), [`payloads.Unmodified`](crate::definitions::ether_base#def.PayloadType)
//!
//! <a id="def.sec_tag_view"></a>
//!
//! ## `sec_tag_view`
//!
//! A tag as the value of the wire format.
//!
//! ```text
//! abbrev pub sec_tag_view : MacsecHeader → SecTagValue
//! sec_tag_view h = record {
//!   payload_type = payload_type_view h.ptype;
//!   end_station = bit h.endstation_id;
//!   single_copy_broadcast = bit h.scb;
//!   association_number = h.an;
//!   short_len = h.short_len;
//!   packet_number = h.packet_nr;
//!   sci = h.sci;
//! }
//! ```
//!
//! Uses: [`SecTagValue`](crate::definitions::ether_base#def.SecTagValue), [`payload_type_view`](#def.payload_type_view), [`bit`](crate::definitions::ether_base#def.bit)
//!
//! <a id="def.header_front"></a>
//!
//! ## `header_front`
//!
//! The front of its bytes, with version and reserved bits 0.
//!
//! ```text
//! abbrev pub header_front : MacsecHeader → SecTagFront
//! header_front h = sec_tag_front_of 0 0 (sec_tag_view h)
//! ```
//!
//! Uses: [`SecTagFront`](crate::definitions::ether_base#def.SecTagFront), [`sec_tag_front_of`](crate::definitions::ether_base#def.sec_tag_front_of), [`sec_tag_view`](#def.sec_tag_view)
//!
//! <a id="def.number_of"></a>
//!
//! ## `number_of`
//!
//! The number of an ether type, if there is one.
//!
//! ```text
//! abbrev pub number_of : Option EtherType → Option ℕ
//! number_of = option_map (λ ether_type. ether_type.0)
//! ```
//!
//! <a id="def.short_len_for"></a>
//!
//! ## `short_len_for`
//!
//! The short length for a payload of n bytes: n, and 2 for an ether type that can be read; 0 if the sum is above 63.
//!
//! ```text
//! abbrev pub short_len_for : PayloadType → ℕ → ℕ
//! short_len_for (payloads.Unmodified ether_type) n = if nat_lt n 62 then n + 2 else 0
//! short_len_for _ n = if nat_lt n 64 then n else 0
//! ```
//!
//! Uses: [`PayloadType`](crate::definitions::ether_base#def.PayloadType), [`payloads.Unmodified`](crate::definitions::ether_base#def.PayloadType)
//!
//! <a id="def.tag_bytes"></a>
//!
//! ## `tag_bytes`
//!
//! The bytes of a view of a tag, and its front.
//!
//! ```text
//! abbrev pub tag_bytes : MacsecHeaderSlice → List ℕ
//! tag_bytes h = h.slice.now
//! ```
//!
//! <a id="def.tag_front"></a>
//!
//! ## `tag_front`
//!
//! ```text
//! abbrev pub tag_front : MacsecHeaderSlice → SecTagFront
//! tag_front h = sec_tag_front_in (tag_bytes h)
//! ```
//!
//! Uses: [`SecTagFront`](crate::definitions::ether_base#def.SecTagFront), [`sec_tag_front_in`](crate::definitions::ether_base#def.sec_tag_front_in), [`tag_bytes`](#def.tag_bytes)
//!
//! <a id="def.tag_in"></a>
//!
//! ## `tag_in`
//!
//! The tag that a list begins with.
//!
//! ```text
//! abbrev pub tag_in : List ℕ → List ℕ
//! tag_in bytes = slice_range bytes 0 (sec_tag_len (sec_tag_front_in bytes))
//! ```
//!
//! Uses: [`sec_tag_len`](crate::definitions::ether_base#def.sec_tag_len), [`sec_tag_front_in`](crate::definitions::ether_base#def.sec_tag_front_in)
//!
//! <a id="def.IsUnmodified"></a>
//!
//! ## `IsUnmodified`
//!
//! E and C are 0, so that an ether type follows the tag.
//!
//! ```text
//! abbrev pub IsUnmodified : SecTagFront → Type 0
//! IsUnmodified front = (front.encrypted ≡ 0) × (front.changed ≡ 0)
//! ```
//!
//! Uses: [`SecTagFront`](crate::definitions::ether_base#def.SecTagFront)
//!
//! <a id="def.IsRow"></a>
//!
//! ## `IsRow`
//!
//! A row as an error, which counts from the slice's start.
//!
//! ```text
//! abbrev pub IsRow : HeaderSliceError HeaderError → Refusal → Type 0
//! IsRow (Len e) r = (r ≡ Length e.required_len e.len e.len_source e.layer) × (e.layer_start_offset ≡ 0)
//! IsRow (Content contents.UnexpectedVersion) r = r ≡ UnexpectedVersion
//! IsRow (Content contents.InvalidUnmodifiedShortLen) r = r ≡ InvalidShortLen
//! ```
//!
//! Uses: [`Refusal`](crate::definitions::ether_base#def.Refusal), `Len` (`HeaderSliceError::Len`), [`Length`](crate::definitions::ether_base#def.Refusal), `Content` (`HeaderSliceError::Content`), `contents` (`HeaderError`), [`UnexpectedVersion`](crate::definitions::ether_base#def.Refusal), [`InvalidShortLen`](crate::definitions::ether_base#def.Refusal)
//!
//! <a id="def.IsRefusedTag"></a>
//!
//! ## `IsRefusedTag`
//!
//! A slice is refused as a tag, whatever its payload.
//!
//! ```text
//! pub record IsRefusedTag (bytes : List ℕ) (e : HeaderSliceError HeaderError) : Type 0 where
//!   pub refusal : Refusal
//!   pub row : RefusesHeader sources.Slice bytes kinds.Macsec refusal
//!   pub is : IsRow e refusal
//! ```
//!
//! Uses: [`Refusal`](crate::definitions::ether_base#def.Refusal), [`RefusesHeader`](crate::definitions::ether_base#def.RefusesHeader), `sources` (`LenSource`), [`kinds.Macsec`](crate::definitions::ether_base#def.Kind), [`IsRow`](#def.IsRow)
//!
//! <a id="def.IsRefusedPacket"></a>
//!
//! ## `IsRefusedPacket`
//!
//! A slice is refused as a tag with its payload.
//!
//! ```text
//! pub record IsRefusedPacket (bytes : List ℕ) (e : HeaderSliceError HeaderError) : Type 0 where
//!   pub refusal : Refusal
//!   pub row : Refuses sources.Slice bytes kinds.Macsec refusal
//!   pub is : IsRow e refusal
//! ```
//!
//! Uses: [`Refusal`](crate::definitions::ether_base#def.Refusal), [`Refuses`](crate::definitions::ether_base#def.Refuses), `sources` (`LenSource`), [`kinds.Macsec`](crate::definitions::ether_base#def.Kind), [`IsRow`](#def.IsRow)
//!
//! **Payloads**
//!
//! <a id="def.payload_end"></a>
//!
//! ## `payload_end`
//!
//! Where the payload after n bytes of tag ends: after the length that is named, or with the whole slice.
//!
//! ```text
//! abbrev pub payload_end : Option ℕ → ℕ → ℕ → ℕ
//! payload_end None n whole = whole
//! payload_end (Some p) n whole = n + p
//! ```
//!
//! <a id="def.payload_end_after"></a>
//!
//! ## `payload_end_after`
//!
//! The same, by the front of the tag.
//!
//! ```text
//! abbrev pub payload_end_after : SecTagFront → ℕ → ℕ
//! payload_end_after front whole = payload_end (known_payload_len front) (sec_tag_len front) whole
//! ```
//!
//! Uses: [`SecTagFront`](crate::definitions::ether_base#def.SecTagFront), [`payload_end`](#def.payload_end), [`known_payload_len`](crate::definitions::ether_base#def.known_payload_len), [`sec_tag_len`](crate::definitions::ether_base#def.sec_tag_len)
//!
//! <a id="def.payload_source"></a>
//!
//! ## `payload_source`
//!
//! What named the payload's length.
//!
//! ```text
//! abbrev pub payload_source : Option ℕ → LenSource
//! payload_source None = sources.Slice
//! payload_source (Some p) = sources.MacsecShortLength
//! ```
//!
//! Uses: `sources` (`LenSource`)
//!
//! <a id="def.payload_in"></a>
//!
//! ## `payload_in`
//!
//! The payload after the tag with this front that a list begins with.
//!
//! ```text
//! abbrev pub payload_in : SecTagFront → List ℕ → List ℕ
//! payload_in front bytes = slice_range bytes (sec_tag_len front) (payload_end_after front (length bytes))
//! ```
//!
//! Uses: [`SecTagFront`](crate::definitions::ether_base#def.SecTagFront), [`sec_tag_len`](crate::definitions::ether_base#def.sec_tag_len), [`payload_end_after`](#def.payload_end_after)
//!
//! <a id="def.HoldsTyped"></a>
//!
//! ## `HoldsTyped`
//!
//! A payload with its type exactly if E and C are 0.
//!
//! ```text
//! abbrev pub HoldsTyped : MacsecPayloadSlice → Option ℕ → LenSource → List ℕ → Type 0
//! HoldsTyped (kept.Unmodified p) (Some ether_type) source bytes =
//!     (p.ether_type.0 ≡ ether_type) × (p.len_source ≡ source) × (p.payload.now ≡ bytes)
//! HoldsTyped (kept.Modified p) None source bytes = p.now ≡ bytes
//! HoldsTyped _ _ source bytes = ⊥
//! ```
//!
//! Uses: `kept` (`MacsecPayloadSlice`)
//!
//! <a id="def.HoldsPayload"></a>
//!
//! ## `HoldsPayload`
//!
//! ```text
//! abbrev pub HoldsPayload : MacsecPayloadSlice → SecTagFront → List ℕ → Type 0
//! HoldsPayload p front bytes =
//!     HoldsTyped p (readable_type (sec_tag_of bytes).payload_type) (payload_source (known_payload_len front))
//!     (payload_in front bytes)
//! ```
//!
//! Uses: [`SecTagFront`](crate::definitions::ether_base#def.SecTagFront), [`HoldsTyped`](#def.HoldsTyped), [`readable_type`](#def.readable_type), [`sec_tag_of`](crate::definitions::ether_base#def.sec_tag_of), [`payload_source`](#def.payload_source), [`known_payload_len`](crate::definitions::ether_base#def.known_payload_len), [`payload_in`](#def.payload_in)
//!
//! <a id="def.readable_payload"></a>
//!
//! ## `readable_payload`
//!
//! The payload with its type, if it is neither encrypted nor changed.
//!
//! ```text
//! abbrev pub readable_payload : MacsecPayloadSlice → Option EtherPayloadSlice
//! readable_payload (kept.Unmodified p) = Some p
//! readable_payload (kept.Modified p) = None
//! ```
//!
//! Uses: `kept` (`MacsecPayloadSlice`)
//!
//! # Link extension
//!
//! Link extensions by cases: a VLAN tag or a MACsec SecTag.
//!
//! <a id="def.ext_header_view"></a>
//!
//! ## `ext_header_view`
//!
//! The header of the wire format.
//!
//! ```text
//! abbrev pub ext_header_view : LinkExtHeader → Header
//! ext_header_view (values.Vlan h) = headers.Vlan (vlan_view h)
//! ext_header_view (values.Macsec h) = headers.Macsec (sec_tag_view h)
//! ```
//!
//! Uses: [`Header`](crate::definitions::ether_base#def.Header), `values` (`LinkExtHeader`), [`headers.Vlan`](crate::definitions::ether_base#def.Header), [`vlan_view`](#def.vlan_view), [`headers.Macsec`](crate::definitions::ether_base#def.Header), [`sec_tag_view`](#def.sec_tag_view)
//!
//! <a id="def.ext_header_len"></a>
//!
//! ## `ext_header_len`
//!
//! ```text
//! abbrev pub ext_header_len : LinkExtHeader → ℕ
//! ext_header_len h = header_len (ext_header_view h)
//! ```
//!
//! Uses: [`header_len`](crate::definitions::ether_base#def.header_len), [`ext_header_view`](#def.ext_header_view)
//!
//! <a id="def.ext_slice_header"></a>
//!
//! ## `ext_slice_header`
//!
//! The header that a view's bytes mean.
//!
//! ```text
//! abbrev pub ext_slice_header : LinkExtSlice → Header
//! ext_slice_header (Vlan s) = headers.Vlan (vlan_of s)
//! ext_slice_header (Macsec s) = headers.Macsec (sec_tag_of (tag_bytes s.header))
//! ```
//!
//! Uses: [`Header`](crate::definitions::ether_base#def.Header), `Vlan` (`LinkExtSlice::Vlan`), [`headers.Vlan`](crate::definitions::ether_base#def.Header), [`vlan_of`](crate::definitions::ether_base#def.vlan_of), `Macsec` (`LinkExtSlice::Macsec`), [`headers.Macsec`](crate::definitions::ether_base#def.Header), [`sec_tag_of`](crate::definitions::ether_base#def.sec_tag_of), [`tag_bytes`](#def.tag_bytes)
//!
//! <a id="def.ext_slice_len"></a>
//!
//! ## `ext_slice_len`
//!
//! ```text
//! abbrev pub ext_slice_len : LinkExtSlice → ℕ
//! ext_slice_len (Vlan s) = 4
//! ext_slice_len (Macsec s) = length (tag_bytes s.header)
//! ```
//!
//! Uses: `Vlan` (`LinkExtSlice::Vlan`), `Macsec` (`LinkExtSlice::Macsec`), [`tag_bytes`](#def.tag_bytes)
//!
//! <a id="def.HoldsExtPayload"></a>
//!
//! ## `HoldsExtPayload`
//!
//! The payload after a VLAN tag, or that of a SecTag if it can be read.
//!
//! ```text
//! abbrev pub HoldsExtPayload : LinkExtSlice → Option EtherPayloadSlice → Type 0
//! HoldsExtPayload (Vlan s) None = ⊥
//! HoldsExtPayload (Vlan s) (Some p) =
//!     (p.ether_type.0 ≡ (vlan_of s).ether_type) × (p.len_source ≡ sources.Slice)
//!     × (p.payload.now ≡ slice_range s 4 (length s))
//! HoldsExtPayload (Macsec s) answer = answer ≡ readable_payload s.payload
//! ```
//!
//! Uses: `Vlan` (`LinkExtSlice::Vlan`), [`vlan_of`](crate::definitions::ether_base#def.vlan_of), `sources` (`LenSource`), `Macsec` (`LinkExtSlice::Macsec`), [`readable_payload`](#def.readable_payload)
//!
