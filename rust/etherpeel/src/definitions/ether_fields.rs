//! The fields of headers as a table, and the names of numbers.
//!
//! # Rows
//!
//! The table of fields: those of each header in the order of its bits, and what else a packet tells.
//!
//! <a id="def.Row"></a>
//!
//! ## `Row`
//!
//! The name of a field in its section, what its standard calls it, and the standard's abbreviation if there is one; what
//! its value is, and how many bits it has; its number for C and the end of its name there; whether it is a member of
//! objects; and whether it is a column.
//!
//! ```text
//! pub record Row : Type 0 where
//!   pub name : List ℕ
//!   pub title : List ℕ
//!   pub abbreviation : List ℕ
//!   pub kind : Kind
//!   pub extent : Extent
//!   pub number : ℕ
//!   pub symbol : List ℕ
//!   pub is_member : Bool
//!   pub is_column : Bool
//! ```
//!
//! <a id="def.field"></a>
//!
//! ## `field`
//!
//! A field.
//!
//! ```text
//! abbrev pub field : (name title abbreviation : List ℕ) → Kind → Extent → (number : ℕ) → (symbol : List ℕ) → Row
//! field name title abbreviation kind extent number symbol = record {
//!   name = name;
//!   title = title;
//!   abbreviation = abbreviation;
//!   kind = kind;
//!   extent = extent;
//!   number = number;
//!   symbol = symbol;
//!   is_member = true;
//!   is_column = true;
//! }
//! ```
//!
//! Uses: [`Row`](#def.Row)
//!
//! <a id="def.hidden"></a>
//!
//! ## `hidden`
//!
//! > `field`: a field
//!
//! .. that no object or column has.
//!
//! ```text
//! abbrev pub hidden : Row → Row
//! hidden row = record row { is_member = false; is_column = false }
//! ```
//!
//! Uses: [`Row`](#def.Row)
//!
//! <a id="def.column_only"></a>
//!
//! ## `column_only`
//!
//! > `field`: a field
//! >
//! > `hidden`: .. that no object or column has
//!
//! .. that is a column alone.
//!
//! ```text
//! abbrev pub column_only : Row → Row
//! column_only row = record row { is_member = false }
//! ```
//!
//! Uses: [`Row`](#def.Row)
//!
//! <a id="def.computed"></a>
//!
//! ## `computed`
//!
//! A member that has no bits.
//!
//! ```text
//! abbrev pub computed : (name title : List ℕ) → Kind → Row
//! computed name title kind = field name title [] kind Computed 0 []
//! ```
//!
//! Uses: [`Row`](#def.Row), [`field`](#def.field), `Computed` (`Extent::Computed`)
//!
//! **Headers**
//!
//! <a id="def.ethernet2_rows"></a>
//!
//! ## `ethernet2_rows`
//!
//! Ethernet II (IEEE 802.3, 3.2), and the frame check sequence after the payload (3.2.9).
//!
//! ```text
//! abbrev pub ethernet2_rows : List Row
//! ethernet2_rows =
//!     field (codes "dst") (codes "Destination address") [] kind.Bytes (Bits 48) 1 (codes "ETHERNET2_DESTINATION")
//!     ∷ field (codes "src") (codes "Source address") [] kind.Bytes (Bits 48) 2 (codes "ETHERNET2_SOURCE")
//!     ∷ field (codes "type") (codes "EtherType") [] kind.EtherType (Bits 16) 3 (codes "ETHERNET2_ETHER_TYPE")
//!     ∷ field (codes "fcs") (codes "Frame check sequence") (codes "FCS") kind.Bytes CheckSequence 34 (codes "FCS")
//!     ∷ []
//! ```
//!
//! Uses: [`Row`](#def.Row), [`field`](#def.field), `kind` (`Kind`), `Bits` (`Extent::Bits`), `CheckSequence` (`Extent::CheckSequence`)
//!
//! <a id="def.linux_sll_rows"></a>
//!
//! ## `linux_sll_rows`
//!
//! Linux cooked capture v1 (LINKTYPE\_LINUX\_SLL of the tcpdump group).
//!
//! ```text
//! abbrev pub linux_sll_rows : List Row
//! linux_sll_rows =
//!     field (codes "packet_type") (codes "Packet type") [] kind.PacketType (Bits 16) 4 (codes "LINUX_SLL_PACKET_TYPE")
//!     ∷ field (codes "hw_type") (codes "ARPHRD type") [] kind.HardwareType (Bits 16) 5 (codes "LINUX_SLL_HARDWARE_TYPE")
//!     ∷ field (codes "addr_len") (codes "Address length") [] kind.Number (Bits 16) 6 (codes "LINUX_SLL_ADDRESS_LEN")
//!     ∷ field (codes "addr") (codes "Address") [] kind.Bytes (Bits 64) 7 (codes "LINUX_SLL_ADDRESS")
//!     ∷ field (codes "protocol") (codes "Protocol") [] kind.EtherType (Bits 16) 8 (codes "LINUX_SLL_PROTOCOL")
//!     ∷ []
//! ```
//!
//! Uses: [`Row`](#def.Row), [`field`](#def.field), `kind` (`Kind`), `Bits` (`Extent::Bits`)
//!
//! <a id="def.linux_sll2_rows"></a>
//!
//! ## `linux_sll2_rows`
//!
//! Linux cooked capture v2 (LINKTYPE\_LINUX\_SLL2).
//!
//! ```text
//! abbrev pub linux_sll2_rows : List Row
//! linux_sll2_rows =
//!     field (codes "protocol") (codes "Protocol type") [] kind.EtherType (Bits 16) 35 (codes "LINUX_SLL2_PROTOCOL")
//!     ∷ hidden
//!     (field (codes "reserved") (codes "Reserved") [] kind.Number (Bits 16) 36 (codes "LINUX_SLL2_RESERVED"))
//!     ∷ field (codes "if_index") (codes "Interface index") [] kind.Number (Bits 32) 37
//!     (codes "LINUX_SLL2_INTERFACE_INDEX")
//!     ∷ field (codes "hw_type") (codes "ARPHRD type") [] kind.HardwareType (Bits 16) 38
//!     (codes "LINUX_SLL2_HARDWARE_TYPE")
//!     ∷ field (codes "packet_type") (codes "Packet type") [] kind.PacketType (Bits 8) 39 (codes "LINUX_SLL2_PACKET_TYPE")
//!     ∷ field (codes "addr_len") (codes "Address length") [] kind.Number (Bits 8) 40 (codes "LINUX_SLL2_ADDRESS_LEN")
//!     ∷ field (codes "addr") (codes "Address") [] kind.Bytes (Bits 64) 41 (codes "LINUX_SLL2_ADDRESS")
//!     ∷ []
//! ```
//!
//! Uses: [`Row`](#def.Row), [`field`](#def.field), `kind` (`Kind`), `Bits` (`Extent::Bits`), [`hidden`](#def.hidden)
//!
//! <a id="def.vlan_rows"></a>
//!
//! ## `vlan_rows`
//!
//! A VLAN tag: its control information (IEEE 802.1Q, 9.6), and the ether type after it.
//!
//! ```text
//! abbrev pub vlan_rows : List Row
//! vlan_rows =
//!     field (codes "pcp") (codes "Priority code point") (codes "PCP") kind.Number (Bits 3) 9 (codes "VLAN_PCP")
//!     ∷ field (codes "dei") (codes "Drop eligible indicator") (codes "DEI") kind.Flag (Bits 1) 10 (codes "VLAN_DEI")
//!     ∷ field (codes "vid") (codes "VLAN identifier") (codes "VID") kind.Number (Bits 12) 11 (codes "VLAN_VID")
//!     ∷ field (codes "type") (codes "EtherType") [] kind.EtherType (Bits 16) 12 (codes "VLAN_ETHER_TYPE")
//!     ∷ []
//! ```
//!
//! Uses: [`Row`](#def.Row), [`field`](#def.field), `kind` (`Kind`), `Bits` (`Extent::Bits`)
//!
//! <a id="def.macsec_rows"></a>
//!
//! ## `macsec_rows`
//!
//! The SecTag of MACsec (IEEE 802.1AE, 9.3 to 9.9), and the ether type after it; `payload` says whether that was changed
//! or encrypted (9.5).
//!
//! ```text
//! abbrev pub macsec_rows : List Row
//! macsec_rows =
//!     computed (codes "payload") (codes "Payload") kind.Word
//!     ∷ hidden (field (codes "v") (codes "Version") (codes "V") kind.Number (Bits 1) 13 (codes "MACSEC_V"))
//!     ∷ field (codes "es") (codes "End station") (codes "ES") kind.Flag (Bits 1) 14 (codes "MACSEC_ES")
//!     ∷ hidden (field (codes "sc") (codes "Secure channel") (codes "SC") kind.Flag (Bits 1) 15 (codes "MACSEC_SC"))
//!     ∷ field (codes "scb") (codes "Single copy broadcast") (codes "SCB") kind.Flag (Bits 1) 16 (codes "MACSEC_SCB")
//!     ∷ field (codes "e") (codes "Encryption") (codes "E") kind.Flag (Bits 1) 17 (codes "MACSEC_E")
//!     ∷ field (codes "c") (codes "Changed text") (codes "C") kind.Flag (Bits 1) 18 (codes "MACSEC_C")
//!     ∷ field (codes "an") (codes "Association number") (codes "AN") kind.Number (Bits 2) 19 (codes "MACSEC_AN")
//!     ∷ hidden (field (codes "reserved") (codes "Reserved") [] kind.Number (Bits 2) 20 (codes "MACSEC_RESERVED"))
//!     ∷ field (codes "sl") (codes "Short length") (codes "SL") kind.Number (Bits 6) 21 (codes "MACSEC_SL")
//!     ∷ field (codes "pn") (codes "Packet number") (codes "PN") kind.Number (Bits 32) 22 (codes "MACSEC_PN")
//!     ∷ field (codes "sci") (codes "Secure channel identifier") (codes "SCI") kind.Bytes SecureChannel 23
//!     (codes "MACSEC_SCI")
//!     ∷ field (codes "type") (codes "EtherType") [] kind.EtherType PayloadType 24 (codes "MACSEC_ETHER_TYPE")
//!     ∷ []
//! ```
//!
//! Uses: [`Row`](#def.Row), [`computed`](#def.computed), `kind` (`Kind`), [`hidden`](#def.hidden), [`field`](#def.field), `Bits` (`Extent::Bits`), `SecureChannel` (`Extent::SecureChannel`), `PayloadType` (`Extent::PayloadType`)
//!
//! <a id="def.arp_rows"></a>
//!
//! ## `arp_rows`
//!
//! An ARP packet (RFC 826, "Packet format").
//!
//! ```text
//! abbrev pub arp_rows : List Row
//! arp_rows =
//!     field (codes "hrd") (codes "Hardware type") (codes "ar$hrd") kind.HardwareType (Bits 16) 25
//!     (codes "ARP_HARDWARE_TYPE")
//!     ∷ field (codes "pro") (codes "Protocol type") (codes "ar$pro") kind.EtherType (Bits 16) 26
//!     (codes "ARP_PROTOCOL_TYPE")
//!     ∷ field (codes "hln") (codes "Hardware address length") (codes "ar$hln") kind.Number (Bits 8) 27
//!     (codes "ARP_HARDWARE_SIZE")
//!     ∷ field (codes "pln") (codes "Protocol address length") (codes "ar$pln") kind.Number (Bits 8) 28
//!     (codes "ARP_PROTOCOL_SIZE")
//!     ∷ field (codes "op") (codes "Operation") (codes "ar$op") kind.Operation (Bits 16) 29 (codes "ARP_OPERATION")
//!     ∷ field (codes "sha") (codes "Sender hardware address") (codes "ar$sha") kind.Bytes HardwareAddress 30
//!     (codes "ARP_SENDER_HARDWARE")
//!     ∷ field (codes "spa") (codes "Sender protocol address") (codes "ar$spa") kind.ProtocolAddress ProtocolAddress 31
//!     (codes "ARP_SENDER_PROTOCOL")
//!     ∷ field (codes "tha") (codes "Target hardware address") (codes "ar$tha") kind.Bytes HardwareAddress 32
//!     (codes "ARP_TARGET_HARDWARE")
//!     ∷ field (codes "tpa") (codes "Target protocol address") (codes "ar$tpa") kind.ProtocolAddress ProtocolAddress 33
//!     (codes "ARP_TARGET_PROTOCOL")
//!     ∷ []
//! ```
//!
//! Uses: [`Row`](#def.Row), [`field`](#def.field), `kind` (`Kind`), `Bits` (`Extent::Bits`), `HardwareAddress` (`Extent::HardwareAddress`), `ProtocolAddress` (`Extent::ProtocolAddress`)
//!
//! **What else a packet tells**
//!
//! <a id="def.frame_rows"></a>
//!
//! ## `frame_rows`
//!
//! The packet itself (pcapng, 4.3), and the minute, the hour and the day of its time.
//!
//! ```text
//! abbrev pub frame_rows : List Row
//! frame_rows =
//!     computed (codes "number") (codes "Number") kind.Number
//!     ∷ computed (codes "time") (codes "Time") kind.Time
//!     ∷ computed (codes "link") (codes "Link type") kind.LinkType
//!     ∷ computed (codes "captured") (codes "Captured length") kind.Number
//!     ∷ computed (codes "original") (codes "Original length") kind.Number
//!     ∷ computed (codes "interface") (codes "Interface ID") kind.Number
//!     ∷ computed (codes "direction") (codes "Direction") kind.Word
//!     ∷ computed (codes "comment") (codes "Comment") kind.Bytes
//!     ∷ computed (codes "file") (codes "File") kind.Bytes
//!     ∷ column_only (computed (codes "minute") (codes "Minute") kind.Time)
//!     ∷ column_only (computed (codes "hour") (codes "Hour") kind.Time)
//!     ∷ column_only (computed (codes "day") (codes "Day") kind.Time)
//!     ∷ []
//! ```
//!
//! Uses: [`Row`](#def.Row), [`computed`](#def.computed), `kind` (`Kind`), [`column_only`](#def.column_only)
//!
//! <a id="def.place_rows"></a>
//!
//! ## `place_rows`
//!
//! Each header: its name and its place.
//!
//! ```text
//! abbrev pub place_rows : List Row
//! place_rows =
//!     computed (codes "header") (codes "Header") kind.Word
//!     ∷ computed (codes "start") (codes "Start of the header") kind.Number
//!     ∷ computed (codes "end") (codes "End of the header") kind.Number
//!     ∷ computed (codes "payload_end") (codes "End of the payload") kind.Number
//!     ∷ computed (codes "closed") (codes "Closed") kind.Truth
//!     ∷ []
//! ```
//!
//! Uses: [`Row`](#def.Row), [`computed`](#def.computed), `kind` (`Kind`)
//!
//! <a id="def.rest_rows"></a>
//!
//! ## `rest_rows`
//!
//! What is left after the headers.
//!
//! ```text
//! abbrev pub rest_rows : List Row
//! rest_rows =
//!     computed (codes "start") (codes "Start") kind.Number
//!     ∷ computed (codes "end") (codes "End") kind.Number
//!     ∷ computed (codes "kind") (codes "Kind") kind.Word
//!     ∷ computed (codes "type") (codes "Type") kind.EtherType
//!     ∷ []
//! ```
//!
//! Uses: [`Row`](#def.Row), [`computed`](#def.computed), `kind` (`Kind`)
//!
//! <a id="def.fault_rows"></a>
//!
//! ## `fault_rows`
//!
//! What is wrong with the first header that is refused.
//!
//! ```text
//! abbrev pub fault_rows : List Row
//! fault_rows =
//!     computed (codes "start") (codes "Start") kind.Number
//!     ∷ computed (codes "closed") (codes "Closed") kind.Truth
//!     ∷ computed (codes "kind") (codes "Kind") kind.Word
//!     ∷ computed (codes "required") (codes "Required length") kind.Number
//!     ∷ computed (codes "available") (codes "Available length") kind.Number
//!     ∷ computed (codes "source") (codes "Source of the length") kind.Word
//!     ∷ computed (codes "value") (codes "Value") kind.Number
//!     ∷ []
//! ```
//!
//! Uses: [`Row`](#def.Row), [`computed`](#def.computed), `kind` (`Kind`)
//!
//! # Fields
//!
//! The rows of each section, and fields as they are declared.
//!
//! <a id="def.section_name"></a>
//!
//! ## `section_name`
//!
//! ```text
//! abbrev pub section_name : Section → List ℕ
//! section_name Frame = codes "frame"
//! section_name Eth = codes "eth"
//! section_name Sll = codes "sll"
//! section_name Sll2 = codes "sll2"
//! section_name Vlan = codes "vlan"
//! section_name Macsec = codes "macsec"
//! section_name Arp = codes "arp"
//! section_name Headers = codes "headers"
//! section_name Rest = codes "rest"
//! section_name Fault = codes "fault"
//! ```
//!
//! Uses: `Frame` (`Section::Frame`), `Eth` (`Section::Eth`), `Sll` (`Section::Sll`), `Sll2` (`Section::Sll2`), `Vlan` (`Section::Vlan`), `Macsec` (`Section::Macsec`), `Arp` (`Section::Arp`), `Headers` (`Section::Headers`), `Rest` (`Section::Rest`), `Fault` (`Section::Fault`)
//!
//! <a id="def.section_rows"></a>
//!
//! ## `section_rows`
//!
//! The rows of a section; those of a header are after its name and its place.
//!
//! ```text
//! abbrev pub section_rows : Section → List Row
//! section_rows Frame = frame_rows
//! section_rows Eth = place_rows ++ ethernet2_rows
//! section_rows Sll = place_rows ++ linux_sll_rows
//! section_rows Sll2 = place_rows ++ linux_sll2_rows
//! section_rows Vlan = place_rows ++ vlan_rows
//! section_rows Macsec = place_rows ++ macsec_rows
//! section_rows Arp = place_rows ++ arp_rows
//! section_rows Headers = place_rows
//! section_rows Rest = rest_rows
//! section_rows Fault = fault_rows
//! ```
//!
//! Uses: [`Row`](#def.Row), `Frame` (`Section::Frame`), [`frame_rows`](#def.frame_rows), `Eth` (`Section::Eth`), [`place_rows`](#def.place_rows), [`ethernet2_rows`](#def.ethernet2_rows), `Sll` (`Section::Sll`), [`linux_sll_rows`](#def.linux_sll_rows), `Sll2` (`Section::Sll2`), [`linux_sll2_rows`](#def.linux_sll2_rows), `Vlan` (`Section::Vlan`), [`vlan_rows`](#def.vlan_rows), `Macsec` (`Section::Macsec`), [`macsec_rows`](#def.macsec_rows), `Arp` (`Section::Arp`), [`arp_rows`](#def.arp_rows), `Headers` (`Section::Headers`), `Rest` (`Section::Rest`), [`rest_rows`](#def.rest_rows), `Fault` (`Section::Fault`), [`fault_rows`](#def.fault_rows)
//!
//! <a id="def.column_name"></a>
//!
//! ## `column_name`
//!
//! The name of a field as a column.
//!
//! ```text
//! abbrev pub column_name : Section → Row → List ℕ
//! column_name s r = section_name s ++ (codes "." ++ r.name)
//! ```
//!
//! Uses: [`Row`](#def.Row), [`section_name`](#def.section_name)
//!
//! <a id="def.column_names"></a>
//!
//! ## `column_names`
//!
//! > `member_names`: the names of those that objects have
//!
//! .. and of those that are columns.
//!
//! ```text
//! abbrev pub column_names : List Row → List (List ℕ)
//! column_names [] = []
//! column_names (r ∷ rs) = if r.is_column then r.name ∷ column_names rs else column_names rs
//! ```
//!
//! Uses: [`Row`](#def.Row)
//!
//! **Fields by number**
//!
//! <a id="def.sections"></a>
//!
//! ## `sections`
//!
//! ```text
//! abbrev pub sections : List Section
//! sections = Frame ∷ Eth ∷ Sll ∷ Sll2 ∷ Vlan ∷ Macsec ∷ Arp ∷ Headers ∷ Rest ∷ Fault ∷ []
//! ```
//!
//! Uses: `Frame` (`Section::Frame`), `Eth` (`Section::Eth`), `Sll` (`Section::Sll`), `Sll2` (`Section::Sll2`), `Vlan` (`Section::Vlan`), `Macsec` (`Section::Macsec`), `Arp` (`Section::Arp`), `Headers` (`Section::Headers`), `Rest` (`Section::Rest`), `Fault` (`Section::Fault`)
//!
//! <a id="def.row_numbered"></a>
//!
//! ## `row_numbered`
//!
//! The row with this number.
//!
//! ```text
//! abbrev pub row_numbered : ℕ → List Row → Option Row
//! row_numbered number rows = find (λ r. nat_eq r.number number) rows
//! ```
//!
//! Uses: [`Row`](#def.Row)
//!
//! <a id="def.numbered_among"></a>
//!
//! ## `numbered_among`
//!
//! > `row_numbered`: the row with this number
//!
//! .. in one of these sections, with that section.
//!
//! ```text
//! abbrev pub numbered_among : ℕ → List Section → Option (Section × Row)
//! numbered_among number [] = None
//! numbered_among number (s ∷ ss) =
//!     option_or (option_map (λ r. (s, r)) (row_numbered number (section_rows s))) (numbered_among number ss)
//! ```
//!
//! Uses: [`Row`](#def.Row), [`row_numbered`](#def.row_numbered), [`section_rows`](#def.section_rows)
//!
//! <a id="def.field_numbered"></a>
//!
//! ## `field_numbered`
//!
//! The section and the row with this number; 0 is that of fields that have no bits.
//!
//! ```text
//! unfoldable pub field_numbered : ℕ → Option (Section × Row)
//! field_numbered number = if nat_eq number 0 then None else numbered_among number sections
//! ```
//!
//! Uses: [`Row`](#def.Row), [`numbered_among`](#def.numbered_among), [`sections`](#def.sections)
//!
//! **As they are declared**
//!
//! <a id="def.field_view"></a>
//!
//! ## `field_view`
//!
//! ```text
//! abbrev pub field_view : Field → Row
//! field_view f = record {
//!   name = f.name.now;
//!   title = f.title.now;
//!   abbreviation = f.abbreviation.now;
//!   kind = f.kind;
//!   extent = f.extent;
//!   number = f.number;
//!   symbol = f.symbol.now;
//!   is_member = f.is_member;
//!   is_column = f.is_column;
//! }
//! ```
//!
//! Uses: [`Row`](#def.Row)
//!
//! <a id="def.key_after"></a>
//!
//! ## `key_after`
//!
//! A name in an object (RFC 8259, 4), after what precedes it.
//!
//! ```text
//! abbrev pub key_after : (before : List ℕ) → Row → List ℕ
//! key_after before r = before ++ (codes "\"" ++ (r.name ++ codes "\":"))
//! ```
//!
//! Uses: [`Row`](#def.Row)
//!
//! <a id="def.keys_of"></a>
//!
//! ## `keys_of`
//!
//! The first after a brace, each other after a comma.
//!
//! ```text
//! abbrev pub keys_of : List Row → List (List ℕ)
//! keys_of [] = []
//! keys_of (r ∷ rs) = key_after (codes "{") r ∷ map (key_after (codes ",")) rs
//! ```
//!
//! Uses: [`Row`](#def.Row), [`key_after`](#def.key_after)
//!
//! # Names
//!
//! The names of numbers, for each kind of field that has names. `python3 fields.py` writes them in Rust.
//!
//! <a id="def.ether_type_names"></a>
//!
//! ## `ether_type_names`
//!
//! Ether types, by their protocols (the EtherType registry of the IEEE).
//!
//! ```text
//! abbrev pub ether_type_names : List (ℕ × List ℕ)
//! ether_type_names =
//!     (0x0800, codes "IPv4")
//!     ∷ (0x0806, codes "ARP")
//!     ∷ (0x0842, codes "Wake-on-LAN")
//!     ∷ (0x8035, codes "RARP")
//!     ∷ (0x8100, codes "VLAN tag")
//!     ∷ (0x86DD, codes "IPv6")
//!     ∷ (0x8808, codes "flow control")
//!     ∷ (0x8809, codes "slow protocols")
//!     ∷ (0x8847, codes "MPLS")
//!     ∷ (0x8848, codes "MPLS, multicast")
//!     ∷ (0x8863, codes "PPPoE discovery")
//!     ∷ (0x8864, codes "PPPoE")
//!     ∷ (0x888E, codes "EAPOL")
//!     ∷ (0x88A8, codes "service VLAN tag")
//!     ∷ (0x88CC, codes "LLDP")
//!     ∷ (0x88E5, codes "MACsec")
//!     ∷ (0x88F7, codes "PTP")
//!     ∷ (0x8906, codes "FCoE")
//!     ∷ (0x892F, codes "HSR")
//!     ∷ (0x9100, codes "VLAN tag")
//!     ∷ []
//! ```
//!
//! <a id="def.hardware_type_names"></a>
//!
//! ## `hardware_type_names`
//!
//! Hardware types (the ARP Parameters of IANA); from 512 on those that Linux adds (ARPHRD\_).
//!
//! ```text
//! abbrev pub hardware_type_names : List (ℕ × List ℕ)
//! hardware_type_names =
//!     (1, codes "Ethernet")
//!     ∷ (512, codes "PPP")
//!     ∷ (768, codes "IP tunnel")
//!     ∷ (772, codes "loopback")
//!     ∷ (776, codes "IPv6 in IPv4")
//!     ∷ (778, codes "GRE over IP")
//!     ∷ (801, codes "IEEE 802.11")
//!     ∷ (803, codes "IEEE 802.11 with radiotap")
//!     ∷ (824, codes "netlink")
//!     ∷ []
//! ```
//!
//! <a id="def.packet_type_names"></a>
//!
//! ## `packet_type_names`
//!
//! Packet types of cooked captures (LINKTYPE\_LINUX\_SLL of the tcpdump group).
//!
//! ```text
//! abbrev pub packet_type_names : List (ℕ × List ℕ)
//! packet_type_names =
//!     (0, codes "to us")
//!     ∷ (1, codes "broadcast")
//!     ∷ (2, codes "multicast")
//!     ∷ (3, codes "to someone else")
//!     ∷ (4, codes "sent by us")
//!     ∷ []
//! ```
//!
//! <a id="def.operation_names"></a>
//!
//! ## `operation_names`
//!
//! Operations of ARP (RFC 826, "Definitions": ares\_op$REQUEST, ares\_op$REPLY).
//!
//! ```text
//! abbrev pub operation_names : List (ℕ × List ℕ)
//! operation_names =
//!     (1, codes "request")
//!     ∷ (2, codes "reply")
//!     ∷ []
//! ```
//!
//! <a id="def.link_type_names"></a>
//!
//! ## `link_type_names`
//!
//! Link types of captures (the LINKTYPE\_ values of the tcpdump group).
//!
//! ```text
//! abbrev pub link_type_names : List (ℕ × List ℕ)
//! link_type_names =
//!     (1, codes "Ethernet")
//!     ∷ (113, codes "Linux cooked capture v1")
//!     ∷ (276, codes "Linux cooked capture v2")
//!     ∷ []
//! ```
//!
//! <a id="def.names_of"></a>
//!
//! ## `names_of`
//!
//! The numbers of a kind of field that have names, with these.
//!
//! ```text
//! abbrev pub names_of : Kind → List (ℕ × List ℕ)
//! names_of EtherType = ether_type_names
//! names_of HardwareType = hardware_type_names
//! names_of PacketType = packet_type_names
//! names_of Operation = operation_names
//! names_of LinkType = link_type_names
//! names_of _ = []
//! ```
//!
//! Uses: `EtherType` (`Kind::EtherType`), [`ether_type_names`](#def.ether_type_names), `HardwareType` (`Kind::HardwareType`), [`hardware_type_names`](#def.hardware_type_names), `PacketType` (`Kind::PacketType`), [`packet_type_names`](#def.packet_type_names), `Operation` (`Kind::Operation`), [`operation_names`](#def.operation_names), `LinkType` (`Kind::LinkType`), [`link_type_names`](#def.link_type_names)
//!
//! # Places
//!
//! Where the fields of a header are in its bits, and those of what follows its payload.
//!
//! <a id="def.bits_of"></a>
//!
//! ## `bits_of`
//!
//! How many bits a field has in a header or after its payload, if it is there.
//!
//! ```text
//! abbrev pub bits_of : Part → Extent → Option ℕ
//! bits_of (Header sizes) (Bits n) = Some n
//! bits_of (Header sizes) HardwareAddress = Some sizes.hardware
//! bits_of (Header sizes) ProtocolAddress = Some sizes.protocol
//! bits_of (Header sizes) SecureChannel = if sizes.has_sci then Some 64 else None
//! bits_of (Header sizes) PayloadType = if sizes.has_payload_type then Some 16 else None
//! bits_of Trailer CheckSequence = Some 32
//! bits_of part extent = None
//! ```
//!
//! Uses: `Header` (`Part::Header`), `Bits` (`Extent::Bits`), `HardwareAddress` (`Extent::HardwareAddress`), `ProtocolAddress` (`Extent::ProtocolAddress`), `SecureChannel` (`Extent::SecureChannel`), `PayloadType` (`Extent::PayloadType`), `Trailer` (`Part::Trailer`), `CheckSequence` (`Extent::CheckSequence`)
//!
//! <a id="def.place_if"></a>
//!
//! ## `place_if`
//!
//! ```text
//! abbrev pub place_if : (number first : ℕ) → Option ℕ → List FieldPlace
//! place_if number first None = []
//! place_if number first (Some len) = record { number = number; first = first; len = len } ∷ []
//! ```
//!
//! <a id="def.placed"></a>
//!
//! ## `placed`
//!
//! The places of fields: each begins where the one before it ends.
//!
//! ```text
//! abbrev pub placed : Part → (first : ℕ) → List Row → List FieldPlace
//! placed part first [] = []
//! placed part first (r ∷ rs) =
//!     place_if r.number first (bits_of part r.extent)
//!     ++ placed part (first + unwrap_or (bits_of part r.extent) 0) rs
//! ```
//!
//! Uses: [`Row`](#def.Row), [`place_if`](#def.place_if), [`bits_of`](#def.bits_of)
//!
//! # Units
//!
//! The fields of a header of the wire grammar.
//!
//! <a id="def.header_section"></a>
//!
//! ## `header_section`
//!
//! ```text
//! abbrev pub header_section : Header → Section
//! header_section (headers.Ethernet2 e) = sections.Eth
//! header_section (headers.Ethernet2Fcs e) = sections.Eth
//! header_section (headers.LinuxSll s) = sections.Sll
//! header_section (headers.Vlan v) = sections.Vlan
//! header_section (headers.Macsec t) = sections.Macsec
//! header_section (headers.Arp a) = sections.Arp
//! ```
//!
//! Uses: [`Header`](crate::definitions::ether_base#def.Header), [`headers.Ethernet2`](crate::definitions::ether_base#def.Header), `sections` (`Section`), [`headers.Ethernet2Fcs`](crate::definitions::ether_base#def.Header), [`headers.LinuxSll`](crate::definitions::ether_base#def.Header), [`headers.Vlan`](crate::definitions::ether_base#def.Header), [`headers.Macsec`](crate::definitions::ether_base#def.Header), [`headers.Arp`](crate::definitions::ether_base#def.Header)
//!
//! <a id="def.is_unmodified"></a>
//!
//! ## `is_unmodified`
//!
//! The ether type after a SecTag can be read.
//!
//! ```text
//! abbrev pub is_unmodified : PayloadType → Bool
//! is_unmodified (Unmodified ether_type) = true
//! is_unmodified _ = false
//! ```
//!
//! Uses: [`PayloadType`](crate::definitions::ether_base#def.PayloadType), [`Unmodified`](crate::definitions::ether_base#def.PayloadType)
//!
//! <a id="def.no_sizes"></a>
//!
//! ## `no_sizes`
//!
//! ```text
//! abbrev pub no_sizes : Sizes
//! no_sizes = record { hardware = 0; protocol = 0; has_sci = false; has_payload_type = false }
//! ```
//!
//! <a id="def.header_sizes"></a>
//!
//! ## `header_sizes`
//!
//! ```text
//! abbrev pub header_sizes : Header → Sizes
//! header_sizes (headers.Macsec t) =
//!     record no_sizes { has_sci = is_some t.sci; has_payload_type = is_unmodified t.payload_type }
//! header_sizes (headers.Arp a) =
//!     record no_sizes { hardware = 8 * length a.sender_hardware; protocol = 8 * length a.sender_protocol }
//! header_sizes _ = no_sizes
//! ```
//!
//! Uses: [`Header`](crate::definitions::ether_base#def.Header), [`headers.Macsec`](crate::definitions::ether_base#def.Header), [`no_sizes`](#def.no_sizes), [`is_unmodified`](#def.is_unmodified), [`headers.Arp`](crate::definitions::ether_base#def.Header)
//!
