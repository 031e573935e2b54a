//! Capture files of the classic pcap format and of pcapng.
//!
//! # Numbers
//!
//! Numbers in a capture file.
//!
//! <a id="def.Order"></a>
//!
//! ## `Order`
//!
//! The order of the bytes of each number, that of the machine that wrote the file: the most significant byte first, or
//! last.
//!
//! ```text
//! pub data Order : Type 0 where
//!   BigEndian : Order
//!   LittleEndian : Order
//! ```
//!
//! <a id="def.number_from_low"></a>
//!
//! ## `number_from_low`
//!
//! The number of bytes that begin with the least significant one.
//!
//! ```text
//! abbrev pub number_from_low : List ℕ → ℕ
//! number_from_low [] = 0
//! number_from_low (b ∷ bytes) = b + 256 * number_from_low bytes
//! ```
//!
//! <a id="def.number_in"></a>
//!
//! ## `number_in`
//!
//! ```text
//! abbrev pub number_in : Order → List ℕ → ℕ
//! number_in BigEndian bytes = number bytes
//! number_in LittleEndian bytes = number_from_low bytes
//! ```
//!
//! Uses: [`Order`](#def.Order), [`BigEndian`](#def.Order), [`number`](crate::definitions::ether_base#def.number), [`LittleEndian`](#def.Order), [`number_from_low`](#def.number_from_low)
//!
//! <a id="def.field"></a>
//!
//! ## `field`
//!
//! The number in the bytes from the first offset up to the second.
//!
//! ```text
//! abbrev pub field : Order → List ℕ → ℕ → ℕ → ℕ
//! field order bytes start end = number_in order (slice_range bytes start end)
//! ```
//!
//! Uses: [`Order`](#def.Order), [`number_in`](#def.number_in)
//!
//! # File header
//!
//! The header of a classic capture file of libpcap (pcap-savefile(5); draft-ietf-opsawg-pcap, section 4).
//!
//! <a id="def.Resolution"></a>
//!
//! ## `Resolution`
//!
//! The unit of the second number of a time.
//!
//! ```text
//! pub data Resolution : Type 0 where
//!   Microseconds : Resolution
//!   Nanoseconds : Resolution
//! ```
//!
//! <a id="def.magic_of"></a>
//!
//! ## `magic_of`
//!
//! The magic number.
//!
//! ```text
//! abbrev pub magic_of : Resolution → ℕ
//! magic_of Microseconds = 0xA1B2C3D4
//! magic_of Nanoseconds = 0xA1B23C4D
//! ```
//!
//! Uses: [`Resolution`](#def.Resolution), [`Microseconds`](#def.Resolution), [`Nanoseconds`](#def.Resolution)
//!
//! <a id="def.fcs_len_of"></a>
//!
//! ## `fcs_len_of`
//!
//! The length in bytes of the frame check sequence at the end of each packet, from the last number of the header. Bit
//! 26 (P; the least significant bit is bit 0) says that the length is given, and bits 28 to 31 count pairs of bytes.
//!
//! ```text
//! abbrev pub fcs_len_of : ℕ → Option ℕ
//! fcs_len_of word = if nat_eq (word / 2 ^ 26 % 2) 1 then Some (2 * (word / 2 ^ 28)) else None
//! ```
//!
//! <a id="def.FileHeaderValue"></a>
//!
//! ## `FileHeaderValue`
//!
//! ```text
//! pub record FileHeaderValue : Type 0 where
//!   pub order : Order
//!   pub resolution : Resolution
//!   pub snap_len : ℕ
//!   pub link_type : ℕ
//!   pub fcs_len : Option ℕ
//! ```
//!
//! Uses: [`Order`](#def.Order), [`Resolution`](#def.Resolution)
//!
//! <a id="def.HasMagic"></a>
//!
//! ## `HasMagic`
//!
//! The first four bytes are, in this order, the magic number of this resolution.
//!
//! ```text
//! abbrev pub HasMagic : List ℕ → Order → Resolution → Type 0
//! HasMagic bytes order resolution = field order bytes 0 4 ≡ magic_of resolution
//! ```
//!
//! Uses: [`Order`](#def.Order), [`Resolution`](#def.Resolution), [`field`](#def.field), [`magic_of`](#def.magic_of)
//!
//! <a id="def.IsFileHeader"></a>
//!
//! ## `IsFileHeader`
//!
//! Magic number 4 bytes, version 2.4 in 2 bytes each, 8 bytes that are not read, snap length 4 bytes, and 4 bytes whose
//! lower half is the link type.
//!
//! ```text
//! pub record IsFileHeader (bytes : List ℕ) (h : FileHeaderValue) : Type 0 where
//!   pub len : 24 ≤ length bytes
//!   pub magic : HasMagic bytes h.order h.resolution
//!   pub major : field h.order bytes 4 6 ≡ 2
//!   pub minor : field h.order bytes 6 8 ≡ 4
//!   pub snap_len : field h.order bytes 16 20 ≡ h.snap_len
//!   pub link_type : field h.order bytes 20 24 % 2 ^ 16 ≡ h.link_type
//!   pub fcs_len : fcs_len_of (field h.order bytes 20 24) ≡ h.fcs_len
//! ```
//!
//! Uses: [`FileHeaderValue`](#def.FileHeaderValue), [`HasMagic`](#def.HasMagic), [`field`](#def.field), [`fcs_len_of`](#def.fcs_len_of)
//!
//! <a id="def.FileRefusal"></a>
//!
//! ## `FileRefusal`
//!
//! Too few bytes: the required and the available number; another magic number, as a big-endian number; another version.
//!
//! ```text
//! pub data FileRefusal : Type 0 where
//!   Short : (required len : ℕ) → FileRefusal
//!   Magic : ℕ → FileRefusal
//!   Version : (major minor : ℕ) → FileRefusal
//! ```
//!
//! <a id="def.RefusesFile"></a>
//!
//! ## `RefusesFile`
//!
//! ```text
//! pub data RefusesFile (bytes : List ℕ) : FileRefusal → Type 0 where
//!   short : length bytes < 24 → RefusesFile bytes (Short 24 (length bytes))
//!   magic : 24 ≤ length bytes → ((order : Order) (resolution : Resolution) → HasMagic bytes order resolution → ⊥)
//!       → RefusesFile bytes (Magic (number (slice_range bytes 0 4)))
//!   version : (order : Order) (resolution : Resolution) → 24 ≤ length bytes → HasMagic bytes order resolution
//!       → ((field order bytes 4 6 ≡ 2) × (field order bytes 6 8 ≡ 4) → ⊥)
//!       → RefusesFile bytes (Version (field order bytes 4 6) (field order bytes 6 8))
//! ```
//!
//! Uses: [`FileRefusal`](#def.FileRefusal), [`Short`](#def.FileRefusal), [`Order`](#def.Order), [`Resolution`](#def.Resolution), [`HasMagic`](#def.HasMagic), [`Magic`](#def.FileRefusal), [`number`](crate::definitions::ether_base#def.number), [`field`](#def.field), [`Version`](#def.FileRefusal)
//!
//! # Record
//!
//! The records of a classic capture file, from the file header to the end (pcap-savefile(5); draft-ietf-opsawg-pcap,
//! section 5).
//!
//! <a id="def.max_captured_len"></a>
//!
//! ## `max_captured_len`
//!
//! The maximum captured length: libpcap's maximum snap length for Ethernet and cooked captures.
//!
//! ```text
//! abbrev pub max_captured_len : ℕ
//! max_captured_len = 262144
//! ```
//!
//! <a id="def.RecordValue"></a>
//!
//! ## `RecordValue`
//!
//! The time in whole seconds since 1970, and a fraction in units of the file's resolution; the length of the packet
//! before it was cut; the captured bytes.
//!
//! ```text
//! pub record RecordValue : Type 0 where
//!   pub seconds : ℕ
//!   pub fraction : ℕ
//!   pub original_len : ℕ
//!   pub packet : List ℕ
//! ```
//!
//! <a id="def.BeginsRecord"></a>
//!
//! ## `BeginsRecord`
//!
//! Seconds, fraction, number of captured bytes, original length, 4 bytes each; the captured bytes.
//!
//! ```text
//! pub record BeginsRecord (order : Order) (bytes : List ℕ) (r : RecordValue) : Type 0 where
//!   pub seconds : field order bytes 0 4 ≡ r.seconds
//!   pub fraction : field order bytes 4 8 ≡ r.fraction
//!   pub captured_len : field order bytes 8 12 ≡ length r.packet
//!   pub original_len : field order bytes 12 16 ≡ r.original_len
//!   pub packet : slice_range bytes 16 (16 + length r.packet) ≡ r.packet
//!   pub whole : 16 + length r.packet ≤ length bytes
//!   pub room : length r.packet ≤ max_captured_len
//! ```
//!
//! Uses: [`Order`](#def.Order), [`RecordValue`](#def.RecordValue), [`field`](#def.field), [`max_captured_len`](#def.max_captured_len)
//!
//! <a id="def.RecordRefusal"></a>
//!
//! ## `RecordRefusal`
//!
//! Too few bytes, for the header or for the captured bytes; a captured length above the maximum.
//!
//! ```text
//! pub data RecordRefusal : Type 0 where
//!   Short : (required len : ℕ) → RecordRefusal
//!   TooLong : ℕ → RecordRefusal
//! ```
//!
//! <a id="def.RefusesRecord"></a>
//!
//! ## `RefusesRecord`
//!
//! ```text
//! pub data RefusesRecord (order : Order) (bytes : List ℕ) : RecordRefusal → Type 0 where
//!   header : length bytes < 16 → RefusesRecord order bytes (Short 16 (length bytes))
//!   too_long : 16 ≤ length bytes → max_captured_len < field order bytes 8 12
//!       → RefusesRecord order bytes (TooLong (field order bytes 8 12))
//!   packet : 16 ≤ length bytes → field order bytes 8 12 ≤ max_captured_len → length bytes < 16 + field order bytes 8 12
//!       → RefusesRecord order bytes (Short (16 + field order bytes 8 12) (length bytes))
//! ```
//!
//! Uses: [`Order`](#def.Order), [`RecordRefusal`](#def.RecordRefusal), [`Short`](#def.RecordRefusal), [`max_captured_len`](#def.max_captured_len), [`field`](#def.field), [`TooLong`](#def.RecordRefusal)
//!
//! <a id="def.nanoseconds_of"></a>
//!
//! ## `nanoseconds_of`
//!
//! The nanoseconds since the beginning of 1970, UTC, of seconds and a fraction.
//!
//! ```text
//! abbrev pub nanoseconds_of : Resolution → (seconds fraction : ℕ) → ℕ
//! nanoseconds_of Microseconds seconds fraction = seconds * 10 ^ 9 + fraction * 10 ^ 3
//! nanoseconds_of Nanoseconds seconds fraction = seconds * 10 ^ 9 + fraction
//! ```
//!
//! Uses: [`Resolution`](#def.Resolution), [`Microseconds`](#def.Resolution), [`Nanoseconds`](#def.Resolution)
//!
//! **All of them**
//!
//! <a id="def.record_len"></a>
//!
//! ## `record_len`
//!
//! The bytes of a record.
//!
//! ```text
//! abbrev pub record_len : RecordValue → ℕ
//! record_len r = 16 + length r.packet
//! ```
//!
//! Uses: [`RecordValue`](#def.RecordValue)
//!
//! # Views
//!
//! The structs and enums of this crate as values of the format.
//!
//! <a id="def.order_of"></a>
//!
//! ## `order_of`
//!
//! ```text
//! abbrev pub order_of : ByteOrder → Order
//! order_of orders.BigEndian = BigEndian
//! order_of orders.LittleEndian = LittleEndian
//! ```
//!
//! Uses: [`Order`](#def.Order), `orders` (`ByteOrder`), [`BigEndian`](#def.Order), [`LittleEndian`](#def.Order)
//!
//! <a id="def.resolution_of"></a>
//!
//! ## `resolution_of`
//!
//! ```text
//! abbrev pub resolution_of : TimestampResolution → Resolution
//! resolution_of resolutions.Microseconds = file.Microseconds
//! resolution_of resolutions.Nanoseconds = file.Nanoseconds
//! ```
//!
//! Uses: [`Resolution`](#def.Resolution), `resolutions` (`TimestampResolution`), [`file.Microseconds`](#def.Resolution), [`file.Nanoseconds`](#def.Resolution)
//!
//! <a id="def.file_header_view"></a>
//!
//! ## `file_header_view`
//!
//! ```text
//! abbrev pub file_header_view : FileHeader → FileHeaderValue
//! file_header_view h = record {
//!   order = order_of h.byte_order;
//!   resolution = resolution_of h.resolution;
//!   snap_len = h.snap_len;
//!   link_type = h.link_type.0;
//!   fcs_len = h.fcs_len;
//! }
//! ```
//!
//! Uses: [`FileHeaderValue`](#def.FileHeaderValue), [`order_of`](#def.order_of), [`resolution_of`](#def.resolution_of)
//!
//! <a id="def.file_refusal_view"></a>
//!
//! ## `file_refusal_view`
//!
//! ```text
//! abbrev pub file_refusal_view : FileHeaderError → FileRefusal
//! file_refusal_view (file_errors.Len required len) = file.Short required len
//! file_refusal_view (file_errors.Magic number) = file.Magic number
//! file_refusal_view (file_errors.Version major minor) = file.Version major minor
//! ```
//!
//! Uses: [`FileRefusal`](#def.FileRefusal), `file_errors` (`FileHeaderError`), [`file.Short`](#def.FileRefusal), [`file.Magic`](#def.FileRefusal), [`file.Version`](#def.FileRefusal)
//!
//! <a id="def.record_view"></a>
//!
//! ## `record_view`
//!
//! ```text
//! abbrev pub record_view : PcapRecord → RecordValue
//! record_view r =
//!     record { seconds = r.seconds; fraction = r.fraction; original_len = r.original_len; packet = r.packet.now }
//! ```
//!
//! Uses: [`RecordValue`](#def.RecordValue)
//!
//! <a id="def.record_refusal_view"></a>
//!
//! ## `record_refusal_view`
//!
//! ```text
//! abbrev pub record_refusal_view : RecordError → RecordRefusal
//! record_refusal_view (record_errors.Len required len) = record_rows.Short required len
//! record_refusal_view (record_errors.CapturedLen len) = record_rows.TooLong len
//! ```
//!
//! Uses: [`RecordRefusal`](#def.RecordRefusal), `record_errors` (`RecordError`), [`record_rows.Short`](#def.RecordRefusal), [`record_rows.TooLong`](#def.RecordRefusal)
//!
//! # Record reading
//!
//! The state of an iterator over the records of a file, and what a call of next returns, by the records that are left
//! to read.
//!
//! <a id="def.RecordState"></a>
//!
//! ## `RecordState`
//!
//! The file's header, the bytes that are left to read, their place in the file, and whether a refusal was returned.
//!
//! ```text
//! pub record RecordState : Type 0 where
//!   pub header : FileHeader
//!   pub rest : List ℕ
//!   pub offset : ℕ
//!   pub over : Bool
//! ```
//!
//! # Block
//!
//! The blocks of a pcapng file (draft-ietf-opsawg-pcapng, section 3.1).
//!
//! <a id="def.max_block_len"></a>
//!
//! ## `max_block_len`
//!
//! The greatest length of a block that is read: libpcap's initial limit.
//!
//! ```text
//! abbrev pub max_block_len : ℕ
//! max_block_len = 16777216
//! ```
//!
//! <a id="def.IsTotalLen"></a>
//!
//! ## `IsTotalLen`
//!
//! The length of a whole block: the type and two lengths take 12 bytes, and the body is padded to a multiple of 4.
//!
//! ```text
//! pub record IsTotalLen (n : ℕ) : Type 0 where
//!   pub least : 12 ≤ n
//!   pub aligned : n % 4 ≡ 0
//!   pub most : n ≤ max_block_len
//! ```
//!
//! Uses: [`max_block_len`](#def.max_block_len)
//!
//! <a id="def.BlockValue"></a>
//!
//! ## `BlockValue`
//!
//! ```text
//! pub record BlockValue : Type 0 where
//!   pub block_type : ℕ
//!   pub body : List ℕ
//! ```
//!
//! <a id="def.BeginsBlock"></a>
//!
//! ## `BeginsBlock`
//!
//! Type 4 bytes, total length 4 bytes, body, total length 4 bytes.
//!
//! ```text
//! pub record BeginsBlock (order : Order) (bytes : List ℕ) (b : BlockValue) : Type 0 where
//!   pub block_type : field order bytes 0 4 ≡ b.block_type
//!   pub total_len : field order bytes 4 8 ≡ 12 + length b.body
//!   pub sound : IsTotalLen (12 + length b.body)
//!   pub whole : 12 + length b.body ≤ length bytes
//!   pub body : slice_range bytes 8 (8 + length b.body) ≡ b.body
//!   pub trailer : field order bytes (8 + length b.body) (12 + length b.body) ≡ 12 + length b.body
//! ```
//!
//! Uses: [`Order`](#def.Order), [`BlockValue`](#def.BlockValue), [`field`](#def.field), [`IsTotalLen`](#def.IsTotalLen)
//!
//! <a id="def.BlockRefusal"></a>
//!
//! ## `BlockRefusal`
//!
//! Too few bytes; a total length that a block can't have; a total length at the end that differs from that at the front.
//!
//! ```text
//! pub data BlockRefusal : Type 0 where
//!   Short : (required len : ℕ) → BlockRefusal
//!   TotalLen : ℕ → BlockRefusal
//!   Trailer : (total_len trailer : ℕ) → BlockRefusal
//! ```
//!
//! <a id="def.RefusesBlock"></a>
//!
//! ## `RefusesBlock`
//!
//! ```text
//! pub data RefusesBlock (order : Order) (bytes : List ℕ) : BlockRefusal → Type 0 where
//!   front : length bytes < 12 → RefusesBlock order bytes (Short 12 (length bytes))
//!   total_len : 12 ≤ length bytes → (IsTotalLen (field order bytes 4 8) → ⊥)
//!       → RefusesBlock order bytes (TotalLen (field order bytes 4 8))
//!   body : (n : ℕ) → 12 ≤ length bytes → field order bytes 4 8 ≡ n → IsTotalLen n → length bytes < n
//!       → RefusesBlock order bytes (Short n (length bytes))
//!   trailer : (n m : ℕ) → 12 ≤ length bytes → field order bytes 4 8 ≡ n → IsTotalLen n → n ≤ length bytes
//!       → field order bytes (n - 4) n ≡ m → m ≢ n
//!       → RefusesBlock order bytes (Trailer n m)
//! ```
//!
//! Uses: [`Order`](#def.Order), [`BlockRefusal`](#def.BlockRefusal), [`Short`](#def.BlockRefusal), [`IsTotalLen`](#def.IsTotalLen), [`field`](#def.field), [`TotalLen`](#def.BlockRefusal), [`Trailer`](#def.BlockRefusal)
//!
//! # Section
//!
//! The section header block of a pcapng file (draft-ietf-opsawg-pcapng, section 4.1), which gives the byte order of all
//! numbers up to the next section header.
//!
//! <a id="def.section_type"></a>
//!
//! ## `section_type`
//!
//! The type, which is the same number in both byte orders.
//!
//! ```text
//! abbrev pub section_type : ℕ
//! section_type = 0x0A0D0D0A
//! ```
//!
//! <a id="def.HasOrder"></a>
//!
//! ## `HasOrder`
//!
//! The byte-order magic, the first number of the body.
//!
//! ```text
//! abbrev pub HasOrder : List ℕ → Order → Type 0
//! HasOrder bytes order = field order bytes 8 12 ≡ 0x1A2B3C4D
//! ```
//!
//! Uses: [`Order`](#def.Order), [`field`](#def.field)
//!
//! <a id="def.IsVersion"></a>
//!
//! ## `IsVersion`
//!
//! The versions that are read: 1.0, and 1.2, which some programs wrote for the same format.
//!
//! ```text
//! abbrev pub IsVersion : (major minor : ℕ) → Type 0
//! IsVersion major minor = (major ≡ 1) × ((minor ≡ 0) ⊎ (minor ≡ 2))
//! ```
//!
//! <a id="def.HasSectionType"></a>
//!
//! ## `HasSectionType`
//!
//! A list begins with the type.
//!
//! ```text
//! abbrev pub HasSectionType : List ℕ → Type 0
//! HasSectionType bytes = number (slice_range bytes 0 4) ≡ section_type
//! ```
//!
//! Uses: [`number`](crate::definitions::ether_base#def.number), [`section_type`](#def.section_type)
//!
//! <a id="def.IsSection"></a>
//!
//! ## `IsSection`
//!
//! Byte-order magic 4 bytes, version 2 bytes each, section length 8 bytes, which is not read, options.
//!
//! ```text
//! pub record IsSection (bytes : List ℕ) (order : Order) (b : BlockValue) : Type 0 where
//!   pub section : HasSectionType bytes
//!   pub magic : HasOrder bytes order
//!   pub block : BeginsBlock order bytes b
//!   pub len : 16 ≤ length b.body
//!   pub version : IsVersion (field order bytes 12 14) (field order bytes 14 16)
//! ```
//!
//! Uses: [`Order`](#def.Order), [`BlockValue`](#def.BlockValue), [`HasSectionType`](#def.HasSectionType), [`HasOrder`](#def.HasOrder), [`BeginsBlock`](#def.BeginsBlock), [`IsVersion`](#def.IsVersion), [`field`](#def.field)
//!
//! <a id="def.SectionRefusal"></a>
//!
//! ## `SectionRefusal`
//!
//! Too few bytes for a type, a length and a byte-order magic; another type, and another magic, as big-endian numbers; a
//! refused block; a body that is too short; another version.
//!
//! ```text
//! pub data SectionRefusal : Type 0 where
//!   Short : (required len : ℕ) → SectionRefusal
//!   BlockType : ℕ → SectionRefusal
//!   Magic : ℕ → SectionRefusal
//!   Block : BlockRefusal → SectionRefusal
//!   Body : (required len : ℕ) → SectionRefusal
//!   Version : (major minor : ℕ) → SectionRefusal
//! ```
//!
//! Uses: [`BlockRefusal`](#def.BlockRefusal)
//!
//! <a id="def.RefusesSection"></a>
//!
//! ## `RefusesSection`
//!
//! ```text
//! pub data RefusesSection (bytes : List ℕ) : SectionRefusal → Type 0 where
//!   short : length bytes < 12 → RefusesSection bytes (Short 12 (length bytes))
//!   block_type : (n : ℕ) → 12 ≤ length bytes → number (slice_range bytes 0 4) ≡ n → n ≢ section_type
//!       → RefusesSection bytes (BlockType n)
//!   magic : (n : ℕ) → 12 ≤ length bytes → HasSectionType bytes → number (slice_range bytes 8 12) ≡ n
//!       → ((order : Order) → HasOrder bytes order → ⊥)
//!       → RefusesSection bytes (Magic n)
//!   block : (order : Order) (r : BlockRefusal) → 12 ≤ length bytes → HasSectionType bytes → HasOrder bytes order
//!       → RefusesBlock order bytes r
//!       → RefusesSection bytes (Block r)
//!   body : (order : Order) (b : BlockValue) → HasSectionType bytes → HasOrder bytes order → BeginsBlock order bytes b
//!       → length b.body < 16
//!       → RefusesSection bytes (Body 16 (length b.body))
//!   version : (order : Order) (b : BlockValue) (major minor : ℕ) → HasSectionType bytes → HasOrder bytes order
//!       → BeginsBlock order bytes b → 16 ≤ length b.body
//!       → field order bytes 12 14 ≡ major → field order bytes 14 16 ≡ minor → (IsVersion major minor → ⊥)
//!       → RefusesSection bytes (Version major minor)
//! ```
//!
//! Uses: [`SectionRefusal`](#def.SectionRefusal), [`Short`](#def.SectionRefusal), [`number`](crate::definitions::ether_base#def.number), [`section_type`](#def.section_type), [`BlockType`](#def.SectionRefusal), [`HasSectionType`](#def.HasSectionType), [`Order`](#def.Order), [`HasOrder`](#def.HasOrder), [`Magic`](#def.SectionRefusal), [`BlockRefusal`](#def.BlockRefusal), [`RefusesBlock`](#def.RefusesBlock), [`Block`](#def.SectionRefusal), [`BlockValue`](#def.BlockValue), [`BeginsBlock`](#def.BeginsBlock), [`Body`](#def.SectionRefusal), [`field`](#def.field), [`IsVersion`](#def.IsVersion), [`Version`](#def.SectionRefusal)
//!
//! # Options
//!
//! The options at the end of a block of a pcapng file (draft-ietf-opsawg-pcapng, section 3.5).
//!
//! <a id="def.padded"></a>
//!
//! ## `padded`
//!
//! A number of bytes, rounded up to a multiple of 4.
//!
//! ```text
//! abbrev pub padded : ℕ → ℕ
//! padded n = (n + 3) / 4 * 4
//! ```
//!
//! <a id="def.OptionValue"></a>
//!
//! ## `OptionValue`
//!
//! ```text
//! pub record OptionValue : Type 0 where
//!   pub code : ℕ
//!   pub value : List ℕ
//! ```
//!
//! <a id="def.BeginsOption"></a>
//!
//! ## `BeginsOption`
//!
//! Code 2 bytes, length of the value 2 bytes, value; code 0 is the end of the options.
//!
//! ```text
//! pub record BeginsOption (order : Order) (bytes : List ℕ) (o : OptionValue) : Type 0 where
//!   pub code : field order bytes 0 2 ≡ o.code
//!   pub no_end : o.code ≢ 0
//!   pub len : field order bytes 2 4 ≡ length o.value
//!   pub value : slice_range bytes 4 (4 + length o.value) ≡ o.value
//!   pub whole : 4 + length o.value ≤ length bytes
//! ```
//!
//! Uses: [`Order`](#def.Order), [`OptionValue`](#def.OptionValue), [`field`](#def.field)
//!
//! <a id="def.HasOptions"></a>
//!
//! ## `HasOptions`
//!
//! The options of bytes, one after the other, up to bytes that do not begin with an option.
//!
//! ```text
//! abbrev pub HasOptions : Order → List ℕ → List OptionValue → Type 0
//! HasOptions order bytes [] = (o : OptionValue) → BeginsOption order bytes o → ⊥
//! HasOptions order bytes (o ∷ options) =
//!     BeginsOption order bytes o × HasOptions order (drop (4 + padded (length o.value)) bytes) options
//! ```
//!
//! Uses: [`Order`](#def.Order), [`OptionValue`](#def.OptionValue), [`BeginsOption`](#def.BeginsOption), [`padded`](#def.padded)
//!
//! <a id="def.value_of"></a>
//!
//! ## `value_of`
//!
//! The value of the first option with this code.
//!
//! ```text
//! abbrev pub value_of : ℕ → List OptionValue → Option (List ℕ)
//! value_of code [] = None
//! value_of code (o ∷ options) = if nat_eq o.code code then Some o.value else value_of code options
//! ```
//!
//! Uses: [`OptionValue`](#def.OptionValue)
//!
//! <a id="def.number_of"></a>
//!
//! ## `number_of`
//!
//! A value of this many bytes as a number.
//!
//! ```text
//! abbrev pub number_of : Order → ℕ → Option (List ℕ) → Option ℕ
//! number_of order n None = None
//! number_of order n (Some value) = if nat_eq (length value) n then Some (field order value 0 n) else None
//! ```
//!
//! Uses: [`Order`](#def.Order), [`field`](#def.field)
//!
//! <a id="def.byte_of"></a>
//!
//! ## `byte_of`
//!
//! A value of one byte.
//!
//! ```text
//! abbrev pub byte_of : Option (List ℕ) → Option ℕ
//! byte_of (Some (b ∷ [])) = Some b
//! byte_of _ = None
//! ```
//!
//! # Bodies
//!
//! The bodies of the blocks of a pcapng file that are read (draft-ietf-opsawg-pcapng, sections 4.1 to 4.4).
//!
//! <a id="def.BodyRefusal"></a>
//!
//! ## `BodyRefusal`
//!
//! Too few bytes in a body; a captured length above the maximum.
//!
//! ```text
//! pub data BodyRefusal : Type 0 where
//!   Short : (required len : ℕ) → BodyRefusal
//!   TooLong : ℕ → BodyRefusal
//! ```
//!
//! **Interface description (4.2): link type 2 bytes, reserved 2 bytes, snap length 4 bytes, options**
//!
//! <a id="def.InterfaceValue"></a>
//!
//! ## `InterfaceValue`
//!
//! ```text
//! pub record InterfaceValue : Type 0 where
//!   pub link_type : ℕ
//!   pub snap_len : ℕ
//!   pub options : List ℕ
//! ```
//!
//! <a id="def.IsInterface"></a>
//!
//! ## `IsInterface`
//!
//! ```text
//! pub record IsInterface (order : Order) (body : List ℕ) (v : InterfaceValue) : Type 0 where
//!   pub len : 8 ≤ length body
//!   pub link_type : field order body 0 2 ≡ v.link_type
//!   pub snap_len : field order body 4 8 ≡ v.snap_len
//!   pub options : slice_range body 8 (length body) ≡ v.options
//! ```
//!
//! Uses: [`Order`](#def.Order), [`InterfaceValue`](#def.InterfaceValue), [`field`](#def.field)
//!
//! <a id="def.RefusesInterface"></a>
//!
//! ## `RefusesInterface`
//!
//! ```text
//! pub data RefusesInterface (body : List ℕ) : BodyRefusal → Type 0 where
//!   interface : length body < 8 → RefusesInterface body (Short 8 (length body))
//! ```
//!
//! Uses: [`BodyRefusal`](#def.BodyRefusal), [`Short`](#def.BodyRefusal)
//!
//! **Enhanced packet (4.3) and the obsolete packet block (appendix A): interface 4 bytes, or 2 bytes and a count of**
//!
//! <a id="def.EnhancedPacketValue"></a>
//!
//! ## `EnhancedPacketValue`
//!
//! Dropped packets in 2 bytes; time 8 bytes with the upper 4 first; captured and original length 4 bytes each; packet,
//! padding, options.
//!
//! ```text
//! pub record EnhancedPacketValue : Type 0 where
//!   pub interface : ℕ
//!   pub time : ℕ
//!   pub original_len : ℕ
//!   pub packet : List ℕ
//!   pub options : List ℕ
//! ```
//!
//! <a id="def.IsEnhancedPacket"></a>
//!
//! ## `IsEnhancedPacket`
//!
//! > `EnhancedPacketValue`: dropped packets in 2 bytes; time 8 bytes with the upper 4 first; captured and original length 4 bytes each; packet, padding, options
//!
//! .. whose interface has number\_len bytes.
//!
//! ```text
//! pub record IsEnhancedPacket (number_len : ℕ) (order : Order) (body : List ℕ) (v : EnhancedPacketValue) : Type 0 where
//!   pub interface : field order body 0 number_len ≡ v.interface
//!   pub time : field order body 4 8 * 2 ^ 32 + field order body 8 12 ≡ v.time
//!   pub captured_len : field order body 12 16 ≡ length v.packet
//!   pub original_len : field order body 16 20 ≡ v.original_len
//!   pub packet : slice_range body 20 (20 + length v.packet) ≡ v.packet
//!   pub options : drop (20 + padded (length v.packet)) body ≡ v.options
//!   pub whole : 20 + length v.packet ≤ length body
//!   pub room : length v.packet ≤ max_captured_len
//! ```
//!
//! Uses: [`Order`](#def.Order), [`EnhancedPacketValue`](#def.EnhancedPacketValue), [`field`](#def.field), [`padded`](#def.padded), [`max_captured_len`](#def.max_captured_len)
//!
//! <a id="def.RefusesEnhancedPacket"></a>
//!
//! ## `RefusesEnhancedPacket`
//!
//! ```text
//! pub data RefusesEnhancedPacket (order : Order) (body : List ℕ) : BodyRefusal → Type 0 where
//!   enhanced : length body < 20 → RefusesEnhancedPacket order body (Short 20 (length body))
//!   enhanced_too_long : 20 ≤ length body → max_captured_len < field order body 12 16
//!       → RefusesEnhancedPacket order body (TooLong (field order body 12 16))
//!   enhanced_packet : 20 ≤ length body → field order body 12 16 ≤ max_captured_len → length body < 20
//!       + field order body 12 16
//!       → RefusesEnhancedPacket order body (Short (20 + field order body 12 16) (length body))
//! ```
//!
//! Uses: [`Order`](#def.Order), [`BodyRefusal`](#def.BodyRefusal), [`Short`](#def.BodyRefusal), [`max_captured_len`](#def.max_captured_len), [`field`](#def.field), [`TooLong`](#def.BodyRefusal)
//!
//! **Simple packet (4.4): original length 4 bytes, packet; its interface is the section's first, whose snap length**
//!
//! <a id="def.captured_by"></a>
//!
//! ## `captured_by`
//!
//! The number of captured bytes of a packet with this original length, where a snap length of 0 is no limit.
//!
//! ```text
//! abbrev pub captured_by : (snap_len original_len : ℕ) → ℕ
//! captured_by snap_len original_len = if nat_eq snap_len 0 then original_len else min snap_len original_len
//! ```
//!
//! <a id="def.SimplePacketValue"></a>
//!
//! ## `SimplePacketValue`
//!
//! ```text
//! pub record SimplePacketValue : Type 0 where
//!   pub original_len : ℕ
//!   pub packet : List ℕ
//! ```
//!
//! <a id="def.IsSimplePacket"></a>
//!
//! ## `IsSimplePacket`
//!
//! ```text
//! pub record IsSimplePacket (order : Order) (snap_len : ℕ) (body : List ℕ) (v : SimplePacketValue) : Type 0 where
//!   pub original_len : field order body 0 4 ≡ v.original_len
//!   pub captured_len : captured_by snap_len (field order body 0 4) ≡ length v.packet
//!   pub packet : slice_range body 4 (4 + length v.packet) ≡ v.packet
//!   pub whole : 4 + length v.packet ≤ length body
//!   pub room : length v.packet ≤ max_captured_len
//! ```
//!
//! Uses: [`Order`](#def.Order), [`SimplePacketValue`](#def.SimplePacketValue), [`field`](#def.field), [`captured_by`](#def.captured_by), [`max_captured_len`](#def.max_captured_len)
//!
//! <a id="def.RefusesSimplePacket"></a>
//!
//! ## `RefusesSimplePacket`
//!
//! ```text
//! pub data RefusesSimplePacket (order : Order) (snap_len : ℕ) (body : List ℕ) : BodyRefusal → Type 0 where
//!   simple : length body < 4 → RefusesSimplePacket order snap_len body (Short 4 (length body))
//!   simple_too_long : (n : ℕ) → 4 ≤ length body → captured_by snap_len (field order body 0 4) ≡ n → max_captured_len < n
//!       → RefusesSimplePacket order snap_len body (TooLong n)
//!   simple_packet : (n : ℕ) → 4 ≤ length body → captured_by snap_len (field order body 0 4) ≡ n → n ≤ max_captured_len
//!       → length body < 4 + n
//!       → RefusesSimplePacket order snap_len body (Short (4 + n) (length body))
//! ```
//!
//! Uses: [`Order`](#def.Order), [`BodyRefusal`](#def.BodyRefusal), [`Short`](#def.BodyRefusal), [`captured_by`](#def.captured_by), [`field`](#def.field), [`max_captured_len`](#def.max_captured_len), [`TooLong`](#def.BodyRefusal)
//!
//! # Pcapng views
//!
//! The structs and enums of this crate for pcapng files as values of the format.
//!
//! <a id="def.block_view"></a>
//!
//! ## `block_view`
//!
//! ```text
//! abbrev pub block_view : PcapngBlock → BlockValue
//! block_view b = record { block_type = b.block_type; body = b.body.now }
//! ```
//!
//! Uses: [`BlockValue`](#def.BlockValue)
//!
//! <a id="def.block_refusal_view"></a>
//!
//! ## `block_refusal_view`
//!
//! ```text
//! abbrev pub block_refusal_view : BlockError → BlockRefusal
//! block_refusal_view (block_errors.Len required len) = block_rows.Short required len
//! block_refusal_view (block_errors.TotalLen len) = block_rows.TotalLen len
//! block_refusal_view (block_errors.Trailer total_len trailer) = block_rows.Trailer total_len trailer
//! ```
//!
//! Uses: [`BlockRefusal`](#def.BlockRefusal), `block_errors` (`BlockError`), [`block_rows.Short`](#def.BlockRefusal), [`block_rows.TotalLen`](#def.BlockRefusal), [`block_rows.Trailer`](#def.BlockRefusal)
//!
//! <a id="def.interface_view"></a>
//!
//! ## `interface_view`
//!
//! ```text
//! abbrev pub interface_view : InterfaceDescription → InterfaceValue
//! interface_view i = record { link_type = i.link_type.0; snap_len = i.snap_len; options = i.options.now }
//! ```
//!
//! Uses: [`InterfaceValue`](#def.InterfaceValue)
//!
//! <a id="def.enhanced_packet_view"></a>
//!
//! ## `enhanced_packet_view`
//!
//! ```text
//! abbrev pub enhanced_packet_view : EnhancedPacket → EnhancedPacketValue
//! enhanced_packet_view p =
//!     record {
//!       interface = p.interface;
//!       time = p.time;
//!       original_len = p.original_len;
//!       packet = p.packet.now;
//!       options = p.options.now;
//!     }
//! ```
//!
//! Uses: [`EnhancedPacketValue`](#def.EnhancedPacketValue)
//!
//! <a id="def.simple_packet_view"></a>
//!
//! ## `simple_packet_view`
//!
//! ```text
//! abbrev pub simple_packet_view : SimplePacket → SimplePacketValue
//! simple_packet_view p = record { original_len = p.original_len; packet = p.packet.now }
//! ```
//!
//! Uses: [`SimplePacketValue`](#def.SimplePacketValue)
//!
//! <a id="def.body_refusal_view"></a>
//!
//! ## `body_refusal_view`
//!
//! ```text
//! abbrev pub body_refusal_view : BodyError → BodyRefusal
//! body_refusal_view (body_errors.Len required len) = body_rows.Short required len
//! body_refusal_view (body_errors.CapturedLen len) = body_rows.TooLong len
//! ```
//!
//! Uses: [`BodyRefusal`](#def.BodyRefusal), `body_errors` (`BodyError`), [`body_rows.Short`](#def.BodyRefusal), [`body_rows.TooLong`](#def.BodyRefusal)
//!
//! <a id="def.section_refusal_view"></a>
//!
//! ## `section_refusal_view`
//!
//! ```text
//! abbrev pub section_refusal_view : SectionError → SectionRefusal
//! section_refusal_view (section_errors.Len required len) = section_rows.Short required len
//! section_refusal_view (section_errors.BlockType number) = section_rows.BlockType number
//! section_refusal_view (section_errors.Magic number) = section_rows.Magic number
//! section_refusal_view (section_errors.Block error) = section_rows.Block (block_refusal_view error)
//! section_refusal_view (section_errors.Body required len) = section_rows.Body required len
//! section_refusal_view (section_errors.Version major minor) = section_rows.Version major minor
//! ```
//!
//! Uses: [`SectionRefusal`](#def.SectionRefusal), `section_errors` (`SectionError`), [`section_rows.Short`](#def.SectionRefusal), [`section_rows.BlockType`](#def.SectionRefusal), [`section_rows.Magic`](#def.SectionRefusal), [`section_rows.Block`](#def.SectionRefusal), [`block_refusal_view`](#def.block_refusal_view), [`section_rows.Body`](#def.SectionRefusal), [`section_rows.Version`](#def.SectionRefusal)
//!
//! # Capture
//!
//! A whole capture file of either format: the file header and the records of a classic file, or the blocks of a pcapng
//! file (draft-ietf-opsawg-pcap, section 3; draft-ietf-opsawg-pcapng, section 3).
//!
//! **Packets**
//!
//! <a id="def.TimeValue"></a>
//!
//! ## `TimeValue`
//!
//! A time since the beginning of 1970, UTC: seconds, and nanoseconds below one second.
//!
//! ```text
//! pub record TimeValue : Type 0 where
//!   pub seconds : ℕ
//!   pub nanoseconds : ℕ
//! ```
//!
//! <a id="def.time_of"></a>
//!
//! ## `time_of`
//!
//! ```text
//! abbrev pub time_of : (nanoseconds : ℕ) → TimeValue
//! time_of n = record { seconds = n / 10 ^ 9; nanoseconds = n % 10 ^ 9 }
//! ```
//!
//! Uses: [`TimeValue`](#def.TimeValue)
//!
//! <a id="def.DirectionValue"></a>
//!
//! ## `DirectionValue`
//!
//! Whether an interface received a packet or sent it.
//!
//! ```text
//! pub data DirectionValue : Type 0 where
//!   Inbound : DirectionValue
//!   Outbound : DirectionValue
//! ```
//!
//! <a id="def.PacketValue"></a>
//!
//! ## `PacketValue`
//!
//! A captured packet: its time, the number of its interface, its direction and a comment on it, if the file gives them;
//! its length before it was cut; the link type, snap length and length of the frame check sequence that the file gives
//! for it; and its captured bytes.
//!
//! ```text
//! pub record PacketValue : Type 0 where
//!   pub time : Option TimeValue
//!   pub interface : Option ℕ
//!   pub direction : Option DirectionValue
//!   pub comment : Option (List ℕ)
//!   pub original_len : ℕ
//!   pub link_type : ℕ
//!   pub snap_len : ℕ
//!   pub fcs_len : Option ℕ
//!   pub packet : List ℕ
//! ```
//!
//! Uses: [`TimeValue`](#def.TimeValue), [`DirectionValue`](#def.DirectionValue)
//!
//! <a id="def.packet_of_record"></a>
//!
//! ## `packet_of_record`
//!
//! ```text
//! abbrev pub packet_of_record : FileHeaderValue → RecordValue → PacketValue
//! packet_of_record h r = record {
//!   time = Some (time_of (nanoseconds_of h.resolution r.seconds r.fraction));
//!   interface = None;
//!   direction = None;
//!   comment = None;
//!   original_len = r.original_len;
//!   link_type = h.link_type;
//!   snap_len = h.snap_len;
//!   fcs_len = h.fcs_len;
//!   packet = r.packet;
//! }
//! ```
//!
//! Uses: [`FileHeaderValue`](#def.FileHeaderValue), [`RecordValue`](#def.RecordValue), [`PacketValue`](#def.PacketValue), [`time_of`](#def.time_of), [`nanoseconds_of`](#def.nanoseconds_of)
//!
//! **Interfaces of a section**
//!
//! <a id="def.CaptureInterfaceValue"></a>
//!
//! ## `CaptureInterfaceValue`
//!
//! What a section says of an interface: link type, snap length, length of the frame check sequence, the value of
//! if\_tsresol, and that of if\_tsoffset, seconds in two's complement, as the number that its 64 bits are.
//!
//! ```text
//! pub record CaptureInterfaceValue : Type 0 where
//!   pub link_type : ℕ
//!   pub snap_len : ℕ
//!   pub fcs_len : Option ℕ
//!   pub resolution : Option ℕ
//!   pub offset : ℕ
//! ```
//!
//! <a id="def.fcs_bytes"></a>
//!
//! ## `fcs_bytes`
//!
//! The length of the frame check sequence in bytes. By the description of the format the option counts bits, but most
//! writers write bytes: 16 and 32 are read as bits, other numbers as bytes.
//!
//! ```text
//! abbrev pub fcs_bytes : ℕ → ℕ
//! fcs_bytes n = if nat_eq n 32 then 4 else (if nat_eq n 16 then 2 else n)
//! ```
//!
//! <a id="def.described_by"></a>
//!
//! ## `described_by`
//!
//! The options if\_fcslen (13), if\_tsresol (9) and if\_tsoffset (14) of an interface description (4.2).
//!
//! ```text
//! abbrev pub described_by : Order → InterfaceValue → List OptionValue → CaptureInterfaceValue
//! described_by order i options = record {
//!   link_type = i.link_type;
//!   snap_len = i.snap_len;
//!   fcs_len = option_map fcs_bytes (byte_of (value_of 13 options));
//!   resolution = byte_of (value_of 9 options);
//!   offset = unwrap_or (number_of order 8 (value_of 14 options)) 0;
//! }
//! ```
//!
//! Uses: [`Order`](#def.Order), [`InterfaceValue`](#def.InterfaceValue), [`OptionValue`](#def.OptionValue), [`CaptureInterfaceValue`](#def.CaptureInterfaceValue), [`fcs_bytes`](#def.fcs_bytes), [`byte_of`](#def.byte_of), [`value_of`](#def.value_of), [`number_of`](#def.number_of)
//!
//! <a id="def.Describes"></a>
//!
//! ## `Describes`
//!
//! The body of an interface description.
//!
//! ```text
//! pub record Describes (order : Order) (body : List ℕ) (v : CaptureInterfaceValue) : Type 0 where
//!   pub interface : InterfaceValue
//!   pub options : List OptionValue
//!   pub is_interface : IsInterface order body interface
//!   pub has_options : HasOptions order interface.options options
//!   pub value : described_by order interface options ≡ v
//! ```
//!
//! Uses: [`Order`](#def.Order), [`CaptureInterfaceValue`](#def.CaptureInterfaceValue), [`InterfaceValue`](#def.InterfaceValue), [`OptionValue`](#def.OptionValue), [`IsInterface`](#def.IsInterface), [`HasOptions`](#def.HasOptions), [`described_by`](#def.described_by)
//!
//! <a id="def.units_of"></a>
//!
//! ## `units_of`
//!
//! Ticks per second: 10^n if the number n is below 128, else 2^(n - 128); a million if there is no number.
//!
//! ```text
//! abbrev pub units_of : Option ℕ → ℕ
//! units_of None = 10 ^ 6
//! units_of (Some n) = if nat_lt n 128 then 10 ^ n else 2 ^ (n - 128)
//! ```
//!
//! <a id="def.shifted"></a>
//!
//! ## `shifted`
//!
//! The sum of seconds and an offset of 64 bits in two's complement. None if it is before 1970 or does not fit in 64
//! bits.
//!
//! ```text
//! abbrev pub shifted : (offset seconds : ℕ) → Option ℕ
//! shifted offset seconds =
//!     if nat_lt offset (2 ^ 63) then (if nat_lt (seconds + offset) (2 ^ 64) then Some (seconds + offset) else None)
//!     else (if nat_lt (seconds + offset) (2 ^ 64) then None else Some (seconds + offset - 2 ^ 64))
//! ```
//!
//! <a id="def.time_on"></a>
//!
//! ## `time_on`
//!
//! The time of a number of ticks on an interface, rounded down to a nanosecond.
//!
//! ```text
//! abbrev pub time_on : CaptureInterfaceValue → ℕ → Option TimeValue
//! time_on i n =
//!     let t = time_of (n * 10 ^ 9 / units_of i.resolution) in
//!     option_map (λ seconds. record { seconds = seconds; nanoseconds = t.nanoseconds }) (shifted i.offset t.seconds)
//! ```
//!
//! Uses: [`CaptureInterfaceValue`](#def.CaptureInterfaceValue), [`TimeValue`](#def.TimeValue), [`time_of`](#def.time_of), [`units_of`](#def.units_of), [`shifted`](#def.shifted)
//!
//! <a id="def.IsAt"></a>
//!
//! ## `IsAt`
//!
//! The interface with this number, counted from 0.
//!
//! ```text
//! pub record IsAt (interfaces : List CaptureInterfaceValue) (n : ℕ) (i : CaptureInterfaceValue) : Type 0 where
//!   pub before : List CaptureInterfaceValue
//!   pub after : List CaptureInterfaceValue
//!   pub parts : interfaces ≡ before ++ i ∷ after
//!   pub number : length before ≡ n
//! ```
//!
//! Uses: [`CaptureInterfaceValue`](#def.CaptureInterfaceValue)
//!
//! **Units**
//!
//! <a id="def.CaptureExpectation"></a>
//!
//! ## `CaptureExpectation`
//!
//! What may follow at a place of a file: at its beginning either format; after this header a record; in a section of
//! this byte order that has described these interfaces a block. A section may describe up to `most` interfaces.
//!
//! ```text
//! pub data CaptureExpectation : Type 0 where
//!   Beginning : (most : ℕ) → CaptureExpectation
//!   Records : FileHeaderValue → CaptureExpectation
//!   Blocks : (most : ℕ) → Order → List CaptureInterfaceValue → CaptureExpectation
//! ```
//!
//! Uses: [`FileHeaderValue`](#def.FileHeaderValue), [`Order`](#def.Order), [`CaptureInterfaceValue`](#def.CaptureInterfaceValue)
//!
//! <a id="def.fcs_in_flags"></a>
//!
//! ## `fcs_in_flags`
//!
//! The length of the frame check sequence in the flags of a packet (4.3.1): bits 5 to 8, where 0 is unknown.
//!
//! ```text
//! abbrev pub fcs_in_flags : Option ℕ → Option ℕ
//! fcs_in_flags None = None
//! fcs_in_flags (Some flags) = let n = flags / 2 ^ 5 % 2 ^ 4 in if nat_eq n 0 then None else Some n
//! ```
//!
//! <a id="def.fcs_of"></a>
//!
//! ## `fcs_of`
//!
//! > `fcs_in_flags`: the length of the frame check sequence in the flags of a packet (4.3.1): bits 5 to 8, where 0 is unknown
//!
//! .. which has precedence over that of the interface.
//!
//! ```text
//! abbrev pub fcs_of : (of_packet of_interface : Option ℕ) → Option ℕ
//! fcs_of None n = n
//! fcs_of (Some n) m = Some n
//! ```
//!
//! <a id="def.direction_in_flags"></a>
//!
//! ## `direction_in_flags`
//!
//! The direction in the flags of a packet (4.3.1): bits 0 and 1, where 1 is inbound and 2 is outbound.
//!
//! ```text
//! abbrev pub direction_in_flags : Option ℕ → Option DirectionValue
//! direction_in_flags None = None
//! direction_in_flags (Some flags) =
//!     let n = flags % 2 ^ 2 in if nat_eq n 1 then Some Inbound else (if nat_eq n 2 then Some Outbound else None)
//! ```
//!
//! Uses: [`DirectionValue`](#def.DirectionValue), [`Inbound`](#def.DirectionValue), [`Outbound`](#def.DirectionValue)
//!
//! <a id="def.packet_on"></a>
//!
//! ## `packet_on`
//!
//! What a packet's block, its interface, its option epb\_flags or pack\_flags (2) and its first comment (1) say of it.
//!
//! ```text
//! abbrev pub packet_on : Order → CaptureInterfaceValue → EnhancedPacketValue → List OptionValue → PacketValue
//! packet_on order i p options = record {
//!   time = time_on i p.time;
//!   interface = Some p.interface;
//!   direction = direction_in_flags (number_of order 4 (value_of 2 options));
//!   comment = value_of 1 options;
//!   original_len = p.original_len;
//!   link_type = i.link_type;
//!   snap_len = i.snap_len;
//!   fcs_len = fcs_of (fcs_in_flags (number_of order 4 (value_of 2 options))) i.fcs_len;
//!   packet = p.packet;
//! }
//! ```
//!
//! Uses: [`Order`](#def.Order), [`CaptureInterfaceValue`](#def.CaptureInterfaceValue), [`EnhancedPacketValue`](#def.EnhancedPacketValue), [`OptionValue`](#def.OptionValue), [`PacketValue`](#def.PacketValue), [`time_on`](#def.time_on), [`direction_in_flags`](#def.direction_in_flags), [`number_of`](#def.number_of), [`value_of`](#def.value_of), [`fcs_of`](#def.fcs_of), [`fcs_in_flags`](#def.fcs_in_flags)
//!
//! <a id="def.simple_packet_on"></a>
//!
//! ## `simple_packet_on`
//!
//! What a simple packet's block, which has no time, and the first interface say of it (4.4).
//!
//! ```text
//! abbrev pub simple_packet_on : CaptureInterfaceValue → SimplePacketValue → PacketValue
//! simple_packet_on i p =
//!     record {
//!       time = None;
//!       interface = Some 0;
//!       direction = None;
//!       comment = None;
//!       original_len = p.original_len;
//!       link_type = i.link_type;
//!       snap_len = i.snap_len;
//!       fcs_len = i.fcs_len;
//!       packet = p.packet;
//!     }
//! ```
//!
//! Uses: [`CaptureInterfaceValue`](#def.CaptureInterfaceValue), [`SimplePacketValue`](#def.SimplePacketValue), [`PacketValue`](#def.PacketValue)
//!
//! <a id="def.BlockKind"></a>
//!
//! ## `BlockKind`
//!
//! How the body of a block is read, by its type. EnhancedPacket has the number of bytes of its interface: 4, or 2 in
//! the obsolete packet block.
//!
//! ```text
//! pub data BlockKind : Type 0 where
//!   InterfaceDescription : BlockKind
//!   SimplePacket : BlockKind
//!   EnhancedPacket : (number_len : ℕ) → BlockKind
//!   Other : BlockKind
//! ```
//!
//! <a id="def.kind_of_block"></a>
//!
//! ## `kind_of_block`
//!
//! ```text
//! abbrev pub kind_of_block : ℕ → BlockKind
//! kind_of_block n =
//!     if nat_eq n 1 then InterfaceDescription
//!     else (if nat_eq n 2 then EnhancedPacket 2
//!     else (if nat_eq n 3 then SimplePacket else (if nat_eq n 6 then EnhancedPacket 4 else Other)))
//! ```
//!
//! Uses: [`BlockKind`](#def.BlockKind), [`InterfaceDescription`](#def.BlockKind), [`EnhancedPacket`](#def.BlockKind), [`SimplePacket`](#def.BlockKind), [`Other`](#def.BlockKind)
//!
//! <a id="def.IsBody"></a>
//!
//! ## `IsBody`
//!
//! The body of a block in a section that has described the interfaces before: the packet if there is one, and the
//! interfaces after the block.
//!
//! ```text
//! abbrev pub IsBody : BlockKind → (most : ℕ) → Order → (before : List CaptureInterfaceValue) → (body : List ℕ)
//!     → Option PacketValue → (after : List CaptureInterfaceValue) → Type 0
//! IsBody InterfaceDescription most order before body packet after =
//!     (i : CaptureInterfaceValue) × Describes order body i × (length before < most) × (packet ≡ None)
//!     × (after ≡ before ++ i ∷ [])
//! IsBody SimplePacket most order before body packet after =
//!     (i : CaptureInterfaceValue) × (p : SimplePacketValue) × IsAt before 0 i × IsSimplePacket order i.snap_len body p
//!     × (packet ≡ Some (simple_packet_on i p)) × (after ≡ before)
//! IsBody (EnhancedPacket number_len) most order before body packet after =
//!     (i : CaptureInterfaceValue) × (p : EnhancedPacketValue) × (options : List OptionValue)
//!     × IsEnhancedPacket number_len order body p × IsAt before p.interface i × HasOptions order p.options options
//!     × (packet ≡ Some (packet_on order i p options)) × (after ≡ before)
//! IsBody Other most order before body packet after = (packet ≡ None) × (after ≡ before)
//! ```
//!
//! Uses: [`BlockKind`](#def.BlockKind), [`Order`](#def.Order), [`CaptureInterfaceValue`](#def.CaptureInterfaceValue), [`PacketValue`](#def.PacketValue), [`InterfaceDescription`](#def.BlockKind), [`Describes`](#def.Describes), [`SimplePacket`](#def.BlockKind), [`SimplePacketValue`](#def.SimplePacketValue), [`IsAt`](#def.IsAt), [`IsSimplePacket`](#def.IsSimplePacket), [`simple_packet_on`](#def.simple_packet_on), [`EnhancedPacket`](#def.BlockKind), [`EnhancedPacketValue`](#def.EnhancedPacketValue), [`OptionValue`](#def.OptionValue), [`IsEnhancedPacket`](#def.IsEnhancedPacket), [`HasOptions`](#def.HasOptions), [`packet_on`](#def.packet_on), [`Other`](#def.BlockKind)
//!
//! <a id="def.CaptureRefusal"></a>
//!
//! ## `CaptureRefusal`
//!
//! Why a unit is refused: a row of its format; a packet whose interface, named by its number, is not described before
//! it; an interface more than the maximum.
//!
//! ```text
//! pub data CaptureRefusal : Type 0 where
//!   File : FileRefusal → CaptureRefusal
//!   Record : RecordRefusal → CaptureRefusal
//!   Section : SectionRefusal → CaptureRefusal
//!   Block : BlockRefusal → CaptureRefusal
//!   Body : BodyRefusal → CaptureRefusal
//!   NoInterface : ℕ → CaptureRefusal
//!   TooManyInterfaces : CaptureRefusal
//! ```
//!
//! Uses: [`FileRefusal`](#def.FileRefusal), [`RecordRefusal`](#def.RecordRefusal), [`SectionRefusal`](#def.SectionRefusal), [`BlockRefusal`](#def.BlockRefusal), [`BodyRefusal`](#def.BodyRefusal)
//!
//! <a id="def.HasNoInterface"></a>
//!
//! ## `HasNoInterface`
//!
//! ```text
//! abbrev pub HasNoInterface : List CaptureInterfaceValue → ℕ → Type 0
//! HasNoInterface interfaces n = length interfaces ≤ n
//! ```
//!
//! Uses: [`CaptureInterfaceValue`](#def.CaptureInterfaceValue)
//!
//! <a id="def.RefusesBody"></a>
//!
//! ## `RefusesBody`
//!
//! ```text
//! pub data RefusesBody (most : ℕ) (order : Order) (before : List CaptureInterfaceValue) (body : List ℕ) : BlockKind
//!     → CaptureRefusal → Type 0 where
//!   interface : (r : BodyRefusal) → RefusesInterface body r → RefusesBody most order before body InterfaceDescription
//!       (Body r)
//!   too_many : (i : CaptureInterfaceValue) → Describes order body i → most ≤ length before
//!       → RefusesBody most order before body InterfaceDescription TooManyInterfaces
//!   simple_alone : HasNoInterface before 0 → RefusesBody most order before body SimplePacket (NoInterface 0)
//!   simple : (i : CaptureInterfaceValue) (r : BodyRefusal) → IsAt before 0 i → RefusesSimplePacket order i.snap_len body r
//!       → RefusesBody most order before body SimplePacket (Body r)
//!   enhanced : (n : ℕ) (r : BodyRefusal) → RefusesEnhancedPacket order body r
//!       → RefusesBody most order before body (EnhancedPacket n) (Body r)
//!   enhanced_alone : (n : ℕ) (p : EnhancedPacketValue) → IsEnhancedPacket n order body p
//!       → HasNoInterface before p.interface
//!       → RefusesBody most order before body (EnhancedPacket n) (NoInterface p.interface)
//! ```
//!
//! Uses: [`Order`](#def.Order), [`CaptureInterfaceValue`](#def.CaptureInterfaceValue), [`BlockKind`](#def.BlockKind), [`CaptureRefusal`](#def.CaptureRefusal), [`BodyRefusal`](#def.BodyRefusal), [`RefusesInterface`](#def.RefusesInterface), [`InterfaceDescription`](#def.BlockKind), [`Body`](#def.CaptureRefusal), [`Describes`](#def.Describes), [`TooManyInterfaces`](#def.CaptureRefusal), [`HasNoInterface`](#def.HasNoInterface), [`SimplePacket`](#def.BlockKind), [`NoInterface`](#def.CaptureRefusal), [`IsAt`](#def.IsAt), [`RefusesSimplePacket`](#def.RefusesSimplePacket), [`RefusesEnhancedPacket`](#def.RefusesEnhancedPacket), [`EnhancedPacket`](#def.BlockKind), [`EnhancedPacketValue`](#def.EnhancedPacketValue), [`IsEnhancedPacket`](#def.IsEnhancedPacket)
//!
//! <a id="def.Begins"></a>
//!
//! ## `Begins`
//!
//! Bytes begin with a unit of len bytes: it has this packet, or none, and the second expectation holds after it.
//!
//! ```text
//! pub data Begins (bytes : List ℕ) : CaptureExpectation → (len : ℕ) → Option PacketValue → CaptureExpectation
//!     → Type 0 where
//!   file_header : (most : ℕ) (h : FileHeaderValue) → ¬ (HasSectionType bytes) → IsFileHeader bytes h
//!       → Begins bytes (Beginning most) 24 None (Records h)
//!   file_record : (h : FileHeaderValue) (r : RecordValue) → BeginsRecord h.order bytes r
//!       → Begins bytes (Records h) (record_len r) (Some (packet_of_record h r)) (Records h)
//!   first_section : (most : ℕ) (order : Order) (b : BlockValue) → IsSection bytes order b
//!       → Begins bytes (Beginning most) (12 + length b.body) None (Blocks most order [])
//!   section : (most : ℕ) (order next : Order) (interfaces : List CaptureInterfaceValue) (b : BlockValue)
//!       → IsSection bytes next b
//!       → Begins bytes (Blocks most order interfaces) (12 + length b.body) None (Blocks most next [])
//!   block : (most : ℕ) (order : Order) (interfaces after : List CaptureInterfaceValue) (packet : Option PacketValue)
//!       (b : BlockValue) → ¬ (HasSectionType bytes) → BeginsBlock order bytes b
//!       → IsBody (kind_of_block b.block_type) most order interfaces b.body packet after
//!       → Begins bytes (Blocks most order interfaces) (12 + length b.body) packet (Blocks most order after)
//! ```
//!
//! Uses: [`CaptureExpectation`](#def.CaptureExpectation), [`PacketValue`](#def.PacketValue), [`FileHeaderValue`](#def.FileHeaderValue), [`HasSectionType`](#def.HasSectionType), [`IsFileHeader`](#def.IsFileHeader), [`Beginning`](#def.CaptureExpectation), [`Records`](#def.CaptureExpectation), [`RecordValue`](#def.RecordValue), [`BeginsRecord`](#def.BeginsRecord), [`record_len`](#def.record_len), [`packet_of_record`](#def.packet_of_record), [`Order`](#def.Order), [`BlockValue`](#def.BlockValue), [`IsSection`](#def.IsSection), [`Blocks`](#def.CaptureExpectation), [`CaptureInterfaceValue`](#def.CaptureInterfaceValue), [`BeginsBlock`](#def.BeginsBlock), [`IsBody`](#def.IsBody), [`kind_of_block`](#def.kind_of_block)
//!
//! <a id="def.RefusesCapture"></a>
//!
//! ## `RefusesCapture`
//!
//! Bytes do not begin with a unit that is expected.
//!
//! ```text
//! pub data RefusesCapture (bytes : List ℕ) : CaptureExpectation → CaptureRefusal → Type 0 where
//!   file_header_refused : (most : ℕ) (r : FileRefusal) → ¬ (HasSectionType bytes) → RefusesFile bytes r
//!       → RefusesCapture bytes (Beginning most) (File r)
//!   file_record_refused : (h : FileHeaderValue) (r : RecordRefusal) → RefusesRecord h.order bytes r
//!       → RefusesCapture bytes (Records h) (Record r)
//!   first_section_refused : (most : ℕ) (r : SectionRefusal) → HasSectionType bytes → RefusesSection bytes r
//!       → RefusesCapture bytes (Beginning most) (Section r)
//!   section_refused : (most : ℕ) (order : Order) (interfaces : List CaptureInterfaceValue) (r : SectionRefusal)
//!       → HasSectionType bytes → RefusesSection bytes r → RefusesCapture bytes (Blocks most order interfaces) (Section r)
//!   block_refused : (most : ℕ) (order : Order) (interfaces : List CaptureInterfaceValue) (r : BlockRefusal)
//!       → ¬ (HasSectionType bytes) → RefusesBlock order bytes r → RefusesCapture bytes (Blocks most order interfaces)
//!       (Block r)
//!   body_refused : (most : ℕ) (order : Order) (interfaces : List CaptureInterfaceValue) (b : BlockValue)
//!       (r : CaptureRefusal) → ¬ (HasSectionType bytes) → BeginsBlock order bytes b
//!       → RefusesBody most order interfaces b.body (kind_of_block b.block_type) r
//!       → RefusesCapture bytes (Blocks most order interfaces) r
//! ```
//!
//! Uses: [`CaptureExpectation`](#def.CaptureExpectation), [`CaptureRefusal`](#def.CaptureRefusal), [`FileRefusal`](#def.FileRefusal), [`HasSectionType`](#def.HasSectionType), [`RefusesFile`](#def.RefusesFile), [`Beginning`](#def.CaptureExpectation), [`File`](#def.CaptureRefusal), [`FileHeaderValue`](#def.FileHeaderValue), [`RecordRefusal`](#def.RecordRefusal), [`RefusesRecord`](#def.RefusesRecord), [`Records`](#def.CaptureExpectation), [`Record`](#def.CaptureRefusal), [`SectionRefusal`](#def.SectionRefusal), [`RefusesSection`](#def.RefusesSection), [`Section`](#def.CaptureRefusal), [`Order`](#def.Order), [`CaptureInterfaceValue`](#def.CaptureInterfaceValue), [`Blocks`](#def.CaptureExpectation), [`BlockRefusal`](#def.BlockRefusal), [`RefusesBlock`](#def.RefusesBlock), [`Block`](#def.CaptureRefusal), [`BlockValue`](#def.BlockValue), [`BeginsBlock`](#def.BeginsBlock), [`RefusesBody`](#def.RefusesBody), [`kind_of_block`](#def.kind_of_block)
//!
//! <a id="def.required_len"></a>
//!
//! ## `required_len`
//!
//! The number of bytes that a unit needs, if it was refused because the bytes end within it.
//!
//! ```text
//! abbrev pub required_len : CaptureRefusal → Option ℕ
//! required_len (File (file.Short required len)) = Some required
//! required_len (Record (record_rows.Short required len)) = Some required
//! required_len (Section (section_rows.Short required len)) = Some required
//! required_len (Section (section_rows.Block (block_rows.Short required len))) = Some required
//! required_len (Block (block_rows.Short required len)) = Some required
//! required_len _ = None
//! ```
//!
//! Uses: [`CaptureRefusal`](#def.CaptureRefusal), [`File`](#def.CaptureRefusal), [`file.Short`](#def.FileRefusal), [`Record`](#def.CaptureRefusal), [`record_rows.Short`](#def.RecordRefusal), [`Section`](#def.CaptureRefusal), [`section_rows.Short`](#def.SectionRefusal), [`section_rows.Block`](#def.SectionRefusal), [`block_rows.Short`](#def.BlockRefusal), [`Block`](#def.CaptureRefusal)
//!
//! **A whole file**
//!
//! <a id="def.HasBegun"></a>
//!
//! ## `HasBegun`
//!
//! A file has begun.
//!
//! ```text
//! abbrev pub HasBegun : CaptureExpectation → Type 0
//! HasBegun (Beginning most) = ⊥
//! HasBegun _ = ⊤
//! ```
//!
//! Uses: [`CaptureExpectation`](#def.CaptureExpectation), [`Beginning`](#def.CaptureExpectation)
//!
//! # Writing
//!
//! What is written for a classic capture file: all that is read of it, and 0 for the rest (draft-ietf-opsawg-pcap,
//! sections 4 and 5).
//!
//! <a id="def.bytes_of"></a>
//!
//! ## `bytes_of`
//!
//! The k bytes of a number that fits in them.
//!
//! ```text
//! abbrev pub bytes_of : Order → (k n : ℕ) → List ℕ
//! bytes_of BigEndian k n = spelled k n
//! bytes_of LittleEndian k n = reverse (spelled k n)
//! ```
//!
//! Uses: [`Order`](#def.Order), [`BigEndian`](#def.Order), [`spelled`](crate::definitions::ether_base#def.spelled), [`LittleEndian`](#def.Order)
//!
//! <a id="def.zeros"></a>
//!
//! ## `zeros`
//!
//! ```text
//! abbrev pub zeros : ℕ → List ℕ
//! zeros zero = []
//! zeros (suc n) = 0 ∷ zeros n
//! ```
//!
//! <a id="def.HasFcsLen"></a>
//!
//! ## `HasFcsLen`
//!
//! What the header can give as the length of the frame check sequence: none, or a number of pairs of bytes that fits in
//! four bits.
//!
//! ```text
//! abbrev pub HasFcsLen : Option ℕ → Type 0
//! HasFcsLen None = ⊤
//! HasFcsLen (Some len) = (len % 2 ≡ 0) × (len ≤ 30)
//! ```
//!
//! <a id="def.link_word_of"></a>
//!
//! ## `link_word_of`
//!
//! The last number of the header: the link type; and, if there is a length, bit 26 (P) and the number of byte pairs
//! from bit 28 on.
//!
//! ```text
//! abbrev pub link_word_of : ℕ → Option ℕ → ℕ
//! link_word_of link_type None = link_type
//! link_word_of link_type (Some len) = len / 2 % 16 * 2 ^ 28 + 2 ^ 26 + link_type
//! ```
//!
//! <a id="def.WritesFileHeader"></a>
//!
//! ## `WritesFileHeader`
//!
//! Magic number 4 bytes, version 2.4 in 2 bytes each, 8 bytes of 0, snap length 4 bytes, the last number 4 bytes.
//!
//! ```text
//! pub record WritesFileHeader (bytes : List ℕ) (h : FileHeaderValue) : Type 0 where
//!   pub magic : HasMagic bytes h.order h.resolution
//!   pub major : field h.order bytes 4 6 ≡ 2
//!   pub minor : field h.order bytes 6 8 ≡ 4
//!   pub not_read : slice_range bytes 8 16 ≡ zeros 8
//!   pub snap_len : field h.order bytes 16 20 ≡ h.snap_len
//!   pub link : field h.order bytes 20 24 ≡ link_word_of h.link_type h.fcs_len
//! ```
//!
//! Uses: [`FileHeaderValue`](#def.FileHeaderValue), [`HasMagic`](#def.HasMagic), [`field`](#def.field), [`zeros`](#def.zeros), [`link_word_of`](#def.link_word_of)
//!
//! <a id="def.WritesRecordHeader"></a>
//!
//! ## `WritesRecordHeader`
//!
//! Seconds, fraction, number of captured bytes, original length, 4 bytes each.
//!
//! ```text
//! pub record WritesRecordHeader (order : Order) (bytes : List ℕ) (r : RecordValue) : Type 0 where
//!   pub seconds : field order bytes 0 4 ≡ r.seconds
//!   pub fraction : field order bytes 4 8 ≡ r.fraction
//!   pub captured_len : field order bytes 8 12 ≡ length r.packet % 2 ^ 32
//!   pub original_len : field order bytes 12 16 ≡ r.original_len
//! ```
//!
//! Uses: [`Order`](#def.Order), [`RecordValue`](#def.RecordValue), [`field`](#def.field)
//!
//! # Capture views
//!
//! What is read of a capture file of either format, and why a unit is refused, as values of the formats.
//!
//! <a id="def.timestamp_view"></a>
//!
//! ## `timestamp_view`
//!
//! ```text
//! abbrev pub timestamp_view : Timestamp → TimeValue
//! timestamp_view t = record { seconds = t.seconds; nanoseconds = t.nanoseconds }
//! ```
//!
//! Uses: [`TimeValue`](#def.TimeValue)
//!
//! <a id="def.direction_view"></a>
//!
//! ## `direction_view`
//!
//! ```text
//! abbrev pub direction_view : Direction → DirectionValue
//! direction_view directions.Inbound = Inbound
//! direction_view directions.Outbound = Outbound
//! ```
//!
//! Uses: [`DirectionValue`](#def.DirectionValue), `directions` (`Direction`), [`Inbound`](#def.DirectionValue), [`Outbound`](#def.DirectionValue)
//!
//! <a id="def.captured_packet_view"></a>
//!
//! ## `captured_packet_view`
//!
//! ```text
//! abbrev pub captured_packet_view : CapturedPacket → PacketValue
//! captured_packet_view p = record {
//!   time = option_map timestamp_view p.time;
//!   interface = p.interface;
//!   direction = option_map direction_view p.direction;
//!   comment = option_map (λ text. text.now) p.comment;
//!   original_len = p.original_len;
//!   link_type = p.link_type.0;
//!   snap_len = p.snap_len;
//!   fcs_len = p.fcs_len;
//!   packet = p.packet.now;
//! }
//! ```
//!
//! Uses: [`PacketValue`](#def.PacketValue), [`timestamp_view`](#def.timestamp_view), [`direction_view`](#def.direction_view)
//!
//! <a id="def.capture_refusal_view"></a>
//!
//! ## `capture_refusal_view`
//!
//! ```text
//! abbrev pub capture_refusal_view : CaptureError → CaptureRefusal
//! capture_refusal_view (errors.File error) = File (file_refusal_view error)
//! capture_refusal_view (errors.Record error) = Record (record_refusal_view error)
//! capture_refusal_view (errors.Section error) = Section (section_refusal_view error)
//! capture_refusal_view (errors.Block error) = Block (block_refusal_view error)
//! capture_refusal_view (errors.Body error) = Body (body_refusal_view error)
//! capture_refusal_view (errors.NoInterface number) = NoInterface number
//! capture_refusal_view errors.TooManyInterfaces = TooManyInterfaces
//! ```
//!
//! Uses: [`CaptureRefusal`](#def.CaptureRefusal), `errors` (`CaptureError`), [`File`](#def.CaptureRefusal), [`file_refusal_view`](#def.file_refusal_view), [`Record`](#def.CaptureRefusal), [`record_refusal_view`](#def.record_refusal_view), [`Section`](#def.CaptureRefusal), [`section_refusal_view`](#def.section_refusal_view), [`Block`](#def.CaptureRefusal), [`block_refusal_view`](#def.block_refusal_view), [`Body`](#def.CaptureRefusal), [`body_refusal_view`](#def.body_refusal_view), [`NoInterface`](#def.CaptureRefusal), [`TooManyInterfaces`](#def.CaptureRefusal)
//!
//! <a id="def.capture_interface_view"></a>
//!
//! ## `capture_interface_view`
//!
//! ```text
//! abbrev pub capture_interface_view : CaptureInterface → CaptureInterfaceValue
//! capture_interface_view i = record {
//!   link_type = i.link_type.0;
//!   snap_len = i.snap_len;
//!   fcs_len = i.fcs_len;
//!   resolution = i.time_resolution;
//!   offset = i.time_offset;
//! }
//! ```
//!
//! Uses: [`CaptureInterfaceValue`](#def.CaptureInterfaceValue)
//!
//! <a id="def.interfaces_view"></a>
//!
//! ## `interfaces_view`
//!
//! ```text
//! abbrev pub interfaces_view : List CaptureInterface → List CaptureInterfaceValue
//! interfaces_view interfaces = map capture_interface_view interfaces
//! ```
//!
//! Uses: [`CaptureInterfaceValue`](#def.CaptureInterfaceValue), [`capture_interface_view`](#def.capture_interface_view)
//!
//! <a id="def.expectation_of"></a>
//!
//! ## `expectation_of`
//!
//! What a reader expects that has read this, keeps these interfaces, and has room for `most` of them.
//!
//! ```text
//! abbrev pub expectation_of : (most : ℕ) → ReaderState → List CaptureInterface → CaptureExpectation
//! expectation_of most states.Nothing interfaces = Beginning most
//! expectation_of most (states.Classic header) interfaces = Records (file_header_view header)
//! expectation_of most (states.Section order) interfaces = Blocks most (order_of order) (interfaces_view interfaces)
//! ```
//!
//! Uses: [`CaptureExpectation`](#def.CaptureExpectation), `states` (`ReaderState`), [`Beginning`](#def.CaptureExpectation), [`Records`](#def.CaptureExpectation), [`file_header_view`](#def.file_header_view), [`Blocks`](#def.CaptureExpectation), [`order_of`](#def.order_of), [`interfaces_view`](#def.interfaces_view)
//!
//! # Read units
//!
//! What a unit of a capture file says, and what is known after it.
//!
//! <a id="def.ReadUnits.packet_in"></a>
//!
//! ## `packet_in`
//!
//! Its packet, if it has one.
//!
//! ```text
//! abbrev pub packet_in : UnitContent → Option PacketValue
//! packet_in (contents.Packet p) = Some (captured_packet_view p)
//! packet_in _ = None
//! ```
//!
//! Uses: [`PacketValue`](#def.PacketValue), `contents` (`UnitContent`), [`captured_packet_view`](#def.captured_packet_view)
//!
//! <a id="def.state_after"></a>
//!
//! ## `state_after`
//!
//! How far the file was read after it.
//!
//! ```text
//! abbrev pub state_after : ReaderState → UnitContent → ReaderState
//! state_after state (contents.FileHeader h) = states.Classic h
//! state_after state (contents.Section order) = states.Section order
//! state_after state _ = state
//! ```
//!
//! Uses: `contents` (`UnitContent`), `states` (`ReaderState`)
//!
//! <a id="def.IsNotClassic"></a>
//!
//! ## `IsNotClassic`
//!
//! Not in a classic file: each of its units is a record.
//!
//! ```text
//! abbrev pub IsNotClassic : ReaderState → Type 0
//! IsNotClassic (states.Classic h) = ⊥
//! IsNotClassic _ = ⊤
//! ```
//!
//! Uses: `states` (`ReaderState`)
//!
//! <a id="def.interfaces_after"></a>
//!
//! ## `interfaces_after`
//!
//! The interfaces that its section has described after it.
//!
//! ```text
//! abbrev pub interfaces_after : List CaptureInterface → UnitContent → List CaptureInterface
//! interfaces_after interfaces (contents.Section order) = []
//! interfaces_after interfaces (contents.Interface i) = interfaces ++ i ∷ []
//! interfaces_after interfaces _ = interfaces
//! ```
//!
//! Uses: `contents` (`UnitContent`)
//!
//! <a id="def.HasRoom"></a>
//!
//! ## `HasRoom`
//!
//! A table for `most` interfaces has room for these.
//!
//! ```text
//! abbrev pub HasRoom : (most : ℕ) → List CaptureInterface → UnitContent → Type 0
//! HasRoom most interfaces (contents.Interface i) = length interfaces < most
//! HasRoom most interfaces _ = ⊤
//! ```
//!
//! Uses: `contents` (`UnitContent`)
//!
//! <a id="def.IsFull"></a>
//!
//! ## `IsFull`
//!
//! > `HasRoom`: a table for `most` interfaces has room for these
//!
//! .. or is full.
//!
//! ```text
//! abbrev pub IsFull : (most : ℕ) → List CaptureInterface → UnitContent → Type 0
//! IsFull most interfaces (contents.Interface i) = most ≤ length interfaces
//! IsFull most interfaces _ = ⊥
//! ```
//!
//! Uses: `contents` (`UnitContent`)
//!
//! <a id="def.ReadsUnit"></a>
//!
//! ## `ReadsUnit`
//!
//! Bytes begin with this unit, whatever the room for interfaces; where there is none for the one that it describes, it
//! is refused.
//!
//! ```text
//! pub record ReadsUnit (bytes : List ℕ) (state : ReaderState) (interfaces : List CaptureInterface)
//!     (u : ReadUnit) : Type 0 where
//!   pub unit : (most : ℕ) → HasRoom most interfaces u.content
//!       → Begins bytes (expectation_of most state interfaces) u.len (packet_in u.content)
//!       (expectation_of most (state_after state u.content) (interfaces_after interfaces u.content))
//!   pub full : (most : ℕ) → IsFull most interfaces u.content
//!       → RefusesCapture bytes (expectation_of most state interfaces) TooManyInterfaces
//! ```
//!
//! Uses: [`HasRoom`](#def.HasRoom), [`Begins`](#def.Begins), [`expectation_of`](#def.expectation_of), [`packet_in`](#def.ReadUnits.packet_in), [`state_after`](#def.state_after), [`interfaces_after`](#def.interfaces_after), [`IsFull`](#def.IsFull), [`RefusesCapture`](#def.RefusesCapture), [`TooManyInterfaces`](#def.CaptureRefusal)
//!
//! # Option reading
//!
//! The options of a unit of a capture file, and an iterator over them.
//!
//! **Units**
//!
//! <a id="def.options_in"></a>
//!
//! ## `options_in`
//!
//! The bytes of the options in the body of a block: they follow the 8 bytes of an interface description (4.2), or the
//! 20 bytes of a packet and its captured bytes with their padding (4.3, appendix A). A simple packet has none (4.4), and
//! those of other blocks are not read.
//!
//! ```text
//! abbrev pub options_in : BlockKind → Order → (body : List ℕ) → List ℕ
//! options_in InterfaceDescription order body = drop 8 body
//! options_in (EnhancedPacket number_len) order body = drop (20 + padded (field order body 12 16)) body
//! options_in _ order body = []
//! ```
//!
//! Uses: [`BlockKind`](#def.BlockKind), [`Order`](#def.Order), [`InterfaceDescription`](#def.BlockKind), [`EnhancedPacket`](#def.BlockKind), [`padded`](#def.padded), [`field`](#def.field)
//!
//! <a id="def.HasOptionBytes"></a>
//!
//! ## `HasOptionBytes`
//!
//! Bytes begin with a unit of a pcapng file whose options, in this order, are these bytes. Those of a section header
//! follow 16 bytes (4.1).
//!
//! ```text
//! pub data HasOptionBytes (bytes : List ℕ) : ReaderState → ByteOrder → List ℕ → Type 0 where
//!   section : (state : ReaderState) (order : ByteOrder) (b : BlockValue) → IsNotClassic state
//!       → IsSection bytes (order_of order) b → HasOptionBytes bytes state order (drop 16 b.body)
//!   block : (order : ByteOrder) (b : BlockValue) → ¬ (HasSectionType bytes) → BeginsBlock (order_of order) bytes b
//!       → HasOptionBytes bytes (states.Section order) order
//!       (options_in (kind_of_block b.block_type) (order_of order) b.body)
//! ```
//!
//! Uses: [`BlockValue`](#def.BlockValue), [`IsNotClassic`](#def.IsNotClassic), [`IsSection`](#def.IsSection), [`order_of`](#def.order_of), [`HasSectionType`](#def.HasSectionType), [`BeginsBlock`](#def.BeginsBlock), `states` (`ReaderState`), [`options_in`](#def.options_in), [`kind_of_block`](#def.kind_of_block)
//!
//! **An iterator**
//!
//! <a id="def.OptionsState"></a>
//!
//! ## `OptionsState`
//!
//! The byte order, and the bytes that are left to read.
//!
//! ```text
//! pub record OptionsState : Type 0 where
//!   pub byte_order : ByteOrder
//!   pub rest : List ℕ
//! ```
//!
//! # Capture reading
//!
//! The state of an iterator over the packets of a file, and what a call of next returns, by the packets that are left
//! to read.
//!
//! <a id="def.CaptureState"></a>
//!
//! ## `CaptureState`
//!
//! What is expected, the bytes that are left to read, their place in the file, and whether a refusal was returned.
//!
//! ```text
//! pub record CaptureState : Type 0 where
//!   pub expected : CaptureExpectation
//!   pub rest : List ℕ
//!   pub offset : ℕ
//!   pub over : Bool
//! ```
//!
//! Uses: [`CaptureExpectation`](#def.CaptureExpectation)
//!
//! <a id="def.max_interfaces"></a>
//!
//! ## `max_interfaces`
//!
//! How many interfaces a section may describe.
//!
//! ```text
//! abbrev pub max_interfaces : ℕ
//! max_interfaces = 4096
//! ```
//!
//! <a id="def.start"></a>
//!
//! ## `start`
//!
//! Nothing is read.
//!
//! ```text
//! abbrev pub start : List ℕ → CaptureState
//! start bytes = record { expected = Beginning max_interfaces; rest = bytes; offset = 0; over = false }
//! ```
//!
//! Uses: [`CaptureState`](#def.CaptureState), [`Beginning`](#def.CaptureExpectation), [`max_interfaces`](#def.max_interfaces)
//!
//! # Editing
//!
//! The unit of a packet whose captured bytes and original length are edited: a record (draft-ietf-opsawg-pcap, section
//! 5), or a block with an enhanced packet or an obsolete packet block (draft-ietf-opsawg-pcapng, sections 3.1 and 4.3,
//! appendix A).
//!
//! <a id="def.EditedValue"></a>
//!
//! ## `EditedValue`
//!
//! What a packet is edited to: its length before it was cut, and its captured bytes.
//!
//! ```text
//! pub record EditedValue : Type 0 where
//!   pub original_len : ℕ
//!   pub packet : List ℕ
//! ```
//!
//! <a id="def.edited_front"></a>
//!
//! ## `edited_front`
//!
//! The bytes before the captured length; captured length and original length, 4 bytes each; the captured bytes.
//!
//! ```text
//! abbrev pub edited_front : Order → (place : ℕ) → EditedValue → List ℕ → List ℕ
//! edited_front order place e bytes =
//!     slice_range bytes 0 place ++ bytes_of order 4 (length e.packet) ++ bytes_of order 4 e.original_len ++ e.packet
//! ```
//!
//! Uses: [`Order`](#def.Order), [`EditedValue`](#def.EditedValue), [`bytes_of`](#def.bytes_of)
//!
//! <a id="def.edited_record"></a>
//!
//! ## `edited_record`
//!
//! A record: seconds and fraction precede the captured length.
//!
//! ```text
//! abbrev pub edited_record : Order → EditedValue → List ℕ → List ℕ
//! edited_record order e record_bytes = edited_front order 8 e record_bytes
//! ```
//!
//! Uses: [`Order`](#def.Order), [`EditedValue`](#def.EditedValue), [`edited_front`](#def.edited_front)
//!
//! <a id="def.edited_body"></a>
//!
//! ## `edited_body`
//!
//! The body of a packet with m captured bytes: interface and time precede the captured length; padding and the options
//! follow the packet.
//!
//! ```text
//! abbrev pub edited_body : Order → (m : ℕ) → EditedValue → List ℕ → List ℕ
//! edited_body order m e body =
//!     edited_front order 12 e body ++ zeros (padded (length e.packet) - length e.packet) ++ drop (20 + padded m) body
//! ```
//!
//! Uses: [`Order`](#def.Order), [`EditedValue`](#def.EditedValue), [`edited_front`](#def.edited_front), [`zeros`](#def.zeros), [`padded`](#def.padded)
//!
//! <a id="def.block_bytes"></a>
//!
//! ## `block_bytes`
//!
//! A block: type, total length, body, total length.
//!
//! ```text
//! abbrev pub block_bytes : Order → (block_type body : List ℕ) → List ℕ
//! block_bytes order block_type body =
//!     let total_len = bytes_of order 4 (12 + length body) in block_type ++ total_len ++ body ++ total_len
//! ```
//!
//! Uses: [`Order`](#def.Order), [`bytes_of`](#def.bytes_of)
//!
//! <a id="def.edited_block"></a>
//!
//! ## `edited_block`
//!
//! > `block_bytes`: a block: type, total length, body, total length
//!
//! .. or None if it is longer than a reader accepts.
//!
//! ```text
//! abbrev pub edited_block : BlockKind → Order → (m : ℕ) → EditedValue → List ℕ → Option (List ℕ)
//! edited_block (EnhancedPacket number_len) order m e block =
//!     let body = edited_body order m e (slice_range block 8 (length block - 4)) in
//!     if nat_lt max_block_len (12 + length body) then None else Some (block_bytes order (slice_range block 0 4) body)
//! edited_block _ order m e block = None
//! ```
//!
//! Uses: [`BlockKind`](#def.BlockKind), [`Order`](#def.Order), [`EditedValue`](#def.EditedValue), [`EnhancedPacket`](#def.BlockKind), [`edited_body`](#def.edited_body), [`max_block_len`](#def.max_block_len), [`block_bytes`](#def.block_bytes)
//!
//! <a id="def.unit_with"></a>
//!
//! ## `unit_with`
//!
//! The unit of a packet that had m captured bytes, after an edit. A simple packet has no captured length of its own
//! (4.4), and can't be edited.
//!
//! ```text
//! abbrev pub unit_with : CaptureExpectation → (m : ℕ) → EditedValue → List ℕ → Option (List ℕ)
//! unit_with (Beginning most) m e unit = None
//! unit_with (Records h) m e unit = Some (edited_record h.order e unit)
//! unit_with (Blocks most order interfaces) m e unit = edited_block (kind_of_block (field order unit 0 4)) order m e unit
//! ```
//!
//! Uses: [`CaptureExpectation`](#def.CaptureExpectation), [`EditedValue`](#def.EditedValue), [`Beginning`](#def.CaptureExpectation), [`Records`](#def.CaptureExpectation), [`edited_record`](#def.edited_record), [`Blocks`](#def.CaptureExpectation), [`edited_block`](#def.edited_block), [`kind_of_block`](#def.kind_of_block), [`field`](#def.field)
//!
//! <a id="def.is_too_long"></a>
//!
//! ## `is_too_long`
//!
//! More captured bytes than a reader accepts, or an original length that does not fit in 4 bytes.
//!
//! ```text
//! abbrev pub is_too_long : EditedValue → Bool
//! is_too_long e = if nat_lt max_captured_len (length e.packet) then true else nat_lt 4294967295 e.original_len
//! ```
//!
//! Uses: [`EditedValue`](#def.EditedValue), [`max_captured_len`](#def.max_captured_len)
//!
//! <a id="def.edited_unit"></a>
//!
//! ## `edited_unit`
//!
//! ```text
//! abbrev pub edited_unit : CaptureExpectation → (m : ℕ) → EditedValue → List ℕ → Option (List ℕ)
//! edited_unit x m e unit = if is_too_long e then None else unit_with x m e unit
//! ```
//!
//! Uses: [`CaptureExpectation`](#def.CaptureExpectation), [`EditedValue`](#def.EditedValue), [`is_too_long`](#def.is_too_long), [`unit_with`](#def.unit_with)
//!
//! <a id="def.edited_packet"></a>
//!
//! ## `edited_packet`
//!
//! The packet after the edit: all else is unchanged.
//!
//! ```text
//! abbrev pub edited_packet : EditedValue → PacketValue → PacketValue
//! edited_packet e p = record p { original_len = e.original_len; packet = e.packet }
//! ```
//!
//! Uses: [`EditedValue`](#def.EditedValue), [`PacketValue`](#def.PacketValue)
//!
//! **What a call returns**
//!
//! <a id="def.unit_bytes"></a>
//!
//! ## `unit_bytes`
//!
//! The bytes of an edited unit.
//!
//! ```text
//! abbrev pub unit_bytes : EditedUnit → List ℕ
//! unit_bytes (units.Record header packet) = header ++ packet.now
//! unit_bytes (units.Block header packet padding_len options trailer) =
//!     header ++ packet.now ++ zeros padding_len ++ options.now ++ trailer
//! ```
//!
//! Uses: `units` (`EditedUnit`), [`zeros`](#def.zeros)
//!
//! <a id="def.padding_of"></a>
//!
//! ## `padding_of`
//!
//! How many zeros pad the packet.
//!
//! ```text
//! abbrev pub padding_of : EditedUnit → ℕ
//! padding_of (units.Record header packet) = 0
//! padding_of (units.Block header packet padding_len options trailer) = padding_len
//! ```
//!
//! Uses: `units` (`EditedUnit`)
//!
//! <a id="def.EditsUnit"></a>
//!
//! ## `EditsUnit`
//!
//! If the bytes are the unit of a packet, the result is the unit of the edited packet.
//!
//! ```text
//! abbrev pub EditsUnit : CaptureExpectation → (unit : List ℕ) → EditedValue → Option EditedUnit → Type 0
//! EditsUnit x unit e result =
//!     (p : PacketValue) → Begins unit x (length unit) (Some p) x → option_map unit_bytes result
//!     ≡ edited_unit x (length p.packet) e unit
//! ```
//!
//! Uses: [`CaptureExpectation`](#def.CaptureExpectation), [`EditedValue`](#def.EditedValue), [`PacketValue`](#def.PacketValue), [`Begins`](#def.Begins), [`unit_bytes`](#def.unit_bytes), [`edited_unit`](#def.edited_unit)
//!
//! <a id="def.HasEditedPacket"></a>
//!
//! ## `HasEditedPacket`
//!
//! > `EditsUnit`: if the bytes are the unit of a packet, the result is the unit of the edited packet
//!
//! .. which is read as the edited packet, whatever follows it.
//!
//! ```text
//! abbrev pub HasEditedPacket : CaptureExpectation → (unit : List ℕ) → EditedValue → Option EditedUnit → Type 0
//! HasEditedPacket x unit e result =
//!     (p : PacketValue) → Begins unit x (length unit) (Some p) x
//!     → IfSome result (λ u. (more : List ℕ) → Begins (unit_bytes u ++ more) x (length (unit_bytes u))
//!     (Some (edited_packet e p)) x)
//! ```
//!
//! Uses: [`CaptureExpectation`](#def.CaptureExpectation), [`EditedValue`](#def.EditedValue), [`PacketValue`](#def.PacketValue), [`Begins`](#def.Begins), [`unit_bytes`](#def.unit_bytes), [`edited_packet`](#def.edited_packet)
//!
//! # Copied units
//!
//! What a copy of a capture file has for each unit: its bytes; or, if the copy is another capture, bytes that are true
//! of that capture (draft-ietf-opsawg-pcap, section 4; draft-ietf-opsawg-pcapng, section 4).
//!
//! <a id="def.ModeValue"></a>
//!
//! ## `ModeValue`
//!
//! Byte for byte; or as another capture, in which an edit adds at most this many bytes to a packet.
//!
//! ```text
//! pub data ModeValue : Type 0 where
//!   Exact : ModeValue
//!   Changed : (raise : ℕ) → ModeValue
//! ```
//!
//! <a id="def.copy_mode_view"></a>
//!
//! ## `copy_mode_view`
//!
//! ```text
//! abbrev pub copy_mode_view : CopyMode → ModeValue
//! copy_mode_view modes.Exact = Exact
//! copy_mode_view (modes.Changed raise) = Changed raise
//! ```
//!
//! Uses: [`ModeValue`](#def.ModeValue), `modes` (`CopyMode`), [`Exact`](#def.ModeValue), [`Changed`](#def.ModeValue)
//!
//! **Snap lengths**
//!
//! <a id="def.raised_len"></a>
//!
//! ## `raised_len`
//!
//! The raised snap length, a number of four bytes: at most as many bytes as a packet has. One that is not less is
//! unchanged, as is 0, no limit.
//!
//! ```text
//! abbrev pub raised_len : (raise snap_len : ℕ) → ℕ
//! raised_len raise n = if nat_eq n 0 then 0 else min (max n (min (n + raise) max_captured_len)) (2 ^ 32 - 1)
//! ```
//!
//! Uses: [`max_captured_len`](#def.max_captured_len)
//!
//! **Units without a packet**
//!
//! <a id="def.with_bytes"></a>
//!
//! ## `with_bytes`
//!
//! The bytes, in which new ones replace as many from the offset `at` on.
//!
//! ```text
//! abbrev pub with_bytes : (at : ℕ) → (new bytes : List ℕ) → List ℕ
//! with_bytes at new bytes = slice_range bytes 0 at ++ new ++ drop (at + length new) bytes
//! ```
//!
//! <a id="def.no_section_len"></a>
//!
//! ## `no_section_len`
//!
//! A section length of -1: it is not given (4.1).
//!
//! ```text
//! abbrev pub no_section_len : List ℕ
//! no_section_len = 255 ∷ 255 ∷ 255 ∷ 255 ∷ 255 ∷ 255 ∷ 255 ∷ 255 ∷ []
//! ```
//!
//! <a id="def.changed_block"></a>
//!
//! ## `changed_block`
//!
//! The snap length of an interface description (4.2) is raised. A custom block that is not meant to be copied to
//! another capture is left out.
//!
//! ```text
//! abbrev pub changed_block : ℕ → Order → (block : List ℕ) → List ℕ
//! changed_block raise order block =
//!     if nat_eq (field order block 0 4) 1
//!     then with_bytes 12 (bytes_of order 4 (raised_len raise (field order block 12 16))) block
//!     else (if nat_eq (field order block 0 4) 0x40000BAD then [] else block)
//! ```
//!
//! Uses: [`Order`](#def.Order), [`field`](#def.field), [`with_bytes`](#def.with_bytes), [`bytes_of`](#def.bytes_of), [`raised_len`](#def.raised_len)
//!
//! <a id="def.changed_unit"></a>
//!
//! ## `changed_unit`
//!
//! A unit after which this is expected. The snap length of a file header is raised, too, and a section header gives no
//! section length.
//!
//! ```text
//! abbrev pub changed_unit : ℕ → (after : CaptureExpectation) → (unit : List ℕ) → List ℕ
//! changed_unit raise (Beginning most) unit = unit
//! changed_unit raise (Records h) unit = with_bytes 16 (bytes_of h.order 4 (raised_len raise h.snap_len)) unit
//! changed_unit raise (Blocks most order interfaces) unit =
//!     if nat_eq (number (slice_range unit 0 4)) section_type then with_bytes 16 no_section_len unit
//!     else changed_block raise order unit
//! ```
//!
//! Uses: [`CaptureExpectation`](#def.CaptureExpectation), [`Beginning`](#def.CaptureExpectation), [`Records`](#def.CaptureExpectation), [`with_bytes`](#def.with_bytes), [`bytes_of`](#def.bytes_of), [`raised_len`](#def.raised_len), [`Blocks`](#def.CaptureExpectation), [`number`](crate::definitions::ether_base#def.number), [`section_type`](#def.section_type), [`no_section_len`](#def.no_section_len), [`changed_block`](#def.changed_block)
//!
//! <a id="def.other_unit"></a>
//!
//! ## `other_unit`
//!
//! ```text
//! abbrev pub other_unit : ModeValue → (after : CaptureExpectation) → (unit : List ℕ) → List ℕ
//! other_unit Exact after unit = unit
//! other_unit (Changed raise) after unit = changed_unit raise after unit
//! ```
//!
//! Uses: [`ModeValue`](#def.ModeValue), [`CaptureExpectation`](#def.CaptureExpectation), [`Exact`](#def.ModeValue), [`Changed`](#def.ModeValue), [`changed_unit`](#def.changed_unit)
//!
//! **Packets**
//!
//! <a id="def.is_kept"></a>
//!
//! ## `is_kept`
//!
//! The snap length gives the number of captured bytes of a simple packet (4.4). So one that was cut can't be copied
//! where the snap length is raised.
//!
//! ```text
//! abbrev pub is_kept : ℕ → BlockKind → PacketValue → Bool
//! is_kept raise SimplePacket p = nat_eq (captured_by (raised_len raise p.snap_len) p.original_len) (length p.packet)
//! is_kept raise _ p = true
//! ```
//!
//! Uses: [`BlockKind`](#def.BlockKind), [`PacketValue`](#def.PacketValue), [`SimplePacket`](#def.BlockKind), [`captured_by`](#def.captured_by), [`raised_len`](#def.raised_len)
//!
//! <a id="def.packet_unit"></a>
//!
//! ## `packet_unit`
//!
//! The unit of a packet that is not edited.
//!
//! ```text
//! abbrev pub packet_unit : ModeValue → CaptureExpectation → PacketValue → List ℕ → Option (List ℕ)
//! packet_unit (Changed raise) (Blocks most order interfaces) p unit =
//!     if is_kept raise (kind_of_block (field order unit 0 4)) p then Some unit else None
//! packet_unit _ x p unit = Some unit
//! ```
//!
//! Uses: [`ModeValue`](#def.ModeValue), [`CaptureExpectation`](#def.CaptureExpectation), [`PacketValue`](#def.PacketValue), [`Changed`](#def.ModeValue), [`Blocks`](#def.CaptureExpectation), [`is_kept`](#def.is_kept), [`kind_of_block`](#def.kind_of_block), [`field`](#def.field)
//!
//! **What a call returns**
//!
//! <a id="def.copied_bytes"></a>
//!
//! ## `copied_bytes`
//!
//! ```text
//! abbrev pub copied_bytes : CopiedUnit → List ℕ
//! copied_bytes (units.Same unit) = unit.now
//! copied_bytes units.LeftOut = []
//! copied_bytes (units.SnapLen front snap_len rest) = front.now ++ snap_len ++ rest.now
//! copied_bytes (units.SectionLen front rest) = front.now ++ no_section_len ++ rest.now
//! ```
//!
//! Uses: `units` (`CopiedUnit`), [`no_section_len`](#def.no_section_len)
//!
//! # Writing blocks
//!
//! What is written for the blocks of a pcapng file: all that is read of them, and 0 for reserved fields
//! (draft-ietf-opsawg-pcapng, sections 3.1, 3.5 and 4.1 to 4.3).
//!
//! <a id="def.section_body"></a>
//!
//! ## `section_body`
//!
//! Byte-order magic, version 1.0, and the section length -1, which means that none is given (4.1).
//!
//! ```text
//! abbrev pub section_body : Order → List ℕ
//! section_body order =
//!     bytes_of order 4 0x1A2B3C4D ++ (bytes_of order 2 1 ++ bytes_of order 2 0) ++ bytes_of order 4 0xFFFFFFFF
//!     ++ bytes_of order 4 0xFFFFFFFF
//! ```
//!
//! Uses: [`Order`](#def.Order), [`bytes_of`](#def.bytes_of)
//!
//! <a id="def.interface_head"></a>
//!
//! ## `interface_head`
//!
//! Link type, 0, snap length; options (4.2).
//!
//! ```text
//! abbrev pub interface_head : Order → InterfaceValue → List ℕ
//! interface_head order i = (bytes_of order 2 i.link_type ++ bytes_of order 2 0) ++ bytes_of order 4 i.snap_len
//! ```
//!
//! Uses: [`Order`](#def.Order), [`InterfaceValue`](#def.InterfaceValue), [`bytes_of`](#def.bytes_of)
//!
//! <a id="def.interface_body"></a>
//!
//! ## `interface_body`
//!
//! ```text
//! abbrev pub interface_body : Order → InterfaceValue → List ℕ
//! interface_body order i = interface_head order i ++ i.options
//! ```
//!
//! Uses: [`Order`](#def.Order), [`InterfaceValue`](#def.InterfaceValue), [`interface_head`](#def.interface_head)
//!
//! <a id="def.nanosecond_bytes"></a>
//!
//! ## `nanosecond_bytes`
//!
//! The option if\_tsresol (9) with the value for nanoseconds, one byte, padded; the end of options (3.5).
//!
//! ```text
//! abbrev pub nanosecond_bytes : Order → List ℕ
//! nanosecond_bytes order =
//!     (bytes_of order 2 9 ++ bytes_of order 2 1) ++ (9 ∷ 0 ∷ 0 ∷ 0 ∷ []) ++ (bytes_of order 2 0 ++ bytes_of order 2 0)
//! ```
//!
//! Uses: [`Order`](#def.Order), [`bytes_of`](#def.bytes_of)
//!
//! <a id="def.packet_head"></a>
//!
//! ## `packet_head`
//!
//! Interface, time with its upper half first, captured length, original length; packet, padding, options (4.3).
//!
//! ```text
//! abbrev pub packet_head : Order → EnhancedPacketValue → List ℕ
//! packet_head order p =
//!     bytes_of order 4 p.interface ++ bytes_of order 4 (p.time / 2 ^ 32) ++ bytes_of order 4 (p.time % 2 ^ 32)
//!     ++ bytes_of order 4 (length p.packet) ++ bytes_of order 4 p.original_len
//! ```
//!
//! Uses: [`Order`](#def.Order), [`EnhancedPacketValue`](#def.EnhancedPacketValue), [`bytes_of`](#def.bytes_of)
//!
//! <a id="def.packet_padding"></a>
//!
//! ## `packet_padding`
//!
//! ```text
//! abbrev pub packet_padding : EnhancedPacketValue → List ℕ
//! packet_padding p = zeros (padded (length p.packet) - length p.packet)
//! ```
//!
//! Uses: [`EnhancedPacketValue`](#def.EnhancedPacketValue), [`zeros`](#def.zeros), [`padded`](#def.padded)
//!
//! <a id="def.packet_body"></a>
//!
//! ## `packet_body`
//!
//! ```text
//! abbrev pub packet_body : Order → EnhancedPacketValue → List ℕ
//! packet_body order p = packet_head order p ++ p.packet ++ packet_padding p ++ p.options
//! ```
//!
//! Uses: [`Order`](#def.Order), [`EnhancedPacketValue`](#def.EnhancedPacketValue), [`packet_head`](#def.packet_head), [`packet_padding`](#def.packet_padding)
//!
//! <a id="def.interface_block_len"></a>
//!
//! ## `interface_block_len`
//!
//! The lengths of the whole blocks.
//!
//! ```text
//! abbrev pub interface_block_len : InterfaceValue → ℕ
//! interface_block_len i = 20 + length i.options
//! ```
//!
//! Uses: [`InterfaceValue`](#def.InterfaceValue)
//!
//! <a id="def.packet_block_len"></a>
//!
//! ## `packet_block_len`
//!
//! ```text
//! abbrev pub packet_block_len : EnhancedPacketValue → ℕ
//! packet_block_len p = 32 + padded (length p.packet) + length p.options
//! ```
//!
//! Uses: [`EnhancedPacketValue`](#def.EnhancedPacketValue), [`padded`](#def.padded)
//!
//! <a id="def.InterfaceIsRead"></a>
//!
//! ## `InterfaceIsRead`
//!
//! A header that is written for an interface description or an enhanced packet is read back as it, if its options or
//! its packet follow, and then the block's length.
//!
//! ```text
//! abbrev pub InterfaceIsRead : Order → (header : List ℕ) → InterfaceValue → Type 0
//! InterfaceIsRead order header i =
//!     IsTotalLen (interface_block_len i) → (rest : List ℕ)
//!     → BeginsBlock order (header ++ i.options ++ bytes_of order 4 (interface_block_len i) ++ rest)
//!     (record { block_type = 1; body = interface_body order i })
//!     × IsInterface order (interface_body order i) i
//! ```
//!
//! Uses: [`Order`](#def.Order), [`InterfaceValue`](#def.InterfaceValue), [`IsTotalLen`](#def.IsTotalLen), [`interface_block_len`](#def.interface_block_len), [`BeginsBlock`](#def.BeginsBlock), [`bytes_of`](#def.bytes_of), [`interface_body`](#def.interface_body), [`IsInterface`](#def.IsInterface)
//!
//! <a id="def.PacketIsRead"></a>
//!
//! ## `PacketIsRead`
//!
//! ```text
//! abbrev pub PacketIsRead : Order → (header : List ℕ) → EnhancedPacketValue → Type 0
//! PacketIsRead order header p =
//!     length p.packet ≤ max_captured_len → IsTotalLen (packet_block_len p) → (rest : List ℕ)
//!     → BeginsBlock order (header ++ p.packet ++ packet_padding p ++ p.options ++ bytes_of order 4 (packet_block_len p)
//!     ++ rest)
//!     (record { block_type = 6; body = packet_body order p })
//!     × IsEnhancedPacket 4 order (packet_body order p) p
//! ```
//!
//! Uses: [`Order`](#def.Order), [`EnhancedPacketValue`](#def.EnhancedPacketValue), [`max_captured_len`](#def.max_captured_len), [`IsTotalLen`](#def.IsTotalLen), [`packet_block_len`](#def.packet_block_len), [`BeginsBlock`](#def.BeginsBlock), [`packet_padding`](#def.packet_padding), [`bytes_of`](#def.bytes_of), [`packet_body`](#def.packet_body), [`IsEnhancedPacket`](#def.IsEnhancedPacket)
//!
