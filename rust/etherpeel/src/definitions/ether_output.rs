//! Text on its way to a writer.
//!
//! # Decimals
//!
//! Numbers in a fixed count of decimal digits.
//!
//! <a id="def.two_digits"></a>
//!
//! ## `two_digits`
//!
//! The two digits of a number below a hundred, with a leading zero.
//!
//! ```text
//! abbrev pub two_digits : ℕ → List ℕ
//! two_digits n = (48 + n / 10) ∷ (48 + n % 10) ∷ []
//! ```
//!
//! <a id="def.eight_digits"></a>
//!
//! ## `eight_digits`
//!
//! The lowest eight digits of a number, with leading zeros.
//!
//! ```text
//! unfoldable pub eight_digits : ℕ → List ℕ
//! eight_digits n =
//!     (48 + n / 10 ^ 7 % 10) ∷ (48 + n / 10 ^ 6 % 10) ∷ (48 + n / 10 ^ 5 % 10) ∷ (48 + n / 10 ^ 4 % 10)
//!     ∷ (48 + n / 10 ^ 3 % 10) ∷ (48 + n / 10 ^ 2 % 10) ∷ (48 + n / 10 % 10) ∷ (48 + n % 10) ∷ []
//! ```
//!
//! # Hex text
//!
//! Bytes as hexadecimal text.
//!
//! <a id="def.hex_text"></a>
//!
//! ## `hex_text`
//!
//! Two lower-case digits for each byte.
//!
//! ```text
//! unfoldable pub hex_text : List ℕ → List ℕ
//! hex_text bytes = flat_map (hex_byte false) bytes
//! ```
//!
//! Uses: [`hex_byte`](crate::definitions::ether_base#def.hex_byte)
//!
//! # Output buffer
//!
//! A writer and the text that waits for it.
//!
//! <a id="def.room"></a>
//!
//! ## `room`
//!
//! How many bytes may wait.
//!
//! ```text
//! abbrev pub room : ℕ
//! room = 65536
//! ```
//!
//! <a id="def.contents_of"></a>
//!
//! ## `contents_of`
//!
//! The writer's contents, if they are known, followed by the text that waits.
//!
//! ```text
//! abbrev pub contents_of : {W : Type 0} → (W → Option (List ℕ)) → OutputBuffer W → Option (List ℕ)
//! contents_of contents g = append_known (contents g.writer.now) g.waiting.items
//! ```
//!
//! <a id="def.Marks"></a>
//!
//! ## `Marks`
//!
//! The mark of a fault is set only if it was set before, or a call of the writer has failed.
//!
//! ```text
//! pub record Marks {W : Type 0} (can_fail : Type 0) (old new : OutputBuffer W) : Type 0 where
//!   pub cause : new.has_failed ≡ true → (old.has_failed ≡ true) ⊎ can_fail
//! ```
//!
//! <a id="def.Grows"></a>
//!
//! ## `Grows`
//!
//! The writer is the same. Unless it has failed by now, it had not failed before, and its contents and the text that
//! waits have together grown by the bytes. Once it has failed it is not called again.
//!
//! ```text
//! pub record Grows {W : Type 0} (contents : W → Option (List ℕ)) (can_fail : Type 0) (old : OutputBuffer W)
//!     (bytes : List ℕ) (new : OutputBuffer W) : Type 0 where
//!   pub same_writer : new.writer.ghost_name ≡ old.writer.ghost_name
//!   pub going : new.has_failed ≡ false → old.has_failed ≡ false
//!   pub grown : new.has_failed ≡ false → Appends (contents_of contents old) (contents_of contents new) bytes
//!   pub marks : Marks can_fail old new
//!   pub untouched : old.has_failed ≡ true → new.writer ≡ old.writer
//! ```
//!
//! Uses: [`contents_of`](#def.contents_of), [`Marks`](#def.Marks)
//!
//! <a id="def.Waits"></a>
//!
//! ## `Waits`
//!
//! The bytes wait after those that waited, and nothing else has changed.
//!
//! ```text
//! pub record Waits {W : Type 0} (old : OutputBuffer W) (bytes : List ℕ) (new : OutputBuffer W) : Type 0 where
//!   pub items : new.waiting.items ≡ old.waiting.items ++ bytes
//!   pub same_writer : new.writer ≡ old.writer
//!   pub same_mark : new.has_failed ≡ old.has_failed
//! ```
//!
//! <a id="def.Takes"></a>
//!
//! ## `Takes`
//!
//! > `Waits`: the bytes wait after those that waited, and nothing else has changed
//!
//! .. and if there is room for the bytes, they wait, and the writer is not called.
//!
//! ```text
//! pub record Takes {W : Type 0} (contents : W → Option (List ℕ)) (can_fail : Type 0) (old : OutputBuffer W)
//!     (bytes : List ℕ) (new : OutputBuffer W) : Type 0 where
//!   pub grows : Grows contents can_fail old bytes new
//!   pub fitting : length old.waiting.items + length bytes ≤ room → Waits old bytes new
//! ```
//!
//! Uses: [`Grows`](#def.Grows), [`room`](#def.room), [`Waits`](#def.Waits)
//!
//! <a id="def.WritesOut"></a>
//!
//! ## `WritesOut`
//!
//! The writer had not failed, has not failed now, and holds what waited, and no text waits.
//!
//! ```text
//! pub record WritesOut {W : Type 0} (contents : W → Option (List ℕ)) (old new : OutputBuffer W) : Type 0 where
//!   pub going : old.has_failed ≡ false
//!   pub goes_on : new.has_failed ≡ false
//!   pub written : Appends (contents old.writer.now) (contents new.writer.now) old.waiting.items
//!   pub none_waits : new.waiting.items ≡ []
//! ```
//!
//! <a id="def.TakesAnswer"></a>
//!
//! ## `TakesAnswer`
//!
//! The buffer takes the text for a frame.
//!
//! ```text
//! pub record TakesAnswer {W : Type 0} (contents : W → Option (List ℕ)) (can_fail : Type 0) (IsAnswer : (text : List ℕ)
//!     → (accepted : Bool) → Type 0) (old new : OutputBuffer W) (accepted : Bool) : Type 0 where
//!   pub text : List ℕ
//!   pub answers : IsAnswer text accepted
//!   pub taken : Takes contents can_fail old text new
//! ```
//!
//! Uses: [`Takes`](#def.Takes)
//!
//! # Words
//!
//! Words for what a walk says, and whether it ends with a fault.
//!
//! <a id="def.source_text"></a>
//!
//! ## `source_text`
//!
//! ```text
//! abbrev pub source_text : LenSource → List ℕ
//! source_text sources.Slice = codes "slice"
//! source_text sources.MacsecShortLength = codes "macsec_short_length"
//! source_text sources.Ipv4HeaderTotalLen = codes "ipv4_total_len"
//! source_text sources.Ipv6HeaderPayloadLen = codes "ipv6_payload_len"
//! source_text sources.UdpHeaderLen = codes "udp_len"
//! source_text sources.TcpHeaderLen = codes "tcp_len"
//! source_text sources.ArpAddrLengths = codes "arp_addr_lengths"
//! ```
//!
//! Uses: `sources` (`LenSource`)
//!
//! <a id="def.is_accepted"></a>
//!
//! ## `is_accepted`
//!
//! ```text
//! abbrev pub is_accepted : Ending → Bool
//! is_accepted (Accepted w x) = true
//! is_accepted (Fault w x r) = false
//! ```
//!
//! Uses: [`Ending`](crate::definitions::ether_peel#def.Ending), [`Accepted`](crate::definitions::ether_peel#def.Ending), [`Fault`](crate::definitions::ether_peel#def.Ending)
//!
