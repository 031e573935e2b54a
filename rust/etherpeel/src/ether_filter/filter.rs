//! Filters, which are read from text.

use crate::ether_filter::decision::Decision;
use crate::ether_filter::filter_error::{FilterError, FilterErrorKind};
use crate::ether_filter::filter_program;
use crate::ether_filter::instruction::Instruction;
use crate::ether_filter::node::Node;
use crate::ether_filter::packet::Packet;
use crate::ether_filter::reading::Reading;
use crate::ether_filter::text_words::next_word;
use crate::ether_filter::token::token_of;
use arrayvec::ArrayVec;

/// The maximum number of words in an expression.
pub(in crate::ether_filter) const MAX_WORDS: usize = 192;

/// A filter of packets: an expression in words of pcap-filter(7).
///
/// An expression is one primitive, or several with `not` (or `!`), `and` (`&&`), `or` (`||`) and parentheses.
/// `not` applies to what directly follows it: one primitive, one group in parentheses, or another `not`. `and` and
/// `or` can be mixed only with parentheses, because readers disagree on what they mean without.
///
/// | Primitive | A packet matches if |
/// |---|---|
/// | `vlan` | it has a VLAN tag |
/// | `vlan N` | one of its VLAN tags has the identifier `N` |
/// | `outer vlan N` | its first VLAN tag has the identifier `N` |
/// | `inner vlan N` | it has two or more VLAN tags, and the last one has the identifier `N` |
/// | `macsec` | it has a MACsec SecTag |
/// | `ether proto N` | the ether type `N` is announced, at its start or by one of its headers |
/// | `arp`, `ip`, `ip6` | the same for 0x0806, 0x0800, 0x86DD |
/// | `ether src A`, `ether dst A`, `ether host A` | its Ethernet II header has the address `A` as source, destination,
/// or either |
/// | `ether broadcast`, `ether multicast` | its Ethernet II header has the broadcast address, or any group address, as
/// destination |
/// | `refused`, `fault` | one of its headers is refused: cut short or malformed |
/// | `cut` | fewer bytes were captured than were on the wire |
/// | `less N`, `greater N` | it had at most, or at least, `N` bytes on the wire |
/// | `FIELD` | it has a value of the field |
/// | `FIELD == V`, `FIELD < V`, `FIELD <= V`, `FIELD > V`, `FIELD >= V` | one of the field's values has this relation
/// to `V` |
/// | `FIELD != V` | it has a value of the field, and none is `V` |
/// | `FIELD in {V, V}` | one of the field's values is in the set |
///
/// Each primitive asks about the whole packet, whatever other words the expression has. All VLAN tags and SecTags are
/// read, but no encrypted or modified payload.
///
/// `FIELD` is the column name of a field of Ethernet II, cooked capture v1, VLAN tags, SecTags or ARP packets
/// (`Field::column` of `ether_fields`), as `vlan.pcp` or `arp.spa`. A packet can have several values of a field, as
/// that of each VLAN tag. `FIELD` can also be `headers.header`, whose values are the names of these headers, as `vlan`, or
/// `frame.captured`, `frame.original` or `frame.time`: what the capture says of the packet. After `FIELD & MASK` only
/// the bits of the mask are compared. `FIELD[FIRST:COUNT]` is a slice of `COUNT` of the field's bytes, up to eight,
/// from the offset `FIRST` on.
///
/// A number is decimal, without leading zeros, or hexadecimal after `0x`. An address is six pairs of hexadecimal
/// digits with colons between them, or twelve digits. `V` is a number, or, for fields of bytes, two to eight pairs of
/// hexadecimal digits with colons, or an address of IPv4, as `10.0.0.1`. Bytes are equal only to as many bytes. A time
/// is a date and a time of day in UTC, as `2026-11-01T00:00:00Z`, from 1970 to 2553, with up to nine decimals of the
/// second, between quotation marks or without. Blanks, parentheses, braces, commas, `!` and the signs of relations
/// separate words.
///
/// No call allocates memory.
///
/// ```
/// use etherpeel::ether_peel::Start;
/// use etherpeel::ether_filter::{Filter, Packet};
///
/// let tagged_arp = [
///     0xFF, 0xFF, 0xFF, 0xFF, 0xFF, 0xFF, 0x02, 0x00, 0x00, 0x00, 0x00, 0x01, 0x81, 0x00, // Ethernet II
///     0x00, 0x05, 0x08, 0x06, // VLAN
/// ];
/// let packet = Packet {
///     start: Start::Ethernet2,
///     frame: &tagged_arp,
///     captured_len: 18,
///     original_len: 64,
///     time: None,
/// };
/// for (text, wanted) in [
///     (b"vlan 5 and arp".as_slice(), true),
///     (b"not (vlan 5 or cut)".as_slice(), false),
///     (b"vlan.vid == 5 and eth.src[0:3] == 02:00:00".as_slice(), true),
/// ] {
///     let matches = Filter::parse(text).map(|filter| filter.matches(&packet));
///     assert_eq!(matches, Ok(wanted));
/// }
/// ```
#[derive(Clone, PartialEq, Eq, Hash, Debug)]
pub struct Filter {
    /// The instructions of the expression's nodes: each operator's follows those of its operands.
    instructions: ArrayVec<Instruction, MAX_WORDS>,
}

impl Filter {
    /// The maximum number of words in an expression, 192. An expression of up to 64 primitives and operators has fewer
    /// words if it has no needless parentheses.
    pub const MAX_WORDS: usize = MAX_WORDS;

    /// Reads a filter from text, in the words that [`Filter`] lists.
    ///
    /// # Errors
    ///
    /// The error names the first word that does not fit after those before it, or that exceeds
    /// [`MAX_WORDS`](Self::MAX_WORDS), or the end of the text if words are missing there.
    ///
    /// <details><summary>Contract</summary>
    ///
    /// ```text
    /// ensures ok { IfOk result (IsExpressionOf text.now) }
    /// ensures err { IfErr result (RefusesText text.now) }
    /// ```
    ///
    /// Words: [`IsExpressionOf`](crate::definitions::ether_filter#def.IsExpressionOf),
    /// [`RefusesText`](crate::definitions::ether_filter#def.RefusesText). [Notation](crate::definitions::notation)
    ///
    /// </details>
    #[inline]
    pub fn parse(text: &[u8]) -> Result<Filter, FilterError> {
        match read(text) {
            Ok(nodes) => Ok(Filter {
                instructions: filter_program::instructions_of(nodes.as_slice()),
            }),
            Err(error) => Err(error),
        }
    }

    /// The instructions of the filter, which a caller can copy to memory of its own. The module
    /// [`filter_program`](crate::ether_filter::filter_program) runs them on packets.
    ///
    /// <details><summary>Contract</summary>
    ///
    /// ```text
    /// ensures { IsProgramOf result.now self.now }
    /// ```
    ///
    /// Words: [`IsProgramOf`](crate::definitions::ether_filter#def.IsProgramOf).
    /// [Notation](crate::definitions::notation)
    ///
    /// </details>
    #[must_use]
    #[inline]
    pub fn instructions(&self) -> &[Instruction] {
        self.instructions.as_slice()
    }

    /// Returns `true` if the captured bytes of a packet match. For a packet that was cut, [`decide`](Self::decide)
    /// says what is certain.
    ///
    /// <details><summary>Contract</summary>
    ///
    /// ```text
    /// ensures { (hs : List Header) (e : Ending) → Walk (start_of packet.now.start) packet.now.frame.now hs e
    ///     → IsTrue result ↔ Holds self.now (walked packet.now hs e) }
    /// ```
    ///
    /// Words: [`Header`](crate::definitions::ether_base#def.Header),
    /// [`Ending`](crate::definitions::ether_peel#def.Ending), [`Walk`](crate::definitions::ether_peel#def.Walk),
    /// [`start_of`](crate::definitions::ether_peel#def.start_of),
    /// [`Holds`](crate::definitions::ether_filter#def.Holds),
    /// [`walked`](crate::definitions::ether_filter#def.walked). [Notation](crate::definitions::notation)
    ///
    /// </details>
    #[must_use]
    #[inline]
    pub fn matches(&self, packet: &Packet<'_>) -> bool {
        filter_program::matches(self.instructions.as_slice(), packet)
    }

    /// Decides whether a packet matches if some of its bytes may be missing.
    ///
    /// `Matches` and `Fails` hold whatever the missing `original_len - captured_len` bytes are. `Needs(n)` means that
    /// the answer is unknown, and remains unknown while fewer than `n` bytes of the frame are captured. The last part
    /// is not said of filters that test `frame.captured`, which is another number if more bytes are captured.
    ///
    /// A primitive about headers is unknown exactly if some missing bytes make the packet match and others do not; `n` is
    /// then the least length with which some bytes decide it. So `vlan` matches a frame that was cut within its first
    /// tag, if the packet had the whole tag. `not`, `and` and `or` follow Kleene's three-valued logic, and `n` is the
    /// least of what their unknown operands need: `vlan 5 and greater 100` fails for a packet of 64 bytes, even if its
    /// VLAN tags are unknown.
    ///
    /// A test of a field is unknown as long as the header that was cut short, or one after it, might still have a value
    /// of the field, even if no value can change the answer; `n` is then the length at which that header is whole. If
    /// the frame ends in a frame check sequence, such a test needs all bytes of the frame.
    ///
    /// ```
    /// use etherpeel::ether_peel::Start;
    /// use etherpeel::ether_filter::{Decision, Filter, Packet};
    ///
    /// let cut_in_tag = [
    ///     0xFF, 0xFF, 0xFF, 0xFF, 0xFF, 0xFF, 0x02, 0x00, 0x00, 0x00, 0x00, 0x01, 0x81, 0x00, // Ethernet II
    ///     0x00, // the first byte of a VLAN tag
    /// ];
    /// let packet = Packet {
    ///     start: Start::Ethernet2,
    ///     frame: &cut_in_tag,
    ///     captured_len: 15,
    ///     original_len: 64,
    ///     time: None,
    /// };
    /// for (text, wanted) in [
    ///     (b"vlan".as_slice(), Decision::Matches),
    ///     (b"vlan 5".as_slice(), Decision::Needs(16)),
    ///     (b"not macsec".as_slice(), Decision::Needs(17)),
    ///     (b"vlan 5 and greater 100".as_slice(), Decision::Fails),
    ///     (b"vlan.pcp <= 7".as_slice(), Decision::Needs(18)),
    /// ] {
    ///     let decision = Filter::parse(text).map(|filter| filter.decide(&packet));
    ///     assert_eq!(decision, Ok(wanted));
    /// }
    /// ```
    ///
    /// <details><summary>Contract</summary>
    ///
    /// ```text
    /// ensures says { (hs : List Header) (e : Ending) → Walk (start_of packet.now.start) packet.now.frame.now hs e
    ///     → (d : Decision) → (result ≡ d) ↔ Says packet.now hs e self.now d }
    /// ensures matches { result ≡ Decision.Matches → AtCompletions packet.now (Holds self.now) }
    /// ensures fails { result ≡ Decision.Fails → AtCompletions packet.now (λ w. ¬ (Holds self.now w)) }
    /// ensures needs { (n : ℕ) → result ≡ Decision.Needs n → StaysUnknown packet.now n self.now }
    /// ```
    ///
    /// Words: [`Header`](crate::definitions::ether_base#def.Header),
    /// [`Ending`](crate::definitions::ether_peel#def.Ending), [`Walk`](crate::definitions::ether_peel#def.Walk),
    /// [`start_of`](crate::definitions::ether_peel#def.start_of),
    /// [`Says`](crate::definitions::ether_filter#def.Says),
    /// [`AtCompletions`](crate::definitions::ether_filter#def.AtCompletions),
    /// [`Holds`](crate::definitions::ether_filter#def.Holds),
    /// [`StaysUnknown`](crate::definitions::ether_filter#def.StaysUnknown). [Notation](crate::definitions::notation)
    ///
    /// </details>
    #[must_use]
    #[inline]
    pub fn decide(&self, packet: &Packet<'_>) -> Decision {
        filter_program::decide(self.instructions.as_slice(), packet)
    }
}

/// Reads the nodes of an expression.
#[inline]
fn read(text: &[u8]) -> Result<ArrayVec<Node, MAX_WORDS>, FilterError> {
    let mut reading = Reading::new();
    let mut count = 0;
    let mut at = 0;
    while let Some(word) = next_word(text, at) {
        let offset = word.start;
        if count == MAX_WORDS {
            let kind = FilterErrorKind::TooLong;
            return Err(FilterError { offset, kind });
        }
        match reading.take(token_of(&text[word.start..word.end])) {
            Ok(()) => {}
            Err(kind) => return Err(FilterError { offset, kind }),
        }
        count += 1;
        at = word.end;
    }
    match reading.finish() {
        Ok(nodes) => Ok(nodes),
        Err(kind) => Err(FilterError {
            offset: text.len(),
            kind,
        }),
    }
}
