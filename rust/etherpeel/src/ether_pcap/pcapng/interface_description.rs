//! The body of an interface description.

use crate::ether_pcap::pcapng::pcapng_option::{option_value, u64_option};
use crate::ether_pcap::word_bytes::{four_words, half_words, len_word, three_words, word};
use crate::ether_pcap::{BodyError, ByteOrder, LinkType, PcapngBlock, PcapngOption};

/// The code of the option with the resolution of times, `if_tsresol`.
const TIME_RESOLUTION: u16 = 9;

/// The code of the option with the length of the frame check sequence, `if_fcslen`.
const FCS_LEN: u16 = 13;

/// The code of the option with the offset of times, `if_tsoffset`.
const TIME_OFFSET: u16 = 14;

/// A view of the body of an interface description (draft-ietf-opsawg-pcapng, section 4.2): the interface on which
/// packets were captured.
///
/// ```text
///  0           2          4          8
///  +-----------+----------+----------+-- ..
///  | link type | reserved | snap len | options
///  +-----------+----------+----------+-- ..
/// ```
///
/// The interfaces of a section are counted from 0 in the order of their blocks.
///
/// ```
/// use etherpeel::ether_pcap::{ByteOrder, InterfaceDescription, LinkType};
///
/// # fn main() -> Result<(), Box<dyn std::error::Error>> {
/// let body = [
///     0x00, 0x01, 0x00, 0x00, 0x00, 0x04, 0x00, 0x00, // link type, snap length
///     0x00, 0x02, 0x00, 0x04, 0x65, 0x74, 0x68, 0x30, // if_name
///     0x00, 0x0D, 0x00, 0x01, 0x04, 0x00, 0x00, 0x00, // if_fcslen
/// ];
/// let interface = InterfaceDescription::from_body(ByteOrder::BigEndian, &body)?;
/// assert_eq!(interface.link_type, LinkType::ETHERNET);
/// assert_eq!(interface.snap_len, 262_144);
/// assert_eq!(interface.name(), Some(b"eth0".as_slice()));
/// assert_eq!(interface.description(), None);
/// assert_eq!(interface.fcs_len(), Some(4));
/// # Ok(())
/// # }
/// ```
#[derive(Clone, Copy, PartialEq, Eq, Debug)]
pub struct InterfaceDescription<'a> {
    /// The byte order of its numbers and options.
    pub byte_order: ByteOrder,
    /// What each packet of the interface begins with.
    pub link_type: LinkType,
    /// The length in bytes to which longer packets were cut when they were captured; 0 if there is no limit.
    pub snap_len: u32,
    /// The bytes of the options, over which [`PcapngOptions`](crate::ether_pcap::PcapngOptions) iterates.
    pub options: &'a [u8],
}

impl<'a> InterfaceDescription<'a> {
    /// Reads the body of a block of type
    /// [`PcapngBlock::INTERFACE_DESCRIPTION`](crate::ether_pcap::PcapngBlock::INTERFACE_DESCRIPTION).
    ///
    /// # Errors
    ///
    /// `BodyError::Len` if the body has fewer than 8 bytes: `required_len` is 8, `len` the body's length.
    ///
    /// <details><summary>Contract</summary>
    ///
    /// ```text
    /// ensures order { IfOk result (λ i. i.byte_order ≡ byte_order) }
    /// ensures interface { IfOk result (λ i. IsInterface (order_of byte_order) body.now (interface_view i)) }
    /// ensures refused { IfErr result (λ e. RefusesInterface body.now (body_refusal_view e)) }
    /// ```
    ///
    /// Words: [`IsInterface`](crate::definitions::ether_pcap#def.IsInterface),
    /// [`order_of`](crate::definitions::ether_pcap#def.order_of),
    /// [`interface_view`](crate::definitions::ether_pcap#def.interface_view),
    /// [`RefusesInterface`](crate::definitions::ether_pcap#def.RefusesInterface),
    /// [`body_refusal_view`](crate::definitions::ether_pcap#def.body_refusal_view).
    /// [Notation](crate::definitions::notation)
    ///
    /// </details>
    #[inline]
    pub fn from_body(
        byte_order: ByteOrder,
        body: &'a [u8],
    ) -> Result<InterfaceDescription<'a>, BodyError> {
        if body.len() < 8 {
            return Err(BodyError::Len {
                required_len: 8,
                len: body.len(),
            });
        }
        Ok(InterfaceDescription {
            byte_order,
            link_type: LinkType(byte_order.u16_at(body, 0)),
            snap_len: byte_order.u32_at(body, 4),
            options: &body[8..],
        })
    }

    /// The front of the block that describes the interface: block type, total length, link type and snap length. In a
    /// file these follow: the bytes of `options`, whose number should be a multiple of 4, and
    /// [`trailer_to_bytes`](Self::trailer_to_bytes).
    ///
    /// A block of more than [`PcapngBlock::MAX_LEN`] bytes can be written, but is not read back. A total length of 4
    /// GiB or more is written modulo 2^32.
    ///
    /// ```
    /// use etherpeel::ether_pcap::{ByteOrder, InterfaceDescription, LinkType};
    ///
    /// let options = InterfaceDescription::nanosecond_options(ByteOrder::BigEndian);
    /// let interface = InterfaceDescription {
    ///     byte_order: ByteOrder::BigEndian,
    ///     link_type: LinkType::ETHERNET,
    ///     snap_len: 262_144,
    ///     options: &options,
    /// };
    /// let header = [
    ///     0x00, 0x00, 0x00, 0x01, 0x00, 0x00, 0x00, 0x20, 0x00, 0x01, 0x00, 0x00, 0x00, 0x04, 0x00, 0x00, //
    /// ];
    /// assert_eq!(interface.header_to_bytes(), header);
    /// assert_eq!(interface.trailer_to_bytes(), [0x00, 0x00, 0x00, 0x20]);
    /// ```
    ///
    /// <details><summary>Contract</summary>
    ///
    /// ```text
    /// ensures value { let order = order_of self.now.byte_order in let i = interface_view self.now in
    ///     result ≡ bytes_of order 4 1 ++ bytes_of order 4 (interface_block_len i) ++ interface_head order i }
    /// ensures read_back { InterfaceIsRead (order_of self.now.byte_order) result (interface_view self.now) }
    /// ```
    ///
    /// Words: [`order_of`](crate::definitions::ether_pcap#def.order_of),
    /// [`interface_view`](crate::definitions::ether_pcap#def.interface_view),
    /// [`bytes_of`](crate::definitions::ether_pcap#def.bytes_of),
    /// [`interface_block_len`](crate::definitions::ether_pcap#def.interface_block_len),
    /// [`interface_head`](crate::definitions::ether_pcap#def.interface_head),
    /// [`InterfaceIsRead`](crate::definitions::ether_pcap#def.InterfaceIsRead).
    /// [Notation](crate::definitions::notation)
    ///
    /// </details>
    #[must_use]
    #[inline]
    pub fn header_to_bytes(&self) -> [u8; 16] {
        four_words(
            word(self.byte_order, PcapngBlock::INTERFACE_DESCRIPTION),
            len_word(self.byte_order, 20 + self.options.len()),
            half_words(self.byte_order, self.link_type.0, 0),
            word(self.byte_order, self.snap_len),
        )
    }

    /// The end of the block that describes the interface: its total length again.
    ///
    /// <details><summary>Contract</summary>
    ///
    /// ```text
    /// ensures { result ≡ bytes_of (order_of self.now.byte_order) 4 (interface_block_len (interface_view self.now)) }
    /// ```
    ///
    /// Words: [`bytes_of`](crate::definitions::ether_pcap#def.bytes_of),
    /// [`order_of`](crate::definitions::ether_pcap#def.order_of),
    /// [`interface_block_len`](crate::definitions::ether_pcap#def.interface_block_len),
    /// [`interface_view`](crate::definitions::ether_pcap#def.interface_view).
    /// [Notation](crate::definitions::notation)
    ///
    /// </details>
    #[must_use]
    #[inline]
    pub fn trailer_to_bytes(&self) -> [u8; 4] {
        len_word(self.byte_order, 20 + self.options.len())
    }

    /// The bytes of two options: `if_tsresol` with the value 9, nanoseconds, and the end of options.
    ///
    /// <details><summary>Contract</summary>
    ///
    /// ```text
    /// ensures value { result ≡ nanosecond_bytes (order_of byte_order) }
    /// ensures read_back { HasOptions (order_of byte_order) result (record { code = 9; value = 9 ∷ [] } ∷ []) }
    /// ```
    ///
    /// Words: [`nanosecond_bytes`](crate::definitions::ether_pcap#def.nanosecond_bytes),
    /// [`order_of`](crate::definitions::ether_pcap#def.order_of),
    /// [`HasOptions`](crate::definitions::ether_pcap#def.HasOptions). [Notation](crate::definitions::notation)
    ///
    /// </details>
    #[must_use]
    #[inline]
    pub fn nanosecond_options(byte_order: ByteOrder) -> [u8; 12] {
        three_words(
            half_words(byte_order, TIME_RESOLUTION, 1),
            [9, 0, 0, 0],
            half_words(byte_order, 0, 0),
        )
    }

    /// The value of the first option with this code. Options are read up to the end of options, or up to one that is
    /// cut.
    ///
    /// <details><summary>Contract</summary>
    ///
    /// ```text
    /// ensures { (all : List OptionValue) → HasOptions (order_of self.now.byte_order) self.now.options.now all
    ///     → MatchOption result (value_of code all ≡ None) (λ value. value_of code all ≡ Some value.now) }
    /// ```
    ///
    /// Words: [`OptionValue`](crate::definitions::ether_pcap#def.OptionValue),
    /// [`HasOptions`](crate::definitions::ether_pcap#def.HasOptions),
    /// [`order_of`](crate::definitions::ether_pcap#def.order_of),
    /// [`value_of`](crate::definitions::ether_pcap#def.value_of). [Notation](crate::definitions::notation)
    ///
    /// </details>
    #[must_use]
    #[inline]
    pub fn option(&self, code: u16) -> Option<&'a [u8]> {
        option_value(self.byte_order, self.options, code)
    }

    /// The value of the option `if_name`: the name of the interface on its machine, in UTF-8.
    ///
    /// <details><summary>Contract</summary>
    ///
    /// ```text
    /// ensures { (all : List OptionValue) → HasOptions (order_of self.now.byte_order) self.now.options.now all
    ///     → MatchOption result (value_of 2 all ≡ None) (λ name. value_of 2 all ≡ Some name.now) }
    /// ```
    ///
    /// Words: [`OptionValue`](crate::definitions::ether_pcap#def.OptionValue),
    /// [`HasOptions`](crate::definitions::ether_pcap#def.HasOptions),
    /// [`order_of`](crate::definitions::ether_pcap#def.order_of),
    /// [`value_of`](crate::definitions::ether_pcap#def.value_of). [Notation](crate::definitions::notation)
    ///
    /// </details>
    #[must_use]
    #[inline]
    pub fn name(&self) -> Option<&'a [u8]> {
        self.option(PcapngOption::INTERFACE_NAME)
    }

    /// The value of the option `if_description`, in UTF-8.
    ///
    /// <details><summary>Contract</summary>
    ///
    /// ```text
    /// ensures { (all : List OptionValue) → HasOptions (order_of self.now.byte_order) self.now.options.now all
    ///     → MatchOption result (value_of 3 all ≡ None) (λ text. value_of 3 all ≡ Some text.now) }
    /// ```
    ///
    /// Words: [`OptionValue`](crate::definitions::ether_pcap#def.OptionValue),
    /// [`HasOptions`](crate::definitions::ether_pcap#def.HasOptions),
    /// [`order_of`](crate::definitions::ether_pcap#def.order_of),
    /// [`value_of`](crate::definitions::ether_pcap#def.value_of). [Notation](crate::definitions::notation)
    ///
    /// </details>
    #[must_use]
    #[inline]
    pub fn description(&self) -> Option<&'a [u8]> {
        self.option(PcapngOption::INTERFACE_DESCRIPTION)
    }

    /// The value of the option `if_fcslen`, if it has one byte: the length of the frame check sequence at the end of
    /// each packet. By the description of the format it counts bits; Wireshark reads and writes bytes.
    ///
    /// <details><summary>Contract</summary>
    ///
    /// ```text
    /// ensures { (all : List OptionValue) → HasOptions (order_of self.now.byte_order) self.now.options.now all
    ///     → result ≡ byte_of (value_of 13 all) }
    /// ```
    ///
    /// Words: [`OptionValue`](crate::definitions::ether_pcap#def.OptionValue),
    /// [`HasOptions`](crate::definitions::ether_pcap#def.HasOptions),
    /// [`order_of`](crate::definitions::ether_pcap#def.order_of),
    /// [`byte_of`](crate::definitions::ether_pcap#def.byte_of),
    /// [`value_of`](crate::definitions::ether_pcap#def.value_of). [Notation](crate::definitions::notation)
    ///
    /// </details>
    #[must_use]
    #[inline]
    pub fn fcs_len(&self) -> Option<u8> {
        byte_option(self.byte_order, self.options, FCS_LEN)
    }

    /// The value n of the option `if_tsresol`, if it has one byte: the unit of the packets' times. If n is below 128,
    /// the unit is 10^-n seconds; else it is 2^-(n - 128) seconds.
    ///
    /// <details><summary>Contract</summary>
    ///
    /// ```text
    /// ensures { (all : List OptionValue) → HasOptions (order_of self.now.byte_order) self.now.options.now all
    ///     → result ≡ byte_of (value_of 9 all) }
    /// ```
    ///
    /// Words: [`OptionValue`](crate::definitions::ether_pcap#def.OptionValue),
    /// [`HasOptions`](crate::definitions::ether_pcap#def.HasOptions),
    /// [`order_of`](crate::definitions::ether_pcap#def.order_of),
    /// [`byte_of`](crate::definitions::ether_pcap#def.byte_of),
    /// [`value_of`](crate::definitions::ether_pcap#def.value_of). [Notation](crate::definitions::notation)
    ///
    /// </details>
    #[must_use]
    #[inline]
    pub fn time_resolution(&self) -> Option<u8> {
        byte_option(self.byte_order, self.options, TIME_RESOLUTION)
    }

    /// The value of the option `if_tsoffset`, if it has eight bytes: the seconds that are added to the packets' times,
    /// in two's complement.
    ///
    /// <details><summary>Contract</summary>
    ///
    /// ```text
    /// ensures { (all : List OptionValue) → HasOptions (order_of self.now.byte_order) self.now.options.now all
    ///     → result ≡ number_of (order_of self.now.byte_order) 8 (value_of 14 all) }
    /// ```
    ///
    /// Words: [`OptionValue`](crate::definitions::ether_pcap#def.OptionValue),
    /// [`HasOptions`](crate::definitions::ether_pcap#def.HasOptions),
    /// [`order_of`](crate::definitions::ether_pcap#def.order_of),
    /// [`number_of`](crate::definitions::ether_pcap#def.number_of),
    /// [`value_of`](crate::definitions::ether_pcap#def.value_of). [Notation](crate::definitions::notation)
    ///
    /// </details>
    #[must_use]
    #[inline]
    pub fn time_offset(&self) -> Option<u64> {
        u64_option(self.byte_order, self.options, TIME_OFFSET)
    }
}

/// The value of the first option with this code, if it has one byte.
#[inline]
fn byte_option(byte_order: ByteOrder, options: &[u8], code: u16) -> Option<u8> {
    let value = option_value(byte_order, options, code)?;
    if value.len() == 1 {
        Some(value[0])
    } else {
        None
    }
}
