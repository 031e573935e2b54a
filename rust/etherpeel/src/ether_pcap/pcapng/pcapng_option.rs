//! The options at the end of a block of a pcapng file.

use crate::ether_pcap::ByteOrder;
use crate::ether_pcap::word_bytes::padded_len;

/// An option of a block: its code and its value (draft-ietf-opsawg-pcapng, section 3.5).
///
/// What a code means depends on the type of the block; only that of a comment is the same in each.
#[derive(Clone, Copy, PartialEq, Eq, Debug)]
pub struct PcapngOption<'a> {
    /// The code.
    pub code: u16,
    /// The value, without its padding. The value of a text is UTF-8, and has no 0 at its end.
    pub value: &'a [u8],
}

impl<'a> PcapngOption<'a> {
    /// The code of a comment on the block, `opt_comment`. A block may have several.
    pub const COMMENT: u16 = 1;
    /// The code of an interface's name, `if_name`, in an interface description.
    pub const INTERFACE_NAME: u16 = 2;
    /// The code of an interface's description, `if_description`, in an interface description.
    pub const INTERFACE_DESCRIPTION: u16 = 3;

    /// Tests that the option is a comment on the block.
    ///
    /// <details><summary>Contract</summary>
    ///
    /// ```text
    /// ensures { IsTrue result ↔ (self.now.code ≡ 1) }
    /// ```
    ///
    /// [Notation](crate::definitions::notation)
    ///
    /// </details>
    #[must_use]
    #[inline]
    pub fn is_comment(&self) -> bool {
        self.code == PcapngOption::COMMENT
    }

    /// Reads the option at the front of a slice. Returns `None` if the slice begins with the end of options, or ends
    /// within an option.
    #[inline]
    pub(in crate::ether_pcap) fn first(byte_order: ByteOrder, slice: &'a [u8]) -> Option<PcapngOption<'a>> {
        if slice.len() < 4 {
            return None;
        }
        let code = byte_order.u16_at(slice, 0);
        if code == 0 {
            return None;
        }
        let end = 4 + usize::from(byte_order.u16_at(slice, 2));
        if slice.len() < end {
            return None;
        }
        Some(PcapngOption {
            code,
            value: &slice[4..end],
        })
    }

    /// The length of the option in bytes, with its padding.
    #[inline]
    pub(in crate::ether_pcap) fn option_len(&self) -> usize {
        4 + padded_len(self.value.len())
    }
}

/// The bytes from the offset `place` on; none if there are fewer bytes.
#[inline]
pub(in crate::ether_pcap) fn bytes_from(bytes: &[u8], place: usize) -> &[u8] {
    if bytes.len() < place {
        &bytes[bytes.len()..]
    } else {
        &bytes[place..]
    }
}

/// The value of the first option with this code.
///
/// Most packets have no options, so the number of bytes is tested first.
#[inline(always)]
pub(in crate::ether_pcap) fn option_value(byte_order: ByteOrder, options: &[u8], code: u16) -> Option<&[u8]> {
    if options.len() < 4 {
        return None;
    }
    searched_value(byte_order, options, code)
}

/// [`option_value`], searched from the first option on.
#[inline(never)]
fn searched_value(byte_order: ByteOrder, options: &[u8], code: u16) -> Option<&[u8]> {
    let mut rest = options;
    while let Some(option) = PcapngOption::first(byte_order, rest) {
        if option.code == code {
            return Some(option.value);
        }
        rest = bytes_from(rest, option.option_len());
    }
    None
}

/// The number in the first option with this code, if its value has four bytes.
#[inline]
pub(in crate::ether_pcap) fn u32_option(byte_order: ByteOrder, options: &[u8], code: u16) -> Option<u32> {
    match option_value(byte_order, options, code) {
        Some([a, b, c, d]) => Some(byte_order.u32_of([*a, *b, *c, *d])),
        _ => None,
    }
}

/// The number in the first option with this code, if its value has eight bytes.
#[inline]
pub(in crate::ether_pcap) fn u64_option(byte_order: ByteOrder, options: &[u8], code: u16) -> Option<u64> {
    match option_value(byte_order, options, code) {
        Some([a, b, c, d, e, f, g, h]) => {
            Some(byte_order.u64_of([*a, *b, *c, *d, *e, *f, *g, *h]))
        }
        _ => None,
    }
}
