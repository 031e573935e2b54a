//! An iterator over the options at the end of a block.

use crate::ether_pcap::pcapng::pcapng_option::bytes_from;
use crate::ether_pcap::{ByteOrder, PcapngOption};

/// The options at the end of a block, one after the other, up to the end of options, or up to one that is cut.
///
/// ```
/// use etherpeel::ether_pcap::{ByteOrder, PcapngOption, PcapngOptions};
///
/// let bytes = [
///     0x00, 0x02, 0x00, 0x04, 0x65, 0x74, 0x68, 0x30, // if_name: eth0
///     0x00, 0x0D, 0x00, 0x01, 0x04, 0x00, 0x00, 0x00, // if_fcslen: 4
///     0x00, 0x00, 0x00, 0x00, // the end of options
/// ];
/// let mut options = PcapngOptions::from_slice(ByteOrder::BigEndian, &bytes);
/// let name = PcapngOption {
///     code: PcapngOption::INTERFACE_NAME,
///     value: b"eth0",
/// };
/// let fcs_len = PcapngOption {
///     code: 13,
///     value: &[4],
/// };
/// assert_eq!(options.next(), Some(name));
/// assert_eq!(options.next(), Some(fcs_len));
/// assert_eq!(options.next(), None);
/// ```
#[must_use = "iterators are lazy and do nothing unless consumed"]
#[derive(Clone, Debug)]
pub struct PcapngOptions<'a> {
    byte_order: ByteOrder,
    rest: &'a [u8],
}

impl<'a> PcapngOptions<'a> {
    /// An iterator over the options that these bytes begin with, as
    /// [`InterfaceDescription::options`](crate::ether_pcap::InterfaceDescription::options) are.
    ///
    /// <details><summary>Contract</summary>
    ///
    /// ```text
    /// ensures { result ≡ record { byte_order = byte_order; rest = options.now } }
    /// ```
    ///
    /// [Notation](crate::definitions::notation)
    ///
    /// </details>
    #[inline]
    pub fn from_slice(byte_order: ByteOrder, options: &'a [u8]) -> PcapngOptions<'a> {
        PcapngOptions {
            byte_order,
            rest: options,
        }
    }
}

impl<'a> Iterator for PcapngOptions<'a> {
    type Item = PcapngOption<'a>;

    /// Returns the next option.
    #[inline]
    fn next(&mut self) -> Option<PcapngOption<'a>> {
        let option = PcapngOption::first(self.byte_order, self.rest)?;
        self.rest = bytes_from(self.rest, option.option_len());
        Some(option)
    }

    /// At most one option for each four bytes left.
    #[inline]
    fn size_hint(&self) -> (usize, Option<usize>) {
        (0, Some(self.rest.len() / 4))
    }
}
