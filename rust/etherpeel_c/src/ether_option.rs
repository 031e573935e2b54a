//! An option of a unit of a capture file, as a struct of C.

use etherpeel::ether_pcap::PcapngOption;

/// An option of a block of a pcapng file: `etherpeel_option` in C.
#[repr(C)]
#[derive(Clone, Copy)]
pub struct EtherOption<'a> {
    /// The value, without its padding, inside the block.
    pub value: &'a [u8],
    /// The code.
    pub code: u16,
}

// as c/etherpeel.h lays it out
const _: () = assert!(size_of::<EtherOption<'_>>() == 24);

impl<'a> EtherOption<'a> {
    /// An option that was read.
    pub(crate) fn of(option: &PcapngOption<'a>) -> EtherOption<'a> {
        EtherOption {
            value: option.value,
            code: option.code,
        }
    }
}
