//! Numbers as hexadecimal digits.

use core::fmt;

/// A number as eight upper-case hexadecimal digits.
#[derive(Clone, Copy)]
pub(in crate::ether_pcap) struct EightDigits(pub u32);

impl fmt::Display for EightDigits {
    fn fmt(&self, f: &mut fmt::Formatter<'_>) -> fmt::Result {
        let number = self.0;
        let a = TwoDigits((number / 0x100_0000) as u8);
        let b = TwoDigits((number / 0x1_0000 % 0x100) as u8);
        let c = TwoDigits((number / 0x100 % 0x100) as u8);
        let d = TwoDigits((number % 0x100) as u8);
        write!(f, "{a}{b}{c}{d}")
    }
}

/// A byte as two upper-case hexadecimal digits.
#[derive(Clone, Copy)]
struct TwoDigits(u8);

impl fmt::Display for TwoDigits {
    fn fmt(&self, f: &mut fmt::Formatter<'_>) -> fmt::Result {
        let byte = self.0;
        write!(f, "{byte:02X}")
    }
}
