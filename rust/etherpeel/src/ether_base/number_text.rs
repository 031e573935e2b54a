//! Numbers as text, with their descriptions.

use crate::ether_base::{ArpHardwareId, EtherType};
use core::fmt;

/// A number, shown as `0x` and four upper-case hexadecimal digits.
///
/// ```
/// use etherpeel::ether_base::number_text::HexNumber;
///
/// let number = HexNumber(0x01AB);
/// assert_eq!(format!("{number}").as_str(), "0x01AB");
/// ```
#[derive(Clone, Copy, Debug)]
pub struct HexNumber(pub u16);

impl fmt::Display for HexNumber {
    fn fmt(&self, f: &mut fmt::Formatter<'_>) -> fmt::Result {
        let number = self.0;
        write!(f, "0x{number:04X}")
    }
}

/// An ether type, shown with its description if it has one.
#[derive(Clone, Copy)]
pub(in crate::ether_base) struct ShownEtherType(pub EtherType);

impl fmt::Display for ShownEtherType {
    fn fmt(&self, f: &mut fmt::Formatter<'_>) -> fmt::Result {
        let number = self.0.0;
        match self.0.name() {
            Some(description) => write!(f, "0x{number:04X} ({description})"),
            None => write!(f, "0x{number:04X}"),
        }
    }
}

/// A hardware type, shown with its description if it has one.
#[derive(Clone, Copy)]
pub(in crate::ether_base) struct ShownArpHardwareId(pub ArpHardwareId);

impl fmt::Display for ShownArpHardwareId {
    fn fmt(&self, f: &mut fmt::Formatter<'_>) -> fmt::Result {
        let number = self.0.0;
        let digits = HexNumber(number);
        match self.0.name() {
            Some(description) if number < 0xFFFE => write!(f, "{number} ({description})"),
            Some(description) => write!(f, "{digits} ({description})"),
            None => write!(f, "{digits}"),
        }
    }
}
