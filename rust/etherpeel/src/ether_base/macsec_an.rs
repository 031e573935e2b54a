//! The association number of a MACsec SecTag.

use crate::ether_base::err::{ValueTooBigError, ValueType};
use core::fmt;

/// The association number (AN) of a MACsec SecTag (IEEE 802.1AE, 9.6): 2 bits, 0 to 3.
///
/// ```
/// use etherpeel::MacsecAn;
///
/// # fn main() -> Result<(), Box<dyn std::error::Error>> {
/// let number = MacsecAn::try_new(2)?;
/// assert_eq!(number.value(), 2);
/// assert!(MacsecAn::try_new(4).is_err());
/// # Ok(())
/// # }
/// ```
#[cfg_attr(feature = "serde", derive(serde::Serialize, serde::Deserialize), serde(try_from = "u8", into = "u8"))]
#[derive(Clone, Copy, PartialEq, Eq, PartialOrd, Ord, Hash, Debug, Default)]
pub struct MacsecAn(u8);

impl MacsecAn {
    /// The association number 0.
    pub const ZERO: MacsecAn = MacsecAn(0);

    /// The greatest association number, 3.
    pub const MAX_U8: u8 = 0b0000_0011;

    /// The association number `value`, refused above [`MacsecAn::MAX_U8`].
    ///
    /// <details><summary>Contract</summary>
    ///
    /// ```text
    /// ensures variant { IsOk result ↔ (value ≤ 3) }
    /// ensures ok { IfOk result (λ an. an ≡ value) }
    /// ensures err { IfErr result (λ e. e ≡ too_big value 3 ValueType.MacsecAn) }
    /// ```
    ///
    /// Words: [`too_big`](crate::definitions::ether_base#def.too_big). [Notation](crate::definitions::notation)
    ///
    /// </details>
    #[inline]
    pub const fn try_new(value: u8) -> Result<MacsecAn, ValueTooBigError<u8>> {
        if value <= MacsecAn::MAX_U8 {
            Ok(MacsecAn(value))
        } else {
            Err(ValueTooBigError {
                actual: value,
                max_allowed: MacsecAn::MAX_U8,
                value_type: ValueType::MacsecAn,
            })
        }
    }

    /// The association number, 0 to 3.
    ///
    /// <details><summary>Contract</summary>
    ///
    /// ```text
    /// ensures value { result ≡ self }
    /// ensures bound { result ≤ 3 }
    /// ```
    ///
    /// [Notation](crate::definitions::notation)
    ///
    /// </details>
    #[must_use]
    #[inline]
    pub const fn value(self) -> u8 {
        self.0
    }
}

impl From<MacsecAn> for u8 {
    #[inline]
    fn from(an: MacsecAn) -> u8 {
        an.value()
    }
}

impl TryFrom<u8> for MacsecAn {
    type Error = ValueTooBigError<u8>;

    #[inline]
    fn try_from(value: u8) -> Result<MacsecAn, ValueTooBigError<u8>> {
        MacsecAn::try_new(value)
    }
}

impl fmt::Display for MacsecAn {
    fn fmt(&self, f: &mut fmt::Formatter<'_>) -> fmt::Result {
        self.0.fmt(f)
    }
}
