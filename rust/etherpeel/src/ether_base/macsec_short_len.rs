//! The short length of a MACsec SecTag.

use crate::ether_base::err::{ValueTooBigError, ValueType};
use core::fmt;

/// The short length (SL) of a MACsec SecTag (IEEE 802.1AE, 9.7): 6 bits, 0 to 63.
///
/// It counts the bytes between the SecTag and the integrity check value, including the two of the payload's ether
/// type; 0 names no length. The standard ends at 47. Values from 48 to 63 are accepted too, and
/// [`MacsecShortLen::from_len`] makes them.
///
/// ```
/// use etherpeel::MacsecShortLen;
///
/// # fn main() -> Result<(), Box<dyn std::error::Error>> {
/// let short_len = MacsecShortLen::try_from_u8(46)?;
/// assert_eq!(short_len.value(), 46);
/// assert!(MacsecShortLen::try_from_u8(64).is_err());
/// # Ok(())
/// # }
/// ```
#[cfg_attr(feature = "serde", derive(serde::Serialize, serde::Deserialize), serde(try_from = "u8", into = "u8"))]
#[derive(Clone, Copy, PartialEq, Eq, PartialOrd, Ord, Hash, Debug, Default)]
pub struct MacsecShortLen(u8);

impl MacsecShortLen {
    /// The short length 0, which names no length.
    pub const ZERO: Self = MacsecShortLen(0);

    /// The greatest short length, 63.
    pub const MAX_U8: u8 = 0b0011_1111;

    /// The greatest short length as a number of bytes, 63.
    pub const MAX_USIZE: usize = 0b0011_1111;

    /// The short length `value`, refused above [`MacsecShortLen::MAX_U8`].
    ///
    /// <details><summary>Contract</summary>
    ///
    /// ```text
    /// ensures variant { IsOk result ↔ (value ≤ 63) }
    /// ensures ok { IfOk result (λ short_len. short_len ≡ value) }
    /// ensures err { IfErr result (λ e. e ≡ too_big value 63 ValueType.MacsecShortLen) }
    /// ```
    ///
    /// Words: [`too_big`](crate::definitions::ether_base#def.too_big). [Notation](crate::definitions::notation)
    ///
    /// </details>
    #[inline]
    pub const fn try_from_u8(value: u8) -> Result<MacsecShortLen, ValueTooBigError<u8>> {
        if value <= MacsecShortLen::MAX_U8 {
            Ok(MacsecShortLen(value))
        } else {
            Err(ValueTooBigError {
                actual: value,
                max_allowed: MacsecShortLen::MAX_U8,
                value_type: ValueType::MacsecShortLen,
            })
        }
    }

    /// Returns `len` as a short length if it is at most [`MacsecShortLen::MAX_USIZE`]. A greater `len` has none, so
    /// the result is 0, which names no length.
    ///
    /// <details><summary>Contract</summary>
    ///
    /// ```text
    /// ensures named { len ≤ 63 → result ≡ len }
    /// ensures unnamed { 63 < len → result ≡ 0 }
    /// ```
    ///
    /// [Notation](crate::definitions::notation)
    ///
    /// </details>
    #[must_use]
    #[inline]
    pub fn from_len(len: usize) -> MacsecShortLen {
        if len <= MacsecShortLen::MAX_USIZE {
            MacsecShortLen(len as u8)
        } else {
            MacsecShortLen::ZERO
        }
    }

    /// The short length, 0 to 63.
    ///
    /// <details><summary>Contract</summary>
    ///
    /// ```text
    /// ensures value { result ≡ self }
    /// ensures bound { result ≤ 63 }
    /// ```
    ///
    /// [Notation](crate::definitions::notation)
    ///
    /// </details>
    #[must_use]
    #[inline]
    pub const fn value(self) -> u8 {
        self.0
    }
}

impl From<MacsecShortLen> for u8 {
    #[inline]
    fn from(short_len: MacsecShortLen) -> u8 {
        short_len.value()
    }
}

impl TryFrom<u8> for MacsecShortLen {
    type Error = ValueTooBigError<u8>;

    #[inline]
    fn try_from(value: u8) -> Result<MacsecShortLen, ValueTooBigError<u8>> {
        MacsecShortLen::try_from_u8(value)
    }
}

impl fmt::Display for MacsecShortLen {
    fn fmt(&self, f: &mut fmt::Formatter<'_>) -> fmt::Result {
        self.0.fmt(f)
    }
}
