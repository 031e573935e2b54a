//! The priority of a VLAN tag.

use crate::ether_base::err::{ValueTooBigError, ValueType};
use core::fmt;

/// The priority code point (PCP) of a VLAN tag (IEEE 802.1Q, 9.6): 3 bits, 0 to 7.
///
/// ```
/// use etherpeel::VlanPcp;
///
/// # fn main() -> Result<(), Box<dyn std::error::Error>> {
/// let priority = VlanPcp::try_new(5)?;
/// assert_eq!(priority.value(), 5);
/// assert!(VlanPcp::try_new(8).is_err());
/// # Ok(())
/// # }
/// ```
#[cfg_attr(feature = "serde", derive(serde::Serialize, serde::Deserialize), serde(try_from = "u8", into = "u8"))]
#[derive(Clone, Copy, PartialEq, Eq, PartialOrd, Ord, Hash, Debug, Default)]
pub struct VlanPcp(u8);

impl VlanPcp {
    /// The priority code point 0.
    pub const ZERO: VlanPcp = VlanPcp(0);

    /// The greatest priority code point, 7.
    pub const MAX_U8: u8 = 0b0000_0111;

    /// The priority code point `value`, refused above [`VlanPcp::MAX_U8`].
    ///
    /// <details><summary>Contract</summary>
    ///
    /// ```text
    /// ensures variant { IsOk result ↔ (value ≤ 7) }
    /// ensures ok { IfOk result (λ pcp. pcp ≡ value) }
    /// ensures err { IfErr result (λ e. e ≡ too_big value 7 ValueType.VlanPcp) }
    /// ```
    ///
    /// Words: [`too_big`](crate::definitions::ether_base#def.too_big). [Notation](crate::definitions::notation)
    ///
    /// </details>
    #[inline]
    pub const fn try_new(value: u8) -> Result<VlanPcp, ValueTooBigError<u8>> {
        if value <= VlanPcp::MAX_U8 {
            Ok(VlanPcp(value))
        } else {
            Err(ValueTooBigError {
                actual: value,
                max_allowed: VlanPcp::MAX_U8,
                value_type: ValueType::VlanPcp,
            })
        }
    }

    /// The priority code point, 0 to 7.
    ///
    /// <details><summary>Contract</summary>
    ///
    /// ```text
    /// ensures value { result ≡ self }
    /// ensures bound { result ≤ 7 }
    /// ```
    ///
    /// [Notation](crate::definitions::notation)
    ///
    /// </details>
    #[must_use]
    #[inline]
    pub const fn value(self) -> u8 {
        self.0
    }
}

impl From<VlanPcp> for u8 {
    #[inline]
    fn from(pcp: VlanPcp) -> u8 {
        pcp.value()
    }
}

impl TryFrom<u8> for VlanPcp {
    type Error = ValueTooBigError<u8>;

    #[inline]
    fn try_from(value: u8) -> Result<VlanPcp, ValueTooBigError<u8>> {
        VlanPcp::try_new(value)
    }
}

impl fmt::Display for VlanPcp {
    fn fmt(&self, f: &mut fmt::Formatter<'_>) -> fmt::Result {
        self.0.fmt(f)
    }
}
