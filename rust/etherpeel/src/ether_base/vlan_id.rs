//! The identifier of a VLAN.

use crate::ether_base::err::{ValueTooBigError, ValueType};
use core::fmt;

/// The VLAN identifier (VID) of a VLAN tag (IEEE 802.1Q, 9.6): 12 bits, 0 to 4095.
///
/// ```
/// use etherpeel::VlanId;
///
/// # fn main() -> Result<(), Box<dyn std::error::Error>> {
/// let vlan = VlanId::try_new(100)?;
/// assert_eq!(vlan.value(), 100);
/// assert!(VlanId::try_new(4096).is_err());
/// # Ok(())
/// # }
/// ```
#[cfg_attr(feature = "serde", derive(serde::Serialize, serde::Deserialize), serde(try_from = "u16", into = "u16"))]
#[derive(Clone, Copy, PartialEq, Eq, PartialOrd, Ord, Hash, Debug, Default)]
pub struct VlanId(u16);

impl VlanId {
    /// The null identifier, 0: the tag carries a priority alone.
    pub const ZERO: VlanId = VlanId(0);

    /// The greatest VLAN identifier, 4095, which IEEE 802.1Q reserves (table 9-2). It is accepted.
    pub const MAX_U16: u16 = 0b0000_1111_1111_1111;

    /// The VLAN identifier `value`, refused above [`VlanId::MAX_U16`].
    ///
    /// <details><summary>Contract</summary>
    ///
    /// ```text
    /// ensures variant { IsOk result ↔ (value ≤ 4095) }
    /// ensures ok { IfOk result (λ id. id ≡ value) }
    /// ensures err { IfErr result (λ e. e ≡ too_big value 4095 ValueType.VlanId) }
    /// ```
    ///
    /// Words: [`too_big`](crate::definitions::ether_base#def.too_big). [Notation](crate::definitions::notation)
    ///
    /// </details>
    #[inline]
    pub const fn try_new(value: u16) -> Result<VlanId, ValueTooBigError<u16>> {
        if value <= VlanId::MAX_U16 {
            Ok(VlanId(value))
        } else {
            Err(ValueTooBigError {
                actual: value,
                max_allowed: VlanId::MAX_U16,
                value_type: ValueType::VlanId,
            })
        }
    }

    /// The VLAN identifier, 0 to 4095.
    ///
    /// <details><summary>Contract</summary>
    ///
    /// ```text
    /// ensures value { result ≡ self }
    /// ensures bound { result ≤ 4095 }
    /// ```
    ///
    /// [Notation](crate::definitions::notation)
    ///
    /// </details>
    #[must_use]
    #[inline]
    pub const fn value(self) -> u16 {
        self.0
    }
}

impl From<VlanId> for u16 {
    #[inline]
    fn from(id: VlanId) -> u16 {
        id.value()
    }
}

impl TryFrom<u16> for VlanId {
    type Error = ValueTooBigError<u16>;

    #[inline]
    fn try_from(value: u16) -> Result<VlanId, ValueTooBigError<u16>> {
        VlanId::try_new(value)
    }
}

impl fmt::Display for VlanId {
    fn fmt(&self, f: &mut fmt::Formatter<'_>) -> fmt::Result {
        self.0.fmt(f)
    }
}
