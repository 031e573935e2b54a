//! VLANs, by their identifiers.

use crate::VlanId;
use core::error::Error;
use core::fmt;

/// A VLAN, by its identifier: 1 to 4094.
///
/// In a tag, the identifier 0 means that the tag has only a priority, and 4095 is reserved (IEEE 802.1Q, table 9-2).
///
/// ```
/// use etherpeel::ether_switch::{Vlan, VlanError};
///
/// # fn main() -> Result<(), Box<dyn std::error::Error>> {
/// let vlan = Vlan::try_new(4094)?;
/// assert_eq!(vlan.id().value(), 4094);
/// assert_eq!(Vlan::try_new(0), Err(VlanError(0)));
/// assert_eq!(Vlan::try_new(4095), Err(VlanError(4095)));
/// # Ok(())
/// # }
/// ```
#[derive(Clone, Copy, PartialEq, Eq, PartialOrd, Ord, Hash, Debug)]
pub struct Vlan(VlanId);

/// This number is not the identifier of a VLAN, which is from 1 to 4094.
#[derive(Clone, Copy, PartialEq, Eq, Hash, Debug)]
pub struct VlanError(pub u16);

impl Vlan {
    /// The VLAN with this identifier.
    ///
    /// # Errors
    ///
    /// [`VlanError`] with the number, if it is not from 1 to 4094.
    ///
    /// <details><summary>Contract</summary>
    ///
    /// ```text
    /// ensures variant { IsOk result ↔ ((1 ≤ id) × (id ≤ 4094)) }
    /// ensures ok { IfOk result (λ vlan. vlan ≡ id) }
    /// ensures err { IfErr result (λ error. error.0 ≡ id) }
    /// ```
    ///
    /// [Notation](crate::definitions::notation)
    ///
    /// </details>
    #[inline]
    pub fn try_new(id: u16) -> Result<Vlan, VlanError> {
        if id == 0 || id > 4094 {
            return Err(VlanError(id));
        }
        match VlanId::try_new(id) {
            Ok(id) => Ok(Vlan(id)),
            Err(_) => Err(VlanError(id)),
        }
    }

    /// The identifier.
    ///
    /// <details><summary>Contract</summary>
    ///
    /// ```text
    /// ensures value { result ≡ self }
    /// ensures least { 1 ≤ result }
    /// ensures greatest { result ≤ 4094 }
    /// ```
    ///
    /// [Notation](crate::definitions::notation)
    ///
    /// </details>
    #[must_use]
    #[inline]
    pub fn id(self) -> VlanId {
        self.0
    }
}

impl fmt::Display for VlanError {
    fn fmt(&self, f: &mut fmt::Formatter<'_>) -> fmt::Result {
        let number = self.0;
        write!(
            f,
            "The identifier of a VLAN is from 1 to 4094, and not {number}."
        )
    }
}

impl Error for VlanError {}
