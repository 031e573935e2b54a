//! Two VLAN tags as a value.
use crate::ether_tags::SingleVlanHeader;
use crate::ether_base::EtherType;

/// Two VLAN tags (QinQ), the inner one right after the outer one.
///
/// Public fields are not checked against each other: the outer tag's ether type may be any, though in a frame it is the
/// TPID of the inner tag.
///
/// ```
/// use etherpeel::{DoubleVlanHeader, EtherType, VlanId};
///
/// # fn main() -> Result<(), Box<dyn std::error::Error>> {
/// let mut tags = DoubleVlanHeader::default();
/// tags.outer.vlan_id = VlanId::try_new(10)?;
/// tags.inner.vlan_id = VlanId::try_new(100)?;
/// tags.inner.ether_type = EtherType::IPV4;
/// assert_eq!(tags.outer.to_bytes(), [0x00, 0x0A, 0x81, 0x00]);
/// assert_eq!(tags.inner.to_bytes(), [0x00, 0x64, 0x08, 0x00]);
/// # Ok(())
/// # }
/// ```
#[cfg_attr(feature = "serde", derive(serde::Serialize, serde::Deserialize))]
#[derive(Clone, Copy, PartialEq, Eq, Hash, Debug)]
pub struct DoubleVlanHeader {
    /// The tag that comes first; its ether type is the TPID of the inner tag.
    pub outer: SingleVlanHeader,
    /// The tag after it; its ether type names the protocol of what follows both.
    pub inner: SingleVlanHeader,
}

impl Default for DoubleVlanHeader {
    /// An outer tag with the ether type [`EtherType::VLAN_TAGGED_FRAME`], all else zero.
    #[inline]
    fn default() -> DoubleVlanHeader {
        DoubleVlanHeader {
            outer: SingleVlanHeader {
                ether_type: EtherType::VLAN_TAGGED_FRAME,
                ..SingleVlanHeader::default()
            },
            inner: SingleVlanHeader::default(),
        }
    }
}
