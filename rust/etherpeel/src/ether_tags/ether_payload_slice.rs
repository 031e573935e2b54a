//! A payload that an ether type names.
use crate::ether_base::{EtherType, LenSource};

/// The payload of a layer, and the ether type that names its protocol.
///
/// Payloads are compared and ordered field by field. Public fields are not checked against each other.
///
/// ```
/// use etherpeel::{EtherPayloadSlice, EtherType, LenSource, SingleVlanSlice};
///
/// # fn main() -> Result<(), Box<dyn std::error::Error>> {
/// let tag = SingleVlanSlice::from_slice(&[0xB1, 0x23, 0x08, 0x00, 0x45])?;
/// let payload = EtherPayloadSlice {
///     ether_type: EtherType::IPV4,
///     len_source: LenSource::Slice,
///     payload: &[0x45],
/// };
/// assert_eq!(tag.payload(), payload);
/// # Ok(())
/// # }
/// ```
#[derive(Clone, Copy, PartialEq, Eq, PartialOrd, Ord, Hash, Debug)]
pub struct EtherPayloadSlice<'a> {
    /// The protocol of the payload.
    pub ether_type: EtherType,
    /// What decided the payload's length: the slice that was read, or a length field of a layer.
    pub len_source: LenSource,
    /// The bytes of the payload alone, with neither header nor frame check sequence.
    pub payload: &'a [u8],
}
