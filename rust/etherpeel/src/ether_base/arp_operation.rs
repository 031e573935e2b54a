//! The operation of an ARP packet.

/// The operation of an ARP packet (RFC 826), a number of 16 bits. Request and reply are constants.
///
/// ```
/// use etherpeel::ArpOperation;
///
/// assert_eq!(ArpOperation(1), ArpOperation::REQUEST);
/// assert_eq!(ArpOperation(2), ArpOperation::REPLY);
/// ```
#[cfg_attr(feature = "serde", derive(serde::Serialize, serde::Deserialize))]
#[derive(Clone, Copy, PartialEq, Eq, PartialOrd, Ord, Hash, Debug, Default)]
pub struct ArpOperation(pub u16);

impl ArpOperation {
    /// The sender asks who has the target's protocol address.
    pub const REQUEST: ArpOperation = ArpOperation(1);
    /// The sender answers a request: the sender's hardware address is the one that was asked for.
    pub const REPLY: ArpOperation = ArpOperation(2);
}
