//! The primitives of an expression.
use crate::ether_filter::field_test::FieldTest;

/// A test of a packet, as the table of [`Filter`](crate::ether_filter::Filter) says.
///
/// An address is one number, its first byte the most significant one.
#[derive(Clone, Copy, PartialEq, Eq, Hash, Debug)]
pub enum Primitive {
    /// `vlan`
    Vlan,
    /// `vlan N`
    VlanId(u16),
    /// `outer vlan N`
    OuterVlan(u16),
    /// `inner vlan N`
    InnerVlan(u16),
    /// `macsec`
    Macsec,
    /// `ether proto N`
    EtherType(u16),
    /// `ether src A`
    Source(u64),
    /// `ether dst A`
    Destination(u64),
    /// `ether host A`
    Host(u64),
    /// `ether broadcast`
    Broadcast,
    /// `ether multicast`
    Multicast,
    /// `refused`
    Refused,
    /// `cut`
    Cut,
    /// `less N`
    Less(u32),
    /// `greater N`
    Greater(u32),
    /// A test of a field, as `vlan.vid == 5`
    Field(FieldTest),
    /// A test of what the capture says of the packet, as `frame.original >= 64`
    Frame(FieldTest),
}

impl Default for Primitive {
    #[inline]
    fn default() -> Primitive {
        Primitive::Vlan
    }
}
