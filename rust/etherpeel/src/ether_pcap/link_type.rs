//! What each packet of a capture begins with.

/// What each packet of a capture begins with: a `LINKTYPE_` number of the tcpdump group. Any number is allowed.
#[cfg_attr(feature = "serde", derive(serde::Serialize, serde::Deserialize))]
#[derive(Clone, Copy, PartialEq, Eq, Hash, Debug)]
pub struct LinkType(pub u16);

impl LinkType {
    /// Ethernet II or IEEE 802.3 (`LINKTYPE_ETHERNET`).
    pub const ETHERNET: LinkType = LinkType(1);

    /// Linux cooked capture v1 (`LINKTYPE_LINUX_SLL`).
    pub const LINUX_SLL: LinkType = LinkType(113);

    /// Linux cooked capture v2 (`LINKTYPE_LINUX_SLL2`), which `tcpdump -i any` writes.
    pub const LINUX_SLL2: LinkType = LinkType(276);
}
