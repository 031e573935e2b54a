//! A VLAN tag or SecTag of a packet, and its offset.

use crate::{LinkExtSlice, SingleVlanSlice};

/// A VLAN tag or a MACsec SecTag of a packet, with its payload and its offset.
#[derive(Clone, PartialEq, Eq, Debug)]
pub struct PacketExt<'a> {
    /// The offset of the tag in bytes from the start of the frame.
    pub offset: usize,
    /// The tag and its payload.
    pub slice: LinkExtSlice<'a>,
}

/// A VLAN tag of zeros at offset 0, for the unused places of a list of fixed capacity.
impl<'a> Default for PacketExt<'a> {
    #[inline]
    fn default() -> PacketExt<'a> {
        match SingleVlanSlice::from_slice(&[0; 4]) {
            Ok(tag) => PacketExt {
                offset: 0,
                slice: LinkExtSlice::Vlan(tag),
            },
            Err(_) => unreachable!(),
        }
    }
}
