//! The link-layer headers of a frame in one value, with random access; `ether_peel` returns them one after the other.
//! The crate also builds packets, and changes headers and VLAN tags in place. No call allocates memory.

mod build_error;
mod difference;
mod ext_places;
mod finding;
mod front;
mod packet_builder;
mod packet_ext;
mod packet_parts;
mod packet_slice;
mod packet_units;
mod packet_walk;
mod popping;
mod pushing;
mod replace_error;
mod replacing;
mod replacing_arp;
mod setting;
mod snap_len;
mod tag_error;
mod typed_link;
mod writing_frame;
mod writing_unchanged;

pub use build_error::BuildError;
pub use difference::Difference;
pub use front::{EthernetFront, ethernet_front, outer_vlan};
pub use packet_builder::{PacketBuilder, PacketContent};
pub use packet_ext::PacketExt;
pub use packet_parts::PacketParts;
pub use packet_slice::PacketSlice;
pub use popping::pop_vlan;
pub use pushing::push_vlan;
pub use replace_error::ReplaceError;
pub use replacing::{replace_link, replace_link_ext};
pub use replacing_arp::replace_arp;
pub use setting::{find_vlan, replace_vlan_id, set_tpid, set_vlan_id, set_vlan_tag};
pub use snap_len::min_snap_len;
pub use tag_error::TagError;
