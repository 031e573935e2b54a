//! Blocks of pcapng files (draft-ietf-opsawg-pcapng).
//!
//! A [`PcapngBlock`] has a type, a body, and its length at both ends. A [`SectionHeader`] begins a section and gives
//! its byte order. An [`InterfaceDescription`] describes an interface of the section. An [`EnhancedPacket`] or a
//! [`SimplePacket`] has a packet of such an interface. All but simple packets can also be written. [`PcapngOptions`]
//! iterates over the options that are at the end of most blocks.
mod block_error;
mod body_error;
pub(in crate::ether_pcap) mod enhanced_packet;
mod interface_description;
mod pcapng_block;
pub(in crate::ether_pcap) mod pcapng_option;
mod pcapng_options;
mod section_error;
mod section_header;
pub(in crate::ether_pcap) mod simple_packet;

pub use block_error::BlockError;
pub use body_error::BodyError;
pub use enhanced_packet::EnhancedPacket;
pub use interface_description::InterfaceDescription;
pub use pcapng_block::PcapngBlock;
pub use pcapng_option::PcapngOption;
pub use pcapng_options::PcapngOptions;
pub use section_error::SectionError;
pub use section_header::SectionHeader;
pub use simple_packet::SimplePacket;
