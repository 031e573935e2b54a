//! The walk through the link-layer headers of a frame, their fields, packets, capture files, filters and a switch, for
//! callers in C. `c/etherpeel.h` declares and documents the calls, and `docs/C.md` says how to build a program with
//! them.
//!
//! Each export calls the crates below, and its contract says what the contracts of those calls say. Each struct that is
//! passed has a file of its own, and `specs/` defines each of its fields. Enumerations are passed as numbers
//! (`specs/Numbers.antt`), and a number that is not a start is refused. No call allocates memory or keeps a pointer.

#![no_std]

#[path = "../by_hand.rs"]
mod by_hand;

#[rustfmt::skip]
pub mod building;
#[rustfmt::skip]
pub mod capture_fault_text;
#[rustfmt::skip]
pub mod capture_writing;
#[rustfmt::skip]
pub mod captured_frame;
#[rustfmt::skip]
pub mod capturing;
#[rustfmt::skip]
pub mod completing;
#[rustfmt::skip]
pub mod cooked_v2;
#[rustfmt::skip]
pub mod copying;
#[rustfmt::skip]
pub mod deciding_frames;
#[rustfmt::skip]
mod ether_bridge;
#[rustfmt::skip]
mod ether_captured;
#[rustfmt::skip]
mod ether_fault;
#[rustfmt::skip]
mod ether_fed;
#[rustfmt::skip]
mod ether_field;
#[rustfmt::skip]
mod ether_filter_error;
#[rustfmt::skip]
mod ether_found;
#[rustfmt::skip]
mod ether_frame;
#[rustfmt::skip]
mod ether_headers;
#[rustfmt::skip]
mod ether_interface;
#[rustfmt::skip]
mod ether_linux_sll2;
#[rustfmt::skip]
mod ether_option;
#[rustfmt::skip]
mod ether_port;
#[rustfmt::skip]
mod ether_read_unit;
#[rustfmt::skip]
mod ether_reader;
#[rustfmt::skip]
mod ether_received;
#[rustfmt::skip]
mod ether_replace_error;
#[rustfmt::skip]
mod ether_row;
#[rustfmt::skip]
mod ether_unit;
#[rustfmt::skip]
pub mod fault_text;
#[rustfmt::skip]
pub mod feeding;
#[rustfmt::skip]
mod field_putting;
#[rustfmt::skip]
pub mod field_texts;
#[rustfmt::skip]
mod field_value;
#[rustfmt::skip]
pub mod fields;
#[rustfmt::skip]
mod filter;
#[rustfmt::skip]
pub mod filter_error_text;
#[rustfmt::skip]
pub mod filtering;
#[rustfmt::skip]
pub mod formatting;
#[rustfmt::skip]
pub mod frame_writing;
#[rustfmt::skip]
pub mod library;
#[rustfmt::skip]
pub mod link_types;
#[rustfmt::skip]
pub mod missing_bytes;
#[rustfmt::skip]
mod no_writer;
#[rustfmt::skip]
mod numbers;
#[rustfmt::skip]
mod packet_facts;
#[rustfmt::skip]
mod passed;
#[rustfmt::skip]
pub mod popping;
#[rustfmt::skip]
pub mod pushing;
#[rustfmt::skip]
mod putting;
#[rustfmt::skip]
pub mod reader_fault_text;
#[rustfmt::skip]
pub mod reading_captures;
#[rustfmt::skip]
pub mod reading_packet;
#[rustfmt::skip]
pub mod replacing;
#[rustfmt::skip]
pub mod rows;
#[rustfmt::skip]
pub mod selecting;
#[rustfmt::skip]
pub mod setting;
#[rustfmt::skip]
pub mod statuses;
#[rustfmt::skip]
mod summarizing;
#[rustfmt::skip]
pub mod switching;
#[rustfmt::skip]
pub mod unit_options;
#[rustfmt::skip]
pub mod walking;
#[rustfmt::skip]
pub mod writing_back;

#[rustfmt::skip]
pub use capturing::EtherCaptureEnd;
#[rustfmt::skip]
pub use ether_bridge::EtherBridge;
#[rustfmt::skip]
pub use ether_captured::EtherCaptured;
#[rustfmt::skip]
pub use ether_fault::EtherFault;
#[rustfmt::skip]
pub use ether_fed::EtherFed;
#[rustfmt::skip]
pub use ether_field::EtherField;
#[rustfmt::skip]
pub use ether_filter_error::EtherFilterError;
#[rustfmt::skip]
pub use ether_found::EtherFound;
#[rustfmt::skip]
pub use ether_frame::EtherFrame;
#[rustfmt::skip]
pub use ether_headers::EtherHeaders;
#[rustfmt::skip]
pub use ether_interface::EtherInterface;
#[rustfmt::skip]
pub use ether_linux_sll2::EtherLinuxSll2;
#[rustfmt::skip]
pub use ether_option::EtherOption;
#[rustfmt::skip]
pub use ether_port::EtherPort;
#[rustfmt::skip]
pub use ether_read_unit::EtherReadUnit;
#[rustfmt::skip]
pub use ether_reader::EtherReader;
#[rustfmt::skip]
pub use ether_received::EtherReceived;
#[rustfmt::skip]
pub use ether_replace_error::EtherReplaceError;
#[rustfmt::skip]
pub use ether_row::EtherRow;
#[rustfmt::skip]
pub use ether_unit::{EtherArp, EtherEthernet2, EtherLinuxSll, EtherMacsec, EtherUnit, EtherVlan};
#[rustfmt::skip]
pub use filter::EtherFilter;
