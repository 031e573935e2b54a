//! Capture files of either format, unit by unit or packet by packet.
//!
//! A [`CaptureReader`] reads one unit at a time from the bytes that it is given: a file header, a record or a block.
//! [`CapturePackets`] iterates over the packets of a whole file in memory. A program that keeps the interfaces of a
//! section itself reads units by [`ReaderState::read`].
mod capture_blocks;
mod capture_error;
mod capture_fault;
mod capture_interface;
mod capture_packets;
mod capture_reader;
mod capture_unit;
mod captured_packet;
mod copied_unit;
mod copy_mode;
mod copying;
mod described_interfaces;
mod direction;
mod edited_unit;
mod editing;
mod interface_table;
mod read_unit;
mod reader_state;
mod timestamp;
mod unit_copies;
mod unit_options;

pub use capture_error::CaptureError;
pub use capture_fault::CaptureFault;
pub use capture_interface::CaptureInterface;
pub use capture_packets::CapturePackets;
pub use capture_reader::CaptureReader;
pub use capture_unit::CaptureUnit;
pub use captured_packet::CapturedPacket;
pub use copied_unit::CopiedUnit;
pub use copy_mode::CopyMode;
pub use described_interfaces::{DescribedInterfaces, InterfaceSlice};
pub use direction::Direction;
pub use edited_unit::EditedUnit;
pub use interface_table::InterfaceTable;
pub use read_unit::{ReadUnit, UnitContent};
pub use reader_state::ReaderState;
pub use timestamp::Timestamp;
