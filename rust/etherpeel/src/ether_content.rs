//! What is done with a captured packet, by its link type: which part of it is walked, how long its headers are,
//! whether a filter selects it, and how an edit changes it. No call allocates memory.

mod content;
mod cooked;
mod editing;
mod header_lengths;
pub mod program;
mod selecting;

pub use content::{Content, is_cut, without_fcs};
pub use cooked::CookedHeader;
pub use editing::{EditedPacket, NoRoom, PacketEdit, edit_packet};
pub use header_lengths::headers_len;
pub use selecting::{decide, is_undecided, selects};
