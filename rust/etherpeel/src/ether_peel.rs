//! The walk through the stack of link-layer headers of a frame: Ethernet II, VLAN tags, MACsec SecTags, Linux cooked
//! capture v1 and ARP, each announced by the ether type of the one before it. No call allocates memory.
//!
//! [`Peel`] is an iterator over the headers with their payloads, and over the fault if there is one. [`summary`]
//! returns the result of the whole walk, [`snap`] that of a frame cut short, and [`write_back`] writes the headers
//! that were found, and what is left after them.
//!
//! If a header names the length of its payload, as a MACsec SecTag may, or the frame ends in a frame check sequence,
//! the window of what is inside is closed: bytes appended to the frame would lie outside it. [`PeelFault::missing`]
//! says how many bytes a header lacks in a window that is open; for most headers [`completion`] returns the bytes that
//! complete them. [`feed`] returns how much of a frame is taken by a reader that asks for the missing bytes.
//!
//! [`Peel::with_limit`] reads no more than a given number of VLAN tags and SecTags. `summary`, `snap`, `write_back`,
//! `feed` and `completion` each have a `_limited` form with that walk.

mod completing;
mod feeding;
mod peel;
mod peel_error;
mod peel_fault;
mod peel_unit;
mod rest_kind;
mod start;
mod summarizing;
mod walk_feed;
mod walk_summary;
mod writing_back;

pub use completing::{completion, completion_limited};
pub use feeding::{feed, feed_limited};
pub use peel::Peel;
pub use peel_error::PeelError;
pub use peel_fault::PeelFault;
pub use peel_unit::PeelUnit;
pub use rest_kind::RestKind;
pub use start::Start;
pub use summarizing::{snap, snap_limited, summary, summary_limited};
pub use walk_feed::Feed;
pub use walk_summary::Summary;
pub use writing_back::{write_back, write_back_limited};
