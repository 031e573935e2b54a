//! The errors of packets.

mod build_write_error;
mod slice_error;

pub use build_write_error::BuildWriteError;
pub use slice_error::SliceError;
