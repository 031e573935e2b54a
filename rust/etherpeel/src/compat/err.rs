//! The errors of what [`compat`](crate::compat) adds. [`crate::err`] has their names, too.

mod from_slice_error;
pub mod macsec;
pub mod packet;
mod read_error;

pub use from_slice_error::FromSliceError;
pub use read_error::ReadError;
