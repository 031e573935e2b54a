//! The errors of the library and what they name.
pub mod arp;
mod layer;
mod len_error;
pub mod linux_sll;
pub mod macsec;
mod slice_write_space_error;
mod value_too_big_error;
mod value_type;

pub use layer::Layer;
pub use len_error::LenError;
pub use slice_write_space_error::SliceWriteSpaceError;
pub use value_too_big_error::ValueTooBigError;
pub use value_type::ValueType;

#[cfg(feature = "compat")]
pub use crate::compat::err::{FromSliceError, ReadError, packet};
