//! Values of JSON in which no object has two members of one name. Written by hand, not proved.
use crate::ether_make::json::{Value, from_slice};
use crate::ether_make::lines::LineFault;
use crate::ether_make::memory::Global;

/// The value of a text in which no object, at any depth, has two members of one name.
pub fn unique_value(alloc: Global, text: &[u8]) -> Result<Value, LineFault> {
    let value = from_slice(alloc, text).map_err(|_| LineFault::NotJson)?;
    if value.is_unique() { Ok(value) } else { Err(LineFault::Repeated) }
}
