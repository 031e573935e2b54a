//! Tests of `ether_peel`.
mod plain;
pub mod test_frames;
mod tests;
