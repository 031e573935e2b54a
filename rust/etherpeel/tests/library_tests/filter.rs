//! Tests of `ether_filter`.
mod tests;
