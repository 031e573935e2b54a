//! Tests of `ether_packet`.
mod tests;
