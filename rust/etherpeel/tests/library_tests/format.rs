//! Tests of `ether_format`.
mod lines;
mod times;
