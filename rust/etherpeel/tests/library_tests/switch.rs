//! Tests of `ether_switch`.
mod arriving;
mod bridges;
mod examples;
mod forgetting;
mod hashing;
mod learning;
mod leaving;
mod relaying;
mod reserved;
mod states;
