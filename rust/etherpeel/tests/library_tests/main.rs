//! Tests of the libraries, by their public paths. No proof is asked of them.

// Assertions no longer take the runtime, what is left out no longer uses what others have, and the forms are those of
// the sources.
#![allow(clippy::all, dead_code, unused_imports, unused_variables)]

#[path = "../kit/mod.rs"]
mod kit;
#[rustfmt::skip]
mod example_frames;

#[rustfmt::skip]
mod checks;
#[rustfmt::skip]
mod examples;
#[cfg(feature = "content")]
#[rustfmt::skip]
mod filter;
#[cfg(all(feature = "format", feature = "std"))]
#[rustfmt::skip]
mod format;
#[rustfmt::skip]
mod formats;
#[rustfmt::skip]
mod packet;
#[cfg(feature = "pcap")]
#[rustfmt::skip]
mod pcap;
#[rustfmt::skip]
mod peel;
#[cfg(feature = "switch")]
#[rustfmt::skip]
mod switch;
#[rustfmt::skip]
mod test_frames;
