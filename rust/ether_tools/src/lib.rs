//! What the programs are made of: by a script [`ether_text`], [`ether_stream`] and most of [`ether_files`], [`ether_capture`] and
//! [`ether_make`]; by hand [`ending`], [`gzip`], [`jobs`], [`reasons`] and [`streams`], and what the head of a file says.
pub mod ending;
#[rustfmt::skip]
pub mod ether_capture;
#[rustfmt::skip]
pub mod ether_files;
#[rustfmt::skip]
pub mod ether_make;
#[rustfmt::skip]
pub mod ether_stream;
#[rustfmt::skip]
pub mod ether_text;
pub mod gzip;
pub mod jobs;
pub mod reasons;
pub mod streams;
