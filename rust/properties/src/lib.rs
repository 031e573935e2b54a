//! The contracts of the crate `etherpeel` as properties, for readers who want to run them.
//!
//! Each property of `tests/` draws inputs, calls public functions, and compares what they return with a model. The
//! models of this library are plain and slow. They are written from the public standards, whose clauses their comments
//! name, and not from the code of the crate:
//!
//! - [`wire`], [`arp`], [`cooked`], [`sec_tag`]: headers as bytes and as values, and why bytes are refused as a header
//! - [`walk`]: the headers of a frame, each in the payload of the one before it
//! - [`stream`]: what a reader of a stream asks for, and what completes a frame that was cut
//! - [`filter`], [`grammar`]: expressions of pcap-filter(7), evaluated and read
//! - [`completions`]: what the missing bytes of a packet can be
//! - [`bridge`], [`table`]: a bridge with VLANs, and the table of its stations
//!
//! The models of filters and of bridges take enumerations of the crate, such as `Primitive` and `Discarded`, as names.
//!
//! The other modules serve the properties: [`frames`], [`expressions`] and [`networks`] draw inputs, [`observed`]
//! restates values of the crate in the terms of the models, and [`cases`] runs a property.
//!
//! The draws come from a fixed seed, so each run is the same. `PROPTEST_CASES` sets how many cases a property has.

pub mod arp;
pub mod bridge;
pub mod cases;
pub mod completions;
pub mod cooked;
pub mod expressions;
pub mod fields;
pub mod filter;
pub mod frames;
pub mod grammar;
pub mod networks;
pub mod observed;
pub mod sec_tag;
pub mod stream;
pub mod table;
pub mod walk;
pub mod wire;
