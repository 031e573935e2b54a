//! Tests of which packets match and where texts are refused, and the examples of the documentation.
mod content;
mod deciding;
mod examples;
mod fields;
mod frame;
mod matching;
mod refusals;
