//! Small captures, read and edited. Wireshark's `tshark` printed their fields. The rows are statics, because a
//! function takes longer to prove with each row that it makes.
mod blocks;
mod captures;
mod classic;
mod copies;
mod editing;
mod examples;
mod interfaces;
mod options;
mod packets;
mod pcapng_captures;
mod sections;
mod states;
mod texts;
mod units;

use crate::checks::{equal, put};
