//! A rewriter of VLAN identifiers over a capture. The arguments are two VLAN identifiers.
//!
//!     cargo run --example example_vlan_rewriter -- 5 7 < capture.pcap
//!
//! Written by hand, not proved: `crates/example_vlan_rewriter/src/main.rt` takes arguments and streams from the runtime of
//! Rattle.
#![allow(unused_variables)] // the allocator, which has nothing in it here

#[rustfmt::skip]
mod rewriting;

use ether_tools::ether_capture::memory::Global;
use ether_tools::streams;
use etherpeel::ether_content::Content;
use etherpeel::ether_pcap::CapturePackets;
use rewriting::{rewritten_line, vlan_id_of};
use std::error::Error;
use std::io::{Read, Write};
use std::process::ExitCode;

fn run() -> Result<(), Box<dyn Error>> {
    let mut arguments = streams::arguments()?.skip(1);
    let from = vlan_id_of(arguments.next())?;
    let to = vlan_id_of(arguments.next())?;
    let mut capture = Vec::new();
    streams::input()?.read_to_end(&mut capture)?;
    let mut output = streams::output()?;
    for packet in CapturePackets::from_slice(&capture) {
        if let Some((start, frame)) = Content::of(&packet?).frame() {
            let text = rewritten_line(Global, start, &mut frame.to_vec(), from, to)?;
            output.write_all(text.as_bytes())?;
        }
    }
    Ok(())
}

fn main() -> ExitCode {
    streams::ended(run())
}
