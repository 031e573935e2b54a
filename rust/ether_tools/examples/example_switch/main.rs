//! A switch over a capture. Each argument is a port: `trunk`, or the identifier of the VLAN of an access port.
//!
//!     cargo run --example example_switch -- 10 10 trunk < capture.pcap
//!
//! Written by hand, not proved: `crates/example_switch/src/main.rt` takes arguments and streams from the runtime of Rattle.
// The allocator has nothing in it here, the forms are those of the sources, and contracts used what nothing uses now.
#![allow(clippy::all, dead_code, unused_imports, unused_variables)]

#[rustfmt::skip]
mod arguments;
#[rustfmt::skip]
mod lines;
#[rustfmt::skip]
mod port;
#[rustfmt::skip]
mod reading;

use arguments::{SwitchError, port_of};
use ether_tools::ether_capture::memory::Global;
use ether_tools::streams;
use etherpeel::ether_pcap::CapturePackets;
use etherpeel::ether_switch::{Bridge, BridgeKind};
use lines::frame_lines;
use port::{empty_table, states_of, vlans_of};
use reading::read_packet;
use std::error::Error;
use std::io::{Read, Write};
use std::process::ExitCode;

fn run() -> Result<(), Box<dyn Error>> {
    let mut ports = Vec::new();
    for argument in streams::arguments()?.skip(1) {
        ports.push(port_of(&argument)?);
    }
    if ports.len() >= 1 << 8 {
        return Err(SwitchError::Count.into());
    }
    let mut capture = Vec::new();
    streams::input()?.read_to_end(&mut capture)?;
    let mut output = streams::output()?;
    let states = states_of(ports.len() as u8);
    let vlans = vlans_of(Global, &ports)?;
    let bridge = Bridge {
        kind: BridgeKind::Customer,
        ageing_time: Bridge::AGEING_TIME,
        key: [0, 0], // a switch that reads what others send takes random numbers
        ports: &states,
        vlans: &vlans,
        static_entries: &[],
        forwarded: 0,
    };
    let mut table = empty_table(Global)?;
    for packet in CapturePackets::from_slice(&capture) {
        let Some(arrived) = read_packet(&ports, &packet?) else {
            return Err(SwitchError::Packet.into());
        };
        let text = frame_lines(Global, &bridge, &mut table, &arrived.arrival, arrived.frame)?;
        output.write_all(text.as_bytes())?;
    }
    Ok(())
}

fn main() -> ExitCode {
    streams::ended(run())
}
