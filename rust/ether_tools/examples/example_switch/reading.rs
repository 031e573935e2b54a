//! Reads the packets of a capture as frames that come in.

use crate::port::Port;
use etherpeel::ether_content::without_fcs;
use etherpeel::ether_pcap::{CapturedPacket, LinkType, Timestamp};

/// When a frame came in, in seconds, and the number of its port and the port.
#[derive(Clone, Copy, Debug)]
pub(crate) struct Arrival {
    pub time: u32,
    pub from: u8,
    pub port: Port,
}

/// A frame that came in.
#[derive(Clone, Copy, Debug)]
pub(crate) struct Arrived<'a> {
    pub arrival: Arrival,
    pub frame: &'a [u8],
}

/// The frame of a packet, which comes in by the port of its interface. `None` if it is not an Ethernet frame, or if
/// its interface is not a port.
pub(crate) fn read_packet<'a>(ports: &[Port], packet: &CapturedPacket<'a>) -> Option<Arrived<'a>> {
    if packet.link_type != LinkType::ETHERNET {
        return None;
    }
    let index = packet.interface.unwrap_or(0) as usize;
    let port = ports.get(index)?;
    let arrival = Arrival {
        time: seconds(packet.time),
        from: index as u8 + 1,
        port: *port,
    };
    Some(Arrived {
        arrival,
        frame: without_fcs(packet),
    })
}

/// The seconds of a time, at most 2^32 - 1; 0 if there is no time.
fn seconds(time: Option<Timestamp>) -> u32 {
    match time {
        Some(time) => time.seconds.min(u64::from(u32::MAX)) as u32,
        None => 0,
    }
}
