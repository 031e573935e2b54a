//! How many packets of a capture file, pcap or pcapng, are in which VLANs: `cargo run --example vlans FILE`
use etherpeel::ether_content::Content;
use etherpeel::ether_packet::PacketSlice;
use etherpeel::ether_pcap::CapturePackets;
use std::collections::BTreeMap;

fn main() -> Result<(), Box<dyn std::error::Error>> {
    let path = std::env::args().nth(1).ok_or("the argument is a capture file")?;
    let file = std::fs::read(path)?;
    let mut counts = BTreeMap::new();
    for packet in CapturePackets::from_slice(&file) {
        if let Some((start, frame)) = Content::of(&packet?).frame() {
            let ids = PacketSlice::from_slice(start, frame).vlan_ids();
            let ids: Vec<u16> = ids.iter().map(|id| id.value()).collect();
            *counts.entry(ids).or_insert(0) += 1;
        }
    }
    for (ids, count) in counts {
        println!("{ids:?}: {count}");
    }
    Ok(())
}
