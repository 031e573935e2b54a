//! The packets of a capture file that an expression selects, each with its number from 1 on and its length:
//! `cargo run --example filter 'vlan 5 or arp' FILE`
use etherpeel::ether_content::selects;
use etherpeel::ether_filter::Filter;
use etherpeel::ether_pcap::CapturePackets;

fn main() -> Result<(), Box<dyn std::error::Error>> {
    let words: Vec<String> = std::env::args().collect();
    let [_, expression, path] = words.as_slice() else {
        return Err("the arguments are an expression and a capture file".into());
    };
    let filter = Filter::parse(expression.as_bytes())?;
    let file = std::fs::read(path)?;
    for (index, packet) in CapturePackets::from_slice(&file).enumerate() {
        let packet = packet?;
        if selects(&filter, &packet) {
            println!("{}: {} bytes", index + 1, packet.packet.len());
        }
    }
    Ok(())
}
