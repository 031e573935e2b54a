//! Copies a capture file, and moves the frames of one VLAN to another one:
//! `cargo run --example rewriter 5 100 FILE COPY`
use etherpeel::VlanId;
use etherpeel::ether_content::Content;
use etherpeel::ether_packet::replace_vlan_id;
use etherpeel::ether_pcap::CapturePackets;

fn main() -> Result<(), Box<dyn std::error::Error>> {
    let words: Vec<String> = std::env::args().collect();
    let [_, from, to, path, target] = words.as_slice() else {
        return Err("the arguments are two VLAN identifiers, a capture file and the name of its copy".into());
    };
    let (from, to) = (VlanId::try_new(from.parse()?)?, VlanId::try_new(to.parse()?)?);
    let file = std::fs::read(path)?;
    let mut copy = file.clone();
    for packet in CapturePackets::from_slice(&file) {
        let packet = packet?;
        if let Some((start, frame)) = Content::of(&packet).frame() {
            // the frame is a part of the file
            let at = frame.as_ptr() as usize - file.as_ptr() as usize;
            let _index = replace_vlan_id(start, &mut copy[at..at + frame.len()], from, to);
        }
    }
    std::fs::write(target, copy)?;
    Ok(())
}
