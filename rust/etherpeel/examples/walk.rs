//! A walk through a frame, as README.md of the repository has it.
use etherpeel::ether_peel::{Peel, PeelUnit, Start};

fn main() {
    let frame = *b"\xFF\xFF\xFF\xFF\xFF\xFF\x3A\xEE\xB6\x2F\xF6\xD7\x81\x00\xB1\x23\x08\x00\x45\x00";
    for unit in Peel::new(Start::Ethernet2, &frame) {
        if let Ok(PeelUnit::Vlan(tag)) = unit {
            println!("VLAN {}", tag.vlan_identifier().value());
        }
    }
}
