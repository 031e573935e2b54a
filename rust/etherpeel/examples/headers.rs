//! The headers of Ethernet frames, which standard input has as lines of hexadecimal digits:
//! `echo ffffffffffff3aeeb62ff6d78100b12308004500 | cargo run --example headers`
use etherpeel::ether_peel::{Peel, PeelUnit, Start};

fn bytes_of(digits: &str) -> Result<Vec<u8>, Box<dyn std::error::Error>> {
    let pairs = digits.trim().as_bytes().chunks(2);
    pairs.map(|pair| Ok(u8::from_str_radix(std::str::from_utf8(pair)?, 16)?)).collect()
}

fn main() -> Result<(), Box<dyn std::error::Error>> {
    for line in std::io::stdin().lines() {
        let frame = bytes_of(&line?)?;
        let mut peel = Peel::new(Start::Ethernet2, &frame);
        for next in peel.by_ref() {
            match next {
                Ok(PeelUnit::Ethernet2(frame)) => println!("{:?}", frame.to_header()),
                Ok(PeelUnit::Vlan(tag)) => println!("{:?}", tag.to_header()),
                Ok(PeelUnit::Macsec(packet)) => println!("{:?}", packet.header.to_header()),
                Ok(PeelUnit::LinuxSll(packet)) => println!("{:?}", packet.to_header()),
                Ok(PeelUnit::Arp(packet)) => println!("{:?}", packet.to_packet()),
                Err(fault) => println!("{fault}"),
            }
        }
        println!("{} bytes are left, {:?}", peel.rest().len(), peel.kind());
    }
    Ok(())
}
