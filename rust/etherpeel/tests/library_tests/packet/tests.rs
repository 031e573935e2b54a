//! Worked frames as packets that are read, built and changed. The rows are statics, because a function takes longer to
//! prove with each row that it makes.
mod building;
mod frames;
mod fronts;
mod packets;
mod parts;
mod replacing;
mod replacing_arp;
mod replacing_links;
mod vlan_tags;

use crate::checks::{equal, put};
use etherpeel::{LinkExtHeader, MacsecHeader, SingleVlanHeader};
use crate::kit::Fail;

/// The bytes, padded with zeros.
fn filled(bytes: &[u8]) -> [u8; 96] {
    let mut buffer = [0; 96];
    put(&mut buffer, 0, bytes);
    buffer
}

/// The header of a VLAN tag if there are four bytes, else that of a SecTag.
fn ext(bytes: &[u8]) -> Result<LinkExtHeader, Fail> {
    match bytes {
        [a, b, c, d] => Ok(LinkExtHeader::Vlan(SingleVlanHeader::from_bytes([*a, *b, *c, *d]))),
        _ => Ok(LinkExtHeader::Macsec(MacsecHeader::from_slice(bytes)?)),
    }
}
