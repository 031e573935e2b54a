//! Views are equal if the bytes that they compare are. Written by hand, for `rust/faults.py`: in the sources a proof
//! says it.
#![allow(clippy::clone_on_copy)]
use etherpeel::ether_sll2::{LinuxSll2HeaderSlice, LinuxSll2Slice};
use etherpeel::*;

// Bytes that are free are all different, so that one can't stand for another.
const ETHERNET2: [u8; 20] = [1, 2, 3, 4, 5, 6, 7, 9, 10, 11, 12, 13, 0x08, 0x00, 14, 15, 16, 17, 18, 19];
const VLAN: [u8; 6] = [0xB1, 0x23, 0x08, 0x00, 1, 2];
const MACSEC: [u8; 18] = [0x20, 0, 11, 12, 13, 14, 1, 2, 3, 4, 5, 6, 7, 9, 0x08, 0x00, 15, 16];
const COOKED: [u8; 18] = [0, 4, 0, 1, 0, 6, 2, 3, 5, 7, 9, 10, 11, 12, 0x08, 0x00, 13, 14];
const COOKED2: [u8; 22] = [0x08, 0, 0, 0, 1, 3, 5, 2, 0, 1, 4, 6, 7, 9, 10, 11, 12, 13, 14, 15, 16, 17];
const ARP: [u8; 30] =
    [0, 1, 8, 0, 6, 4, 0, 2, 3, 5, 7, 9, 10, 11, 12, 13, 14, 15, 16, 17, 18, 19, 20, 21, 22, 23, 24, 25, 26, 27];

/// A view of the bytes is equal to its clone, and to that of other bytes unless one of the first `$len` differs.
macro_rules! compares {
    ($len:expr, $bytes:expr, $read:path) => {
        let (bytes, same) = ($bytes, $bytes);
        let view = $read(&bytes).unwrap();
        assert!(view == view.clone() && view.clone() == $read(&same).unwrap());
        for (at, bit) in (0..bytes.len()).flat_map(|at| (0..8).map(move |bit| (at, bit))) {
            let mut other = bytes;
            other[at] ^= 1 << bit;
            if let Ok(changed) = $read(&other) {
                assert_eq!(view == changed, at >= $len, "byte {at}, bit {bit}");
            }
        }
    };
}

#[test]
fn views_of_headers() {
    compares!(14, ETHERNET2, Ethernet2HeaderSlice::from_slice);
    compares!(4, VLAN, SingleVlanHeaderSlice::from_slice);
    compares!(16, MACSEC, MacsecHeaderSlice::from_slice);
    compares!(16, COOKED, LinuxSllHeaderSlice::from_slice);
    compares!(20, COOKED2, LinuxSll2HeaderSlice::from_slice);
    compares!(28, ARP, ArpPacketSlice::from_slice);
}

#[test]
fn views_with_payloads() {
    compares!(20, ETHERNET2, Ethernet2Slice::from_slice_without_fcs);
    compares!(20, ETHERNET2, Ethernet2Slice::from_slice_with_crc32_fcs);
    compares!(6, VLAN, SingleVlanSlice::from_slice);
    compares!(18, MACSEC, MacsecSlice::from_slice);
    compares!(18, COOKED, LinuxSllSlice::from_slice);
    compares!(22, COOKED2, LinuxSll2Slice::from_slice);
    let with = Ethernet2Slice::from_slice_with_crc32_fcs(&ETHERNET2).unwrap();
    assert!(with != Ethernet2Slice::from_slice_without_fcs(&ETHERNET2).unwrap());
}

#[test]
fn values() {
    compares!(14, ETHERNET2, ethernet2);
    compares!(28, ARP, ArpPacket::from_slice);
}

fn ethernet2(bytes: &[u8]) -> Result<Ethernet2Header, err::LenError> {
    Ethernet2Header::from_slice(bytes).map(|(header, _)| header)
}
