//! The packets of a capture in memory, one after the other.
use super::captures::{BIG_MICROSECONDS, BIG_SLL, LITTLE_FCS};
use super::equal;
use super::pcapng_captures::{BIG, LITTLE};
use etherpeel::ether_pcap::{CaptureError, CaptureFault, CapturePackets, RecordError};

/// A capture, and the offset at which each of its packets begins and ends.
static CAPTURES: [(&str, &[u8], &[(usize, usize)]); 5] = [
    ("microseconds", &BIG_MICROSECONDS, &[(40, 82), (98, 114)]),
    ("check sequence", &LITTLE_FCS, &[(40, 60)]),
    ("cooked capture", &BIG_SLL, &[(40, 57)]),
    ("pcapng, big-endian", &BIG, &[(112, 128), (144, 183)]),
    ("pcapng, little-endian", &LITTLE, &[(112, 128), (144, 183)]),
];

#[test]
fn all_packets_of_a_whole_file_are_read() {
    let rt = crate::kit::HostRuntime;
    for (name, file, places) in &CAPTURES {
        let mut packets = CapturePackets::from_slice(file);
        for (start, end) in *places {
            let found = match packets.next() {
                Some(Ok(found)) => Some(found.packet),
                _ => None,
            };
            equal!(rt, name; found => file.get(*start..*end));
        }
        let is_over = packets.next().is_none();
        equal!(rt, name;
            is_over => true,
            packets.offset() => file.len(),
        );
    }
}

#[test]
fn a_cut_record_ends_the_packets() {
    let rt = crate::kit::HostRuntime;
    let mut packets = CapturePackets::from_slice(&BIG_MICROSECONDS[..100]);
    let first = match packets.next() {
        Some(Ok(first)) => first.original_len,
        _ => 0,
    };
    let fault = CaptureFault {
        offset: 82,
        error: CaptureError::Record(RecordError::Len {
            required_len: 32,
            len: 18,
        }),
    };
    let second = packets.next();
    let is_over = packets.next().is_none();
    equal!(rt, "a packet, a fault and no more";
        first => 60,
        second => Some(Err(fault)),
        is_over => true,
        packets.offset() => 82,
        packets.rest().len() => 18,
    );
}
