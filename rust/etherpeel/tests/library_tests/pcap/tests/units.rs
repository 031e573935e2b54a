//! Whole files of both formats, read one unit at a time.
use super::captures::{BIG_MICROSECONDS, BIG_SLL, LITTLE_FCS, LITTLE_NANOSECONDS};
use super::equal;
use super::pcapng_captures::{BIG, LITTLE};
use arrayvec::ArrayVec;
use etherpeel::ether_pcap::{
    CaptureInterface, CaptureReader, CaptureUnit, CapturedPacket, LinkType, Timestamp,
};
use crate::kit::Fail;

/// The length of a unit, and the seconds, nanoseconds and original length of its packet, with the offsets at which
/// that begins and ends.
type Shown = (usize, Option<(Option<(u64, u32)>, u32, usize, usize)>);

/// The packet of a unit as it is shown, in a file with one interface of this link type.
fn packet<'a>(
    shown: &Shown,
    link_type: LinkType,
    snap_len: u32,
    fcs_len: Option<u8>,
    interface: Option<u32>,
    file: &'a [u8],
) -> Option<CapturedPacket<'a>> {
    let Some((time, original_len, start, end)) = shown.1 else {
        return None;
    };
    let time = match time {
        Some((seconds, nanoseconds)) => Some(Timestamp {
            seconds,
            nanoseconds,
        }),
        None => None,
    };
    Some(CapturedPacket {
        time,
        interface,
        direction: None,
        comment: None,
        original_len,
        link_type,
        snap_len,
        fcs_len,
        packet: file.get(start..end).unwrap_or(&[]),
    })
}

/// Both files of pcapng: their interface counts nanoseconds, and its frame check sequence has no bytes.
const BLOCKS: &[Shown] = &[
    (28, None),
    (40, None),
    (16, None),
    (48, Some((Some((1_700_000_000, 123_456_789)), 60, 112, 128))),
    (56, Some((None, 42, 144, 183))),
];

/// A file, its link type, its snap length, the length of its frame check sequence, the number of its interface, and
/// its units.
type Row = (
    &'static str,
    &'static [u8],
    LinkType,
    u32,
    Option<u8>,
    Option<u32>,
    &'static [Shown],
);

#[rustfmt::skip]
static FILES: [Row; 6] = [
    ("microseconds", &BIG_MICROSECONDS, LinkType::ETHERNET, 65_535, None, None, &[
        (24, None),
        (58, Some((Some((1_700_000_000, 123_456_000)), 60, 40, 82))),
        (32, Some((Some((1_700_000_001, 5_000)), 16, 98, 114))),
    ]),
    ("nanoseconds", &LITTLE_NANOSECONDS, LinkType::ETHERNET, 262_144, None, None, &[
        (24, None),
        (58, Some((Some((1_700_000_000, 123_456_789)), 60, 40, 82))),
        (32, Some((Some((1_700_000_001, 5)), 16, 98, 114))),
    ]),
    ("a frame check sequence", &LITTLE_FCS, LinkType::ETHERNET, 256, Some(4), None, &[
        (24, None),
        (36, Some((Some((1, 2_000)), 20, 40, 60))),
    ]),
    ("cooked captures", &BIG_SLL, LinkType::LINUX_SLL, 96, None, None, &[
        (24, None),
        (33, Some((Some((4_294_967_295, 999_999_999)), 17, 40, 57))),
    ]),
    ("blocks", &BIG, LinkType::ETHERNET, 39, Some(0), Some(0), BLOCKS),
    ("blocks, least significant byte first", &LITTLE, LinkType::ETHERNET, 39, Some(0), Some(0), BLOCKS),
];

#[test]
fn units_of_a_whole_file_are_read_one_at_a_time() -> Result<(), Fail> {
    let rt = crate::kit::HostRuntime;
    for &(name, file, link_type, snap_len, fcs_len, interface, units) in &FILES {
        let mut reader = CaptureReader::new(ArrayVec::<CaptureInterface, 4>::new());
        let mut place = 0;
        for shown in units {
            let has_begun = reader.has_begun();
            let found = reader.read(file.get(place..).unwrap_or(&[]))?;
            let wanted = CaptureUnit {
                len: shown.0,
                packet: packet(shown, link_type, snap_len, fcs_len, interface, file),
            };
            equal!(rt, name;
                has_begun => place > 0,
                &found => &wanted,
            );
            place = place.saturating_add(found.len);
        }
        equal!(rt, name;
            reader.has_begun() => true,
            place => file.len(),
        );
    }
    Ok(())
}
