//! Dates and times of day, as `date -u -d @SECONDS` prints them.
use crate::checks::equal;
use arrayvec::ArrayVec;
use etherpeel::ether_format::{Columns, Format, Origin, write_packet};
use etherpeel::ether_output::OutputBuffer;
use etherpeel::ether_pcap::{CapturedPacket, LinkType, Timestamp};

/// Seconds since the beginning of 1970, and the date and the time of day.
static TIMES: [(u64, &str); 10] = [
    (0, "1970-01-01T00:00:00.000000005Z\n"),
    (68_169_599, "1972-02-28T23:59:59.000000005Z\n"),
    (68_169_600, "1972-02-29T00:00:00.000000005Z\n"),
    (94_694_399, "1972-12-31T23:59:59.000000005Z\n"),
    (951_782_400, "2000-02-29T00:00:00.000000005Z\n"),
    (1_709_208_000, "2024-02-29T12:00:00.000000005Z\n"),
    (1_767_225_599, "2025-12-31T23:59:59.000000005Z\n"),
    (4_107_542_399, "2100-02-28T23:59:59.000000005Z\n"),
    (4_107_542_400, "2100-03-01T00:00:00.000000005Z\n"),
    (4_294_967_295, "2106-02-07T06:28:15.000000005Z\n"),
];

#[test]
fn a_time_is_that_of_the_calendar() {
    let rt = crate::kit::HostRuntime;
    let columns = Columns::of_names("frame.time").unwrap_or(Columns::common());
    for (seconds, wanted) in &TIMES {
        let packet = CapturedPacket {
            time: Some(Timestamp {
                seconds: *seconds,
                nanoseconds: 5,
            }),
            interface: None,
            direction: None,
            comment: None,
            original_len: 0,
            link_type: LinkType::ETHERNET,
            snap_len: 262_144,
            fcs_len: None,
            packet: b"",
        };
        let origin = Origin {
            file: None,
            number: 1,
        };
        let mut text = ArrayVec::<u8, 64>::new();
        let mut out = OutputBuffer::new(&mut text);
        write_packet(&Format::Fields(columns), None, &origin, &packet, &mut out);
        let is_flushed = out.flush().is_ok();
        equal!(rt, wanted;
            is_flushed => true,
            text.as_slice() => wanted.as_bytes(),
        );
    }
}
