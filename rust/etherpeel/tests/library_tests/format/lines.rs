//! Packets as JSON, as lines for the eye, as columns and as records of CSV. What is expected was written by hand, from
//! the bytes.
use crate::checks::equal;
use arrayvec::ArrayVec;
use etherpeel::ether_format::{Columns, Format, Origin, write_packet};
use etherpeel::ether_output::OutputBuffer;
use etherpeel::ether_pcap::{CapturedPacket, Direction, LinkType, Timestamp};

/// The name of a row, what names its format, the packet, and its line.
struct Row {
    name: &'static str,
    format: &'static str,
    packet: &'static [u8],
    line: &'static str,
}

/// A VLAN tag of IEEE 802.1Q, 9.6: priority 5, drop eligible, identifier 291; and an octet of IPv4.
const TAGGED: &[u8] = b"\xFF\xFF\xFF\xFF\xFF\xFF\x02\0\0\0\0\x01\x81\x00\xB1\x23\x08\x00\x45";

/// RFC 826: who has 10.0.0.2, tell 10.0.0.1.
const REQUEST: &[u8] = b"\xFF\xFF\xFF\xFF\xFF\xFF\x02\0\0\0\0\x01\x08\x06\0\x01\x08\0\x06\x04\0\x01\
\x02\0\0\0\0\x01\x0A\0\0\x01\0\0\0\0\0\0\x0A\0\0\x02";

/// A reply of AppleTalk, whose addresses have four octets here, and are none of IPv4.
const OTHER_REPLY: &[u8] =
    b"\xFF\xFF\xFF\xFF\xFF\xFF\x02\0\0\0\0\x01\x08\x06\0\x01\x80\x9B\x06\x04\0\x02\
\x02\0\0\0\0\x01\x0A\0\0\x01\0\0\0\0\0\0\x0A\0\0\x02";

/// A SecTag of IEEE 802.1AE, 9.3 to 9.9: end station, association 1, packet number 7, with an SCI.
const SECTAG: &[u8] =
    b"\xFF\xFF\xFF\xFF\xFF\xFF\x02\0\0\0\0\x01\x88\xE5\x21\x00\0\0\0\x07\x02\0\0\0\0\x01\0\x01\x08\x00";

static ROWS: [Row; 9] = [
    Row {
        name: "an object with a tag",
        format: "json",
        packet: TAGGED,
        line: "{\"number\":7,\"time\":\"2023-11-14T22:13:20.000001000Z\",\"link\":1,\"captured\":19,\"original\":60,\
\"interface\":2,\"direction\":\"inbound\",\"comment\":\"a,\\\"b\\\"\\u000d\",\"file\":\"a b\",\"headers\":[{\"header\":\"eth\",\"start\":0,\
\"end\":14,\"payload_end\":19,\"closed\":false,\"dst\":\"ff:ff:ff:ff:ff:ff\",\"src\":\"02:00:00:00:00:01\",\"type\":33024,\
\"fcs\":null},{\"header\":\"vlan\",\"start\":14,\"end\":18,\"payload_end\":19,\"closed\":false,\"pcp\":5,\"dei\":1,\"vid\":291,\
\"type\":2048}],\"rest\":{\"start\":18,\"end\":19,\"kind\":\"ether_type\",\"type\":2048}}\n",
    },
    Row {
        name: "columns of ARP",
        format: "arp.op,arp.spa,arp.tpa,arp.sha,vlan.vid",
        packet: REQUEST,
        line: "1\t10.0.0.1\t10.0.0.2\t02:00:00:00:00:01\t\n",
    },
    Row {
        name: "columns of a protocol that is not IPv4",
        format: "arp.pro,arp.spa,arp.tpa",
        packet: OTHER_REPLY,
        line: "0x809B\t0a:00:00:01\t0a:00:00:02\n",
    },
    Row {
        name: "columns of a SecTag",
        format: "macsec.an,macsec.pn,macsec.sci,macsec.type",
        packet: SECTAG,
        line: "1\t7\t02:00:00:00:00:01:00:01\t0x0800\n",
    },
    Row {
        name: "columns of the packet",
        format: "frame.number,frame.captured,frame.original,frame.interface,frame.file",
        packet: TAGGED,
        line: "7\t19\t60\t2\ta b\n",
    },
    Row {
        name: "the places of headers",
        format: "headers.header,headers.start,headers.end",
        packet: REQUEST,
        line: "eth,arp\t0,14\t14,42\n",
    },
    Row {
        name: "a header that is cut",
        format: "fault.start,fault.kind,fault.required,fault.available",
        packet: b"\xFF\xFF\xFF\xFF\xFF\xFF\x02\0\0\0\0\x01\x81\x00\xB1",
        line: "14\tlength\t4\t1\n",
    },
    Row {
        name: "a line for the eye",
        format: "brief",
        packet: TAGGED,
        line: "7 2023-11-14T22:13:20.000001Z 02:00:00:00:00:01 > ff:ff:ff:ff:ff:ff vlan 291 pcp 5 dei IPv4 1 bytes (19 of 60 bytes)\n",
    },
    Row {
        name: "a request for the eye",
        format: "brief",
        packet: REQUEST,
        line: "7 2023-11-14T22:13:20.000001Z 02:00:00:00:00:01 > ff:ff:ff:ff:ff:ff ARP who-has 10.0.0.2 tell 10.0.0.1 (42 of 60 bytes)\n",
    },
];

/// A packet of these bytes, as a capture has it.
fn captured(packet: &[u8]) -> CapturedPacket<'_> {
    CapturedPacket {
        time: Some(Timestamp {
            seconds: 1_700_000_000,
            nanoseconds: 1_000,
        }),
        interface: Some(2),
        direction: Some(Direction::Inbound),
        comment: Some(b"a,\"b\"\r"),
        original_len: 60,
        link_type: LinkType::ETHERNET,
        snap_len: 262_144,
        fcs_len: None,
        packet,
    }
}

/// The text of a packet, and whether no header is refused.
fn written(format: &Format, limit: Option<usize>, packet: &[u8]) -> (ArrayVec<u8, 1024>, bool) {
    let mut text = ArrayVec::new();
    let mut out = OutputBuffer::new(&mut text);
    let origin = Origin {
        file: Some(b"a b"),
        number: 7,
    };
    let is_accepted = write_packet(format, limit, &origin, &captured(packet), &mut out);
    let is_flushed = out.flush().is_ok();
    (text, is_accepted && is_flushed)
}

#[test]
fn each_format_has_the_line_of_its_packet() {
    let rt = crate::kit::HostRuntime;
    for row in &ROWS {
        let format = Format::of_text(row.format.as_bytes()).unwrap_or(Format::Csv(
            Columns::common(),
        ));
        let (text, is_accepted) = written(&format, None, row.packet);
        equal!(rt, row.name;
            text.as_slice() => row.line.as_bytes(),
            is_accepted => row.name != "a header that is cut",
        );
    }
}

#[test]
fn a_record_of_csv_has_quotation_marks_where_it_needs_them() {
    let rt = crate::kit::HostRuntime;
    let columns = Columns::of_names("frame.comment,frame.file,vlan.vid,eth.src").unwrap_or(
        Columns::common(),
    );
    let (text, _) = written(&Format::Csv(columns), None, TAGGED);
    equal!(rt, "RFC 4180, 2";
        text.as_slice() => b"\"a,\"\"b\"\"\r\",a b,291,02:00:00:00:00:01\r\n".as_slice(),
    );
}

#[test]
fn a_limit_ends_the_walk_before_a_tag() {
    let rt = crate::kit::HostRuntime;
    let columns = Columns::of_names("vlan.vid,rest.start,rest.type").unwrap_or(Columns::common());
    let (text, is_accepted) = written(&Format::Fields(columns), Some(0), TAGGED);
    equal!(rt, "no tag may be read";
        text.as_slice() => b"\t14\t0x8100\n".as_slice(),
        is_accepted => true,
    );
}
