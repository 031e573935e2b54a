//! The texts of errors, letter by letter.
use super::equal;
use etherpeel::ether_pcap::{
    BlockError, BodyError, CaptureError, CaptureFault, FileHeaderError, RecordError, RecordFault,
    SectionError,
};
use crate::kit::{AllocError, AllocGlobal};
use std::fmt;
use crate::kit::Abort;
use crate::kit::Fail;

/// Tests the text of an error, as `Display` writes it.
fn reads(
    rt: &(impl Abort + AllocGlobal),
    error: &impl fmt::Display,
    text: &str,
) -> Result<(), AllocError> {
    let shown = format!("{error}");
    equal!(rt, text; shown.as_str() => text);
    Ok(())
}

/// An error, its text, and what `Debug` shows.
static FILE_HEADERS: [(FileHeaderError, &str, &str); 5] = [
    (
        FileHeaderError::Len {
            required_len: 24,
            len: 3,
        },
        "The header of a pcap file needs 24 byte(s); only 3 are available.",
        "Len { required_len: 24, len: 3 }",
    ),
    (
        FileHeaderError::Version {
            major: 2,
            minor: 65535,
        },
        "Version 2.65535 of the pcap format is not supported, only 2.4.",
        "Version { major: 2, minor: 65535 }",
    ),
    (
        FileHeaderError::Magic(0x0A0D_0D0A),
        "The magic number 0x0A0D0D0A is not that of a pcap file.",
        "Magic(168627466)",
    ),
    (
        FileHeaderError::Magic(0),
        "The magic number 0x00000000 is not that of a pcap file.",
        "Magic(0)",
    ),
    (
        FileHeaderError::Magic(0xFEDC_BA98),
        "The magic number 0xFEDCBA98 is not that of a pcap file.",
        "Magic(4275878552)",
    ),
];

#[test]
fn a_file_header_error_names_the_cause() -> Result<(), Fail> {
    let rt = crate::kit::HostRuntime;
    for (error, text, debug) in &FILE_HEADERS {
        reads(&rt, error, text)?;
        let shown = format!("{error:?}");
        equal!(rt, debug; shown.as_str() => *debug);
    }
    Ok(())
}

/// Faults at byte 82.
static RECORDS: [(RecordFault, &str); 2] = [
    (
        RecordFault {
            offset: 82,
            error: RecordError::Len {
                required_len: 76,
                len: 20,
            },
        },
        "At byte 82: A record of a pcap file needs 76 byte(s); only 20 are available.",
    ),
    (
        RecordFault {
            offset: 82,
            error: RecordError::CapturedLen(262_145),
        },
        "At byte 82: A record of a pcap file cannot have 262145 captured byte(s), the maximum is 262144.",
    ),
];

#[test]
fn a_record_fault_names_its_offset_and_its_cause() -> Result<(), Fail> {
    let rt = crate::kit::HostRuntime;
    for (fault, text) in &RECORDS {
        reads(&rt, fault, text)?;
    }
    Ok(())
}

static SECTION_HEADERS: [(SectionError, &str); 6] = [
    (
        SectionError::Magic(0x1A2B_3C4E),
        "The byte-order magic 0x1A2B3C4E is not that of a pcapng file.",
    ),
    (
        SectionError::BlockType(0xA1B2_C3D4),
        "A block of type 0xA1B2C3D4 is no section header.",
    ),
    (
        SectionError::Version {
            major: 1,
            minor: 65535,
        },
        "Version 1.65535 of the pcapng format is not supported.",
    ),
    (
        SectionError::Body {
            required_len: 16,
            len: 4,
        },
        "The body of a section header needs 16 byte(s); it has 4.",
    ),
    (
        SectionError::Block(BlockError::Trailer {
            total_len: 28,
            trailer: 32,
        }),
        "A block of a pcapng file begins with length 28 and ends with 32.",
    ),
    (
        SectionError::Block(BlockError::TotalLen(13)),
        "A block of a pcapng file cannot have 13 byte(s).",
    ),
];

#[test]
fn a_section_error_names_the_cause() -> Result<(), Fail> {
    let rt = crate::kit::HostRuntime;
    for (error, text) in &SECTION_HEADERS {
        reads(&rt, error, text)?;
    }
    Ok(())
}

static CAPTURES: [(CaptureError, &str); 4] = [
    (
        CaptureError::Body(BodyError::CapturedLen(262_145)),
        "A block of a pcapng file cannot have 262145 captured byte(s), the maximum is 262144.",
    ),
    (
        CaptureError::Body(BodyError::Len {
            required_len: 20,
            len: 19,
        }),
        "The body of a pcapng block needs 20 byte(s); it has 19.",
    ),
    (
        CaptureError::NoInterface(3),
        "A packet of a pcapng file names interface 3, which its section does not describe.",
    ),
    (
        CaptureError::TooManyInterfaces,
        "A section of a pcapng file describes more interfaces than this reader keeps.",
    ),
];

#[test]
fn a_capture_error_names_the_cause() -> Result<(), Fail> {
    let rt = crate::kit::HostRuntime;
    for (error, text) in &CAPTURES {
        reads(&rt, error, text)?;
    }
    let fault = CaptureFault {
        offset: 24,
        error: CaptureError::NoInterface(3),
    };
    let text =
        "At byte 24: A packet of a pcapng file names interface 3, which its section does not describe.";
    reads(&rt, &fault, text)?;
    Ok(())
}
