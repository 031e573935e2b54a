//! Units that are read where the caller keeps the interfaces of a section.
use super::captures::LITTLE_NANOSECONDS;
use super::equal;
use super::pcapng_captures::BIG;
use etherpeel::ether_pcap::{
    ByteOrder, CaptureError, CaptureInterface, InterfaceSlice, LinkType, ReaderState,
    TimestampResolution, UnitContent,
};
use crate::kit::Fail;

const SECTION: ReaderState = ReaderState::Section(ByteOrder::BigEndian);

#[test]
fn headers_are_the_next_state() -> Result<(), Fail> {
    let rt = crate::kit::HostRuntime;
    let section = ReaderState::Nothing.read(&InterfaceSlice(&[]), &BIG)?;
    let order = match section.content {
        UnitContent::Section(order) => Some(order),
        _ => None,
    };
    equal!(rt, "a section header"; section.len => 28, order => Some(ByteOrder::BigEndian));
    let classic = ReaderState::Nothing.read(&InterfaceSlice(&[]), &LITTLE_NANOSECONDS)?;
    let header = match classic.content {
        UnitContent::FileHeader(header) => Some((header.byte_order, header.resolution)),
        _ => None,
    };
    equal!(rt, "a file header";
        classic.len => 24,
        header => Some((ByteOrder::LittleEndian, TimestampResolution::Nanoseconds)),
    );
    Ok(())
}

#[test]
fn an_interface_is_returned_to_be_kept() -> Result<(), Fail> {
    let rt = crate::kit::HostRuntime;
    let unit = SECTION.read(&InterfaceSlice(&[]), &BIG[28..])?;
    let found = match unit.content {
        UnitContent::Interface(interface) => interface,
        _ => CaptureInterface::default(),
    };
    equal!(rt, "an interface description";
        unit.len => 40,
        found.link_type => LinkType::ETHERNET,
        found.snap_len => 39,
        found.fcs_len => Some(0),
        found.time_resolution => Some(9),
        found.time_offset => 0,
    );
    let other = SECTION.read(&InterfaceSlice(&[]), &BIG[68..])?;
    equal!(rt, "another block";
        other.len => 16,
        matches!(other.content, UnitContent::Other) => true,
    );
    Ok(())
}

/// The interface that is passed, and the seconds and the link type of the packet, which is captured after
/// 1,700,000,000,123,456,789 ticks.
#[rustfmt::skip]
static PASSED: [(&str, LinkType, Option<u8>, u64); 3] = [
    ("nanoseconds", LinkType::ETHERNET, Some(9), 1_700_000_000),
    ("microseconds", LinkType::LINUX_SLL, None, 1_700_000_000_123),
    ("seconds", LinkType(276), Some(0), 1_700_000_000_123_456_789),
];

#[test]
fn a_packet_is_read_by_the_interface_that_is_passed() -> Result<(), Fail> {
    let rt = crate::kit::HostRuntime;
    let refused = SECTION.read(&InterfaceSlice(&[]), &BIG[84..]);
    equal!(rt, "no interface"; refused.err() => Some(CaptureError::NoInterface(0)));
    for &(name, link_type, time_resolution, seconds) in &PASSED {
        let interface = CaptureInterface {
            link_type,
            time_resolution,
            ..CaptureInterface::default()
        };
        let unit = SECTION.read(&InterfaceSlice(&[interface]), &BIG[84..])?;
        let shown = match unit.content {
            UnitContent::Packet(packet) => Some((
                packet.link_type,
                packet.original_len,
                packet.time.map(|time| time.seconds),
            )),
            _ => None,
        };
        equal!(rt, name; unit.len => 48, shown => Some((link_type, 60, Some(seconds))));
    }
    Ok(())
}
