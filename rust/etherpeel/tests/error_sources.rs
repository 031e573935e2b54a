//! What `source` returns: the error within, of each error that wraps one. Written by hand, as `src/error_sources.rs`.
use etherpeel::ArpHardwareId;
use etherpeel::err::{Layer, LenError, SliceWriteSpaceError, arp, linux_sll, macsec};
use etherpeel::ether_packet::BuildError;
use etherpeel::ether_pcap::{
    BlockError, BodyError, CaptureError, CaptureFault, FileHeaderError, RecordError, RecordFault, SectionError,
};
use etherpeel::ether_peel::{Peel, PeelError, PeelFault, Start};
use etherpeel::{Ethernet2Header, LenSource, MacsecHeader};
use std::error::Error;

const LEN: LenError = LenError {
    required_len: 4,
    len: 2,
    len_source: LenSource::Slice,
    layer: Layer::VlanHeader,
    layer_start_offset: 14,
};

/// Whether the source of an error is another one, by value.
fn wraps<E: Error + PartialEq + 'static>(outer: impl Error, inner: E) -> bool {
    outer.source().and_then(|it| it.downcast_ref::<E>()) == Some(&inner)
}

#[test]
fn errors_of_headers() {
    let version = macsec::HeaderError::UnexpectedVersion;
    let packet_type = linux_sll::HeaderError::UnsupportedPacketTypeField { packet_type: 8 };
    assert!(wraps(macsec::HeaderSliceError::Len(LEN), LEN));
    assert!(wraps(macsec::HeaderSliceError::Content(version), version));
    assert!(wraps(linux_sll::HeaderSliceError::Len(LEN), LEN));
    assert!(wraps(linux_sll::HeaderSliceError::Content(packet_type), packet_type));
    assert!(wraps(PeelError::Len(LEN), LEN));
    assert!(wraps(PeelError::LinuxSll(packet_type), packet_type));
    assert!(wraps(PeelError::Macsec(version), version));
    let fault = PeelFault { offset: 14, error: PeelError::Len(LEN), closed: false };
    assert!(wraps(fault, PeelError::Len(LEN)));
}

#[test]
fn errors_of_packets_and_captures() {
    let space = SliceWriteSpaceError { required_len: 14, len: 0, layer: Layer::EtherPayload, layer_start_offset: 0 };
    assert!(wraps(BuildError::Space(space), space));
    assert!(BuildError::Sealed(0).source().is_none());
    assert!(BuildError::HardwareType(ArpHardwareId::LOOPBACK).source().is_none());

    let (file, record) = (FileHeaderError::Magic(1), RecordError::CapturedLen(262_145));
    let (block, body) = (BlockError::Len { required_len: 12, len: 4 }, BodyError::CapturedLen(262_145));
    let section = SectionError::Block(block);
    assert!(wraps(RecordFault { offset: 24, error: record }, record));
    assert!(wraps(section, block));
    assert!(SectionError::Magic(1).source().is_none());
    assert!(wraps(CaptureError::File(file), file));
    assert!(wraps(CaptureError::Record(record), record));
    assert!(wraps(CaptureError::Section(section), section));
    assert!(wraps(CaptureError::Block(block), block));
    assert!(wraps(CaptureError::Body(body), body));
    assert!(CaptureError::NoInterface(0).source().is_none());
    assert!(CaptureError::TooManyInterfaces.source().is_none());
    assert!(wraps(CaptureFault { offset: 24, error: CaptureError::Record(record) }, CaptureError::Record(record)));
}

/// As in etherparse, though it wraps one.
#[test]
fn none_of_arp() {
    let inner = arp::ArpHwAddrError::LenTooBig(256);
    assert!(arp::ArpNewError::HwAddr(inner).source().is_none());
    assert!(inner.source().is_none());
}

#[test]
fn chain_of_a_walk() {
    let mut frame = Ethernet2Header { ether_type: 0x88E5.into(), ..Default::default() }.to_bytes().to_vec();
    frame.extend([0x80, 0, 0, 0, 0, 0]);
    let error: Box<dyn Error> = match Peel::new(Start::Ethernet2, &frame).find_map(Result::err) {
        Some(fault) => Box::new(fault),
        None => panic!("no fault"),
    };
    let (mut texts, mut next) = (vec![], Some(&*error));
    while let Some(error) = next {
        texts.push(error.to_string());
        next = error.source();
    }
    let version = macsec::HeaderError::UnexpectedVersion.to_string();
    assert_eq!(texts, [format!("at offset 14: {version}"), version.clone(), version]);

    let error = MacsecHeader::from_slice(&frame[14..]).unwrap_err();
    assert!(wraps(error, macsec::HeaderError::UnexpectedVersion));
}
