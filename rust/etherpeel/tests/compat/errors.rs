//! The errors that are by hand: what they are made of, their texts and sources.

use etherpeel::err::macsec::HeaderReadError;
use etherpeel::err::packet::{BuildWriteError, SliceError};
use etherpeel::err::{FromSliceError, Layer, LenError, ReadError, linux_sll, macsec};
use etherpeel::{LenSource, SlicedPacket};
use std::error::Error;
use std::io;

const LEN: LenError = LenError {
    required_len: 4,
    len: 2,
    len_source: LenSource::Slice,
    layer: Layer::VlanHeader,
    layer_start_offset: 14,
};
const SLL: linux_sll::HeaderError = linux_sll::HeaderError::UnsupportedPacketTypeField { packet_type: 8 };
const MACSEC: macsec::HeaderError = macsec::HeaderError::UnexpectedVersion;

fn io_error() -> io::Error {
    io::Error::other("unplugged")
}

/// Whether an error shows the text of another one, which is its source.
fn wraps(outer: &dyn Error, inner: &dyn Error) -> bool {
    let (text, source) = (inner.to_string(), outer.source().map(|it| it.to_string()));
    outer.to_string() == text && source == Some(text)
}

#[test]
fn of_packets() {
    let rows: [(SliceError, &dyn Error); 3] =
        [(SliceError::Len(LEN), &LEN), (SliceError::LinuxSll(SLL), &SLL), (SliceError::Macsec(MACSEC), &MACSEC)];
    for (error, inner) in &rows {
        assert!(wraps(error, *inner));
        assert!(wraps(&FromSliceError::from(error.clone()), *inner));
        assert!(wraps(&ReadError::from(error.clone()), *inner));
    }
}

#[test]
fn of_slices() {
    assert_eq!(FromSliceError::from(LEN), FromSliceError::Len(LEN));
    assert_eq!(FromSliceError::from(SLL), FromSliceError::LinuxSll(SLL));
    assert_eq!(FromSliceError::from(MACSEC), FromSliceError::Macsec(MACSEC));
    for (error, wanted) in [
        (FromSliceError::from(linux_sll::HeaderSliceError::Len(LEN)), FromSliceError::Len(LEN)),
        (FromSliceError::from(linux_sll::HeaderSliceError::Content(SLL)), FromSliceError::LinuxSll(SLL)),
        (FromSliceError::from(macsec::HeaderSliceError::Len(LEN)), FromSliceError::Len(LEN)),
        (FromSliceError::from(macsec::HeaderSliceError::Content(MACSEC)), FromSliceError::Macsec(MACSEC)),
    ] {
        assert_eq!(error, wanted);
    }
    let parts = |error: FromSliceError| (error.len().copied(), error.linux_sll().copied(), error.macsec().copied());
    assert_eq!(parts(FromSliceError::Len(LEN)), (Some(LEN), None, None));
    assert_eq!(parts(FromSliceError::LinuxSll(SLL)), (None, Some(SLL), None));
    assert_eq!(parts(FromSliceError::Macsec(MACSEC)), (None, None, Some(MACSEC)));
    assert_eq!(FromSliceError::Len(LEN).add_slice_offset(4), FromSliceError::Len(LEN.add_offset(4)));
    assert_eq!(FromSliceError::Macsec(MACSEC).add_slice_offset(4), FromSliceError::Macsec(MACSEC));
}

#[test]
fn of_readers() {
    assert!(wraps(&ReadError::from(io_error()), &io_error()));
    assert_eq!(ReadError::from(io_error()).io().map(|it| it.kind()), Some(io::ErrorKind::Other));
    assert!(ReadError::from(LEN).io().is_none());
    assert_eq!(
        ReadError::from(linux_sll::HeaderSliceError::Len(LEN)).add_slice_offset(4).len(),
        Some(LEN.add_offset(4))
    );
    assert_eq!(ReadError::from(SLL).add_slice_offset(4).linux_sll(), Some(SLL));
    assert_eq!(ReadError::from(macsec::HeaderSliceError::Content(MACSEC)).macsec(), Some(MACSEC));
    assert_eq!(ReadError::from(MACSEC).len(), None);
    assert_eq!(ReadError::from(MACSEC).linux_sll(), None);
    assert_eq!(ReadError::from(SLL).macsec(), None);
    assert_eq!(ReadError::from(HeaderReadError::Content(MACSEC)).macsec(), Some(MACSEC));
    assert!(ReadError::from(HeaderReadError::Io(io_error())).io().is_some());
}

#[test]
fn of_sec_tags_and_builders() {
    assert!(wraps(&HeaderReadError::Content(MACSEC), &MACSEC));
    let error = HeaderReadError::from(io_error());
    assert_eq!(error.to_string(), "MACsec Header IO Error: unplugged");
    assert_eq!(error.source().map(|it| it.to_string()), Some("unplugged".to_string()));

    assert!(wraps(&BuildWriteError::from(io_error()), &io_error()));
    let error = BuildWriteError::ArpHeaderNotMatch;
    assert!(error.source().is_none() && error.io().is_none());
    assert!(error.to_string().starts_with("The ARP packet has another hardware type"));
}

/// `?` makes any of these of any other that it stems from.
#[test]
fn passed_on() {
    fn sliced(packet: &[u8]) -> Result<usize, FromSliceError> {
        Ok(SlicedPacket::from_ethernet(packet)?.link_exts.len())
    }
    fn read(packet: &[u8]) -> Result<usize, ReadError> {
        Ok(sliced(packet)?)
    }
    assert!(matches!(read(&[0; 13]), Err(ReadError::Len(error)) if error.required_len == 14));
    assert_eq!(read(&[0; 14]).unwrap(), 0);
}
