//! Drawn frames, sliced in both ways, and read by offsets and arithmetic alone.

use etherpeel::err::packet::SliceError;
use etherpeel::err::{Layer, macsec::HeaderError};
use etherpeel::ether_peel::{Peel, Start};
use etherpeel::{
    LaxLinkExtSlice, LaxMacsecPayloadSlice, LaxNetSlice, LaxSlicedPacket, LenSource, LinkExtSlice, SlicedPacket,
};

const FRAMES: usize = 50_000;

/// What is seen of a refused header.
#[derive(Clone, Copy, PartialEq, Eq, Debug)]
enum Refusal {
    Len { required_len: usize, len: usize, source: LenSource, layer: Layer, at: usize },
    Macsec(HeaderError),
}

impl Refusal {
    fn of(error: &SliceError) -> Refusal {
        match error {
            SliceError::Len(it) => Refusal::Len {
                required_len: it.required_len,
                len: it.len,
                source: it.len_source,
                layer: it.layer,
                at: it.layer_start_offset,
            },
            SliceError::Macsec(error) => Refusal::Macsec(*error),
            other => panic!("{other}"),
        }
    }
}

/// What is seen of a frame: the places of its tags, each with whether it is cut short; the place of an ARP packet; what
/// is refused.
#[derive(PartialEq, Eq, Default, Debug)]
struct Seen {
    tags: Vec<(usize, bool)>,
    arp: Option<usize>,
    refused: Option<Refusal>,
}

/// A frame after its Ethernet II header.
struct Reading<'a> {
    frame: &'a [u8],
    at: usize,
    end: usize,
    source: LenSource,
    is_lax: bool,
}

impl Reading<'_> {
    fn number(&self, at: usize) -> u16 {
        u16::from(self.frame[at]) * 256 + u16::from(self.frame[at + 1])
    }

    /// Refuses fewer bytes than that.
    fn need(&self, required_len: usize, source: LenSource, layer: Layer) -> Result<(), Refusal> {
        let (len, at) = (self.end - self.at, self.at);
        if len < required_len { Err(Refusal::Len { required_len, len, source, layer, at }) } else { Ok(()) }
    }

    /// A SecTag: the ether type after it, and whether its payload is cut short.
    fn sec_tag(&mut self) -> Result<(Option<u16>, bool), Refusal> {
        self.need(6, self.source, Layer::MacsecHeader)?;
        let (control, short_len) = (self.frame[self.at], usize::from(self.frame[self.at + 1] % 64));
        let is_open = control & 0x0C == 0;
        if control >= 0x80 {
            return Err(Refusal::Macsec(HeaderError::UnexpectedVersion));
        }
        if is_open && short_len == 1 {
            return Err(Refusal::Macsec(HeaderError::InvalidUnmodifiedShortLen));
        }
        let before = if control & 0x20 == 0 { 6 } else { 14 };
        let header_len = if is_open { before + 2 } else { before };
        self.need(header_len, self.source, Layer::MacsecHeader)?;
        let mut is_cut = false;
        if short_len > 0 {
            match self.need(before + short_len, LenSource::MacsecShortLength, Layer::MacsecPacket) {
                Ok(()) => (self.end, self.source) = (self.at + before + short_len, LenSource::MacsecShortLength),
                Err(refusal) if !self.is_lax => return Err(refusal),
                Err(_) => is_cut = true,
            }
        }
        let ether_type = is_open.then(|| self.number(self.at + before));
        self.at += header_len;
        Ok((ether_type, is_cut))
    }

    fn arp(&self) -> Result<(), Refusal> {
        self.need(8, self.source, Layer::Arp)?;
        let sizes = usize::from(self.frame[self.at + 4]) + usize::from(self.frame[self.at + 5]);
        self.need(8 + 2 * sizes, LenSource::ArpAddrLengths, Layer::Arp)
    }

    fn read(&mut self, seen: &mut Seen) -> Result<(), Refusal> {
        let mut ether_type = self.number(12);
        loop {
            match ether_type {
                0x8100 | 0x88A8 | 0x9100 if seen.tags.len() < 3 => {
                    self.need(4, self.source, Layer::VlanHeader)?;
                    seen.tags.push((self.at, false));
                    ether_type = self.number(self.at + 2);
                    self.at += 4;
                }
                0x88E5 if seen.tags.len() < 3 => {
                    let at = self.at;
                    let (next, is_cut) = self.sec_tag()?;
                    seen.tags.push((at, is_cut));
                    let Some(next) = next else { return Ok(()) };
                    ether_type = next;
                }
                0x0806 => {
                    self.arp()?;
                    seen.arp = Some(self.at);
                    return Ok(());
                }
                _ => return Ok(()),
            }
        }
    }
}

fn wanted(frame: &[u8], is_lax: bool) -> Seen {
    let mut seen = Seen::default();
    let mut reading = Reading { frame, at: 14, end: frame.len(), source: LenSource::Slice, is_lax };
    seen.refused = reading.read(&mut seen).err();
    seen
}

/// Where a part of a frame begins in it.
fn place(frame: &[u8], part: &[u8]) -> usize {
    part.as_ptr() as usize - frame.as_ptr() as usize
}

fn lax_seen(frame: &[u8]) -> Seen {
    let packet = LaxSlicedPacket::from_ethernet(frame).unwrap();
    let tags = packet.link_exts.iter().map(|ext| match ext {
        LaxLinkExtSlice::Vlan(tag) => (place(frame, tag.slice()), false),
        LaxLinkExtSlice::Macsec(tag) => match &tag.payload {
            LaxMacsecPayloadSlice::Unmodified(it) => (place(frame, tag.header.slice()), it.incomplete),
            LaxMacsecPayloadSlice::Modified { incomplete, .. } => (place(frame, tag.header.slice()), *incomplete),
        },
    });
    let layers = packet.stop_err.as_ref().map(|(error, layer)| (Refusal::of(error), *layer));
    if let Some((Refusal::Len { layer, .. }, told)) = layers {
        assert_eq!(layer, told);
    }
    Seen {
        tags: tags.collect(),
        arp: packet.net.as_ref().map(|net| match net {
            LaxNetSlice::Arp(arp) => place(frame, arp.slice()),
            other => panic!("{other:?}"),
        }),
        refused: layers.map(|it| it.0),
    }
}

/// Compares what a strict slice holds; of a refused frame there is the refusal alone.
fn check_strict(frame: &[u8]) {
    let wanted = wanted(frame, false);
    match SlicedPacket::from_ethernet(frame) {
        Err(error) => assert_eq!(Some(Refusal::of(&error)), wanted.refused),
        Ok(packet) => {
            let tags = packet.link_exts.iter().map(|ext| match ext {
                LinkExtSlice::Vlan(tag) => (place(frame, tag.slice()), false),
                LinkExtSlice::Macsec(tag) => (place(frame, tag.header.slice()), false),
            });
            let arp = packet.net.as_ref().and_then(|net| net.arp_ref()).map(|arp| place(frame, arp.slice()));
            assert_eq!(Seen { tags: tags.collect(), arp, refused: None }, wanted);
            let units = Peel::with_limit(Start::Ethernet2, frame, 3).count();
            assert_eq!(units, 1 + wanted.tags.len() + usize::from(wanted.arp.is_some()));
        }
    }
}

/// Frames with many ether types that announce something, and many small numbers.
fn frames() -> impl Iterator<Item = Vec<u8>> {
    let mut state = 0x9E37_79B9_7F4A_7C15_u64;
    let mut draw = move |most: u64| {
        state ^= state << 13;
        state ^= state >> 7;
        state ^= state << 17;
        (state >> 16) % most
    };
    std::iter::repeat_with(move || {
        let len = 14 + draw(60) as usize;
        let mut frame: Vec<u8> = (0..len).map(|_| draw(256) as u8 & if draw(2) == 0 { 0x27 } else { 0x7F }).collect();
        for at in (12..len - 1).step_by(2) {
            if at == 12 || draw(3) == 0 {
                let ether_type = [0x8100_u16, 0x88A8, 0x9100, 0x88E5, 0x88E5, 0x0806, 0x0800][draw(7) as usize];
                frame[at..at + 2].copy_from_slice(&ether_type.to_be_bytes());
            }
        }
        frame
    })
    .take(FRAMES)
}

#[test]
fn drawn_frames() {
    let (mut cut, mut arp, mut refused) = (0, 0, 0);
    for frame in frames() {
        let wanted = wanted(&frame, true);
        assert_eq!(lax_seen(&frame), wanted, "{frame:x?}");
        check_strict(&frame);
        cut += usize::from(wanted.tags.iter().any(|it| it.1));
        arp += usize::from(wanted.arp.is_some());
        refused += usize::from(wanted.refused.is_some());
    }
    assert!(cut > 500 && arp > 500 && refused > 500, "{cut} cut, {arp} with ARP, {refused} refused");
}
