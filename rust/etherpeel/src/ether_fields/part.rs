//! The parts of a unit that have fields.

/// A part of a unit that has fields: the header, or what follows its payload.
#[derive(Clone, Copy, PartialEq, Eq, Hash, Debug)]
pub enum Part {
    /// A header, with these numbers of bits.
    Header(Sizes),
    /// The frame check sequence after the payload of a frame.
    Trailer,
}

/// How many bits a header has in the fields that have not the same number of bits in each header.
#[derive(Clone, Copy, PartialEq, Eq, Hash, Debug)]
pub struct Sizes {
    /// The bits of a hardware address of ARP.
    pub hardware: u16,
    /// The bits of a protocol address of ARP.
    pub protocol: u16,
    /// Whether a SecTag has a secure channel identifier.
    pub has_sci: bool,
    /// Whether the ether type after a SecTag can be read.
    pub has_payload_type: bool,
}

impl Sizes {
    /// Those of a header that has no such field.
    pub const NONE: Sizes = Sizes {
        hardware: 0,
        protocol: 0,
        has_sci: false,
        has_payload_type: false,
    };
}
