//! Drawn numbers.

/// Ether types, of which all but the last two announce a header that is read.
static TYPES: [u16; 9] = [
    0x8100, 0x88A8, 0x9100, 0x88E5, 0x88E5, 0x0806, 0x0806, 0x0800, 0x88CC,
];

/// Hardware types of cooked capture; all but the last are supported.
static HARDWARE: [u16; 6] = [1, 824, 778, 803, 770, 772];

/// A sequence of numbers that its seed determines: SplitMix64.
pub(crate) struct Draw {
    state: u64,
}

impl Draw {
    pub(crate) fn new(seed: u64) -> Draw {
        Draw {
            state: seed.wrapping_mul(0x9E37_79B9_7F4A_7C15),
        }
    }

    /// The next number of 64 bits.
    pub(crate) fn next(&mut self) -> u64 {
        self.state = self.state.wrapping_add(0x9E37_79B9_7F4A_7C15);
        let z = self.state;
        let z = (z ^ (z >> 30)).wrapping_mul(0xBF58_476D_1CE4_E5B9);
        let z = (z ^ (z >> 27)).wrapping_mul(0x94D0_49BB_1331_11EB);
        z ^ (z >> 31)
    }

    /// A number below `end`; 0 if that is 0.
    pub(crate) fn below(&mut self, end: usize) -> usize {
        (self.next() >> 33) as usize % end.max(1)
    }

    /// Whether one of so many cases comes.
    pub(crate) fn one_in(&mut self, cases: usize) -> bool {
        self.below(cases) == 0
    }

    pub(crate) fn flag(&mut self) -> bool {
        self.one_in(2)
    }

    pub(crate) fn byte(&mut self) -> u8 {
        (self.next() >> 56) as u8
    }

    pub(crate) fn short(&mut self) -> u16 {
        (self.next() >> 48) as u16
    }

    pub(crate) fn word(&mut self) -> u32 {
        (self.next() >> 32) as u32
    }

    /// A number of 16 bits, mostly a small one.
    pub(crate) fn small_u16(&mut self) -> u16 {
        let number = self.short();
        match self.below(4) {
            0 => number,
            1 => number % 16,
            _ => number % 4100,
        }
    }

    /// An ether type, mostly one that announces a header.
    pub(crate) fn ether_type(&mut self) -> u16 {
        match TYPES.get(self.below(12)) {
            Some(number) => *number,
            None => self.short(),
        }
    }

    /// A hardware type, mostly one of cooked capture.
    pub(crate) fn hardware_type(&mut self) -> u16 {
        match HARDWARE.get(self.below(7)) {
            Some(number) => *number,
            None => self.short(),
        }
    }

    /// The length of an address, at most 260, which is more than a packet can have.
    pub(crate) fn address_len(&mut self) -> usize {
        match self.below(8) {
            0 => self.below(261),
            1 => 254 + self.below(3),
            2 => 4,
            _ => 6,
        }
    }

    /// Draws each byte of a slice.
    pub(crate) fn fill(&mut self, bytes: &mut [u8]) {
        for byte in bytes {
            *byte = self.byte();
        }
    }
}
