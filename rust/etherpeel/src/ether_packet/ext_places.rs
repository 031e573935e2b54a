//! Where the VLAN tags and SecTags of a packet are in its frame.

use core::fmt;

/// A window of a frame: its offset, and its bytes.
#[derive(Clone, Copy, PartialEq, Eq)]
pub(in crate::ether_packet) struct FrameWindow<'a> {
    pub start: usize,
    pub bytes: &'a [u8],
}

/// Shows how many bytes there are, and not the bytes: the frame has them.
impl fmt::Debug for FrameWindow<'_> {
    fn fmt(&self, f: &mut fmt::Formatter<'_>) -> fmt::Result {
        f.debug_struct("FrameWindow")
            .field("start", &self.start)
            .field("len", &self.bytes.len())
            .finish()
    }
}

/// Whether a tag is a VLAN tag or a SecTag.
#[derive(Clone, Copy, PartialEq, Eq, Hash, Debug)]
pub(in crate::ether_packet) enum ExtKind {
    Vlan,
    Macsec,
}

/// A tag, and the window in which it was read.
#[derive(Clone, Copy, PartialEq, Eq, Debug)]
pub(in crate::ether_packet) struct ExtPlace<'a> {
    pub kind: ExtKind,
    pub place: FrameWindow<'a>,
}

/// Up to three tags in order. Three fields take fewer instructions than an `ArrayVec`, whose unused places have to be
/// filled.
#[derive(Clone, PartialEq, Eq, Debug)]
pub(in crate::ether_packet) struct ExtPlaces<'a> {
    first: Option<ExtPlace<'a>>,
    second: Option<ExtPlace<'a>>,
    third: Option<ExtPlace<'a>>,
}

impl<'a> ExtPlaces<'a> {
    /// No tags.
    ///
    /// <details><summary>Contract</summary>
    ///
    /// ```text
    /// ensures { result ≡ [] }
    /// ```
    ///
    /// [Notation](crate::definitions::notation)
    ///
    /// </details>
    #[must_use]
    #[inline(always)]
    pub fn new() -> ExtPlaces<'a> {
        ExtPlaces {
            first: None,
            second: None,
            third: None,
        }
    }

    /// Appends a tag.
    ///
    /// # Panics
    ///
    /// The call may panic, or return something else, if a `requires` of its contract is not met.
    ///
    /// <details><summary>Contract</summary>
    ///
    /// ```text
    /// requires { length self.old < 3 }
    /// ensures { self.new ≡ self.old ++ tag.entry ∷ [] }
    /// ```
    ///
    /// [Notation](crate::definitions::notation)
    ///
    /// </details>
    #[inline(always)]
    pub fn push(&mut self, tag: ExtPlace<'a>) {
        match self.len() {
            0 => self.first = Some(tag),
            1 => self.second = Some(tag),
            _ => self.third = Some(tag),
        }
    }

    /// The tag at an index.
    ///
    /// <details><summary>Contract</summary>
    ///
    /// ```text
    /// ensures { result ≡ slice_get self.now index }
    /// ```
    ///
    /// [Notation](crate::definitions::notation)
    ///
    /// </details>
    #[must_use]
    #[inline(always)]
    pub fn get(&self, index: usize) -> Option<ExtPlace<'a>> {
        match index {
            0 => self.first,
            1 => self.second,
            2 => self.third,
            _ => None,
        }
    }

    /// The number of tags.
    ///
    /// <details><summary>Contract</summary>
    ///
    /// ```text
    /// ensures value { result ≡ length self.now }
    /// ensures most { length self.now ≤ 3 }
    /// ```
    ///
    /// [Notation](crate::definitions::notation)
    ///
    /// </details>
    #[must_use]
    #[inline(always)]
    pub fn len(&self) -> usize {
        match (&self.first, &self.second, &self.third) {
            (None, _, _) => 0,
            (_, None, _) => 1,
            (_, _, None) => 2,
            _ => 3,
        }
    }
}
