//! Sets of ports.

/// A set of ports, by their numbers, 0 to 255. Port `i` is in the set if bit `i % 64` of the word `i / 64` is 1, where
/// bit 0 is the lowest.
///
/// ```
/// use etherpeel::ether_switch::PortSet;
///
/// let mut set = PortSet::NONE;
/// set.insert(3);
/// assert!(set.contains(3) && !set.contains(4));
/// ```
#[cfg_attr(feature = "serde", derive(serde::Serialize, serde::Deserialize))]
#[repr(C)]
#[derive(Clone, Copy, PartialEq, Eq, Hash, Debug)]
pub struct PortSet {
    /// The bits.
    pub words: [u64; 4],
}

impl PortSet {
    /// The empty set.
    pub const NONE: PortSet = PortSet { words: [0; 4] };

    /// The set of one port.
    ///
    /// <details><summary>Contract</summary>
    ///
    /// ```text
    /// ensures { (p : ℕ) → p < 256 → has result p ≡ nat_eq p port }
    /// ```
    ///
    /// Words: [`has`](crate::definitions::ether_switch#def.has). [Notation](crate::definitions::notation)
    ///
    /// </details>
    #[must_use]
    #[inline]
    pub fn only(port: u8) -> PortSet {
        let mut set = PortSet::NONE;
        set.insert(port);
        set
    }

    /// Whether a port is in the set.
    ///
    /// <details><summary>Contract</summary>
    ///
    /// ```text
    /// ensures { result ≡ has self.now port }
    /// ```
    ///
    /// Words: [`has`](crate::definitions::ether_switch#def.has). [Notation](crate::definitions::notation)
    ///
    /// </details>
    #[must_use]
    #[inline]
    pub fn contains(&self, port: u8) -> bool {
        (self.words[port as usize / 64] >> (port % 64)) & 1 == 1
    }

    /// Adds a port to the set.
    ///
    /// <details><summary>Contract</summary>
    ///
    /// ```text
    /// ensures { (p : ℕ) → p < 256 → has self.new p ≡ (nat_eq p port || has self.old p) }
    /// ```
    ///
    /// Words: [`has`](crate::definitions::ether_switch#def.has). [Notation](crate::definitions::notation)
    ///
    /// </details>
    #[inline]
    pub fn insert(&mut self, port: u8) {
        self.words[port as usize / 64] |= 1 << (port % 64);
    }

    /// Removes a port from the set.
    ///
    /// <details><summary>Contract</summary>
    ///
    /// ```text
    /// ensures { (p : ℕ) → p < 256 → has self.new p ≡ (not (nat_eq p port) && has self.old p) }
    /// ```
    ///
    /// Words: [`has`](crate::definitions::ether_switch#def.has). [Notation](crate::definitions::notation)
    ///
    /// </details>
    #[inline]
    pub fn remove(&mut self, port: u8) {
        self.words[port as usize / 64] &= !(1 << (port % 64));
    }

    /// The ports that are in both sets.
    ///
    /// <details><summary>Contract</summary>
    ///
    /// ```text
    /// ensures { (p : ℕ) → p < 256 → has result p ≡ (has self.now p && has other.now p) }
    /// ```
    ///
    /// Words: [`has`](crate::definitions::ether_switch#def.has). [Notation](crate::definitions::notation)
    ///
    /// </details>
    #[must_use]
    #[inline]
    pub fn intersection(&self, other: &PortSet) -> PortSet {
        let [a, b, c, d] = self.words;
        let [e, f, g, h] = other.words;
        PortSet {
            words: [a & e, b & f, c & g, d & h],
        }
    }

    /// The ports that are in one of the sets.
    ///
    /// <details><summary>Contract</summary>
    ///
    /// ```text
    /// ensures { (p : ℕ) → p < 256 → has result p ≡ (has self.now p || has other.now p) }
    /// ```
    ///
    /// Words: [`has`](crate::definitions::ether_switch#def.has). [Notation](crate::definitions::notation)
    ///
    /// </details>
    #[must_use]
    #[inline]
    pub fn union(&self, other: &PortSet) -> PortSet {
        let [a, b, c, d] = self.words;
        let [e, f, g, h] = other.words;
        PortSet {
            words: [a | e, b | f, c | g, d | h],
        }
    }

    /// The ports of this set that are not in the other one.
    ///
    /// <details><summary>Contract</summary>
    ///
    /// ```text
    /// ensures { (p : ℕ) → p < 256 → has result p ≡ (has self.now p && not (has other.now p)) }
    /// ```
    ///
    /// Words: [`has`](crate::definitions::ether_switch#def.has). [Notation](crate::definitions::notation)
    ///
    /// </details>
    #[must_use]
    #[inline]
    pub fn difference(&self, other: &PortSet) -> PortSet {
        let [a, b, c, d] = self.words;
        let [e, f, g, h] = other.words;
        PortSet {
            words: [a & !e, b & !f, c & !g, d & !h],
        }
    }
}
