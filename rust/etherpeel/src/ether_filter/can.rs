//! What is possible for a packet that was cut short.

/// Whether something can hold, and whether it can fail.
#[derive(Clone, Copy)]
pub(in crate::ether_filter) struct Can {
    pub matches: bool,
    pub fails: bool,
}

impl Can {
    /// Nothing is known of it yet.
    pub(in crate::ether_filter) const EITHER: Can = Can {
        matches: true,
        fails: true,
    };

    /// A field has another value than the wanted one.
    pub(in crate::ether_filter) const MISSED: Can = Can {
        matches: false,
        fails: true,
    };

    /// It has the wanted one.
    pub(in crate::ether_filter) const MET: Can = Can {
        matches: true,
        fails: false,
    };

    /// It holds, whatever the missing bytes are, or it fails.
    #[inline]
    pub(in crate::ether_filter) fn decided(matches: bool) -> Can {
        Can {
            matches,
            fails: !matches,
        }
    }

    /// What is possible if one of two cases is.
    #[inline]
    pub(in crate::ether_filter) fn or(self, other: Can) -> Can {
        Can {
            matches: either(self.matches, other.matches),
            fails: either(self.fails, other.fails),
        }
    }

    /// Whether it can hold and can fail.
    #[inline]
    pub(in crate::ether_filter) fn is_open(self) -> bool {
        both(self.matches, self.fails)
    }

    /// Whether one of two things can hold, and both can fail.
    #[inline]
    pub(in crate::ether_filter) fn any(self, other: Can) -> Can {
        Can {
            matches: either(self.matches, other.matches),
            fails: both(self.fails, other.fails),
        }
    }
}

/// Whether one of two holds.
#[inline]
fn either(one: bool, other: bool) -> bool {
    one || other
}

/// Whether two hold.
#[inline]
fn both(one: bool, other: bool) -> bool {
    one && other
}
