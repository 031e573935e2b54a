//! What the tests compare values and bytes with.
use arrayvec::ArrayString;
use std::fmt::{Debug, Display, Write};

/// The row, the value that differs, the value that was found and the wanted one. A longer text is cut off.
type Difference = ArrayString<4096>;

/// How two values differ; `None` if they are equal.
pub(crate) fn difference<N: Display, T: PartialEq + Debug>(
    name: &N,
    value: &str,
    found: &T,
    wanted: &T,
) -> Option<Difference> {
    if found == wanted {
        return None;
    }
    let mut text = ArrayString::new();
    let _ = write!(
        text,
        "{name}: {value}\n  found  {found:?}\n  wanted {wanted:?}"
    );
    Some(text)
}

/// The first difference.
pub(crate) fn first<const N: usize>(differences: [Option<Difference>; N]) -> Option<Difference> {
    for difference in differences {
        if difference.is_some() {
            return difference;
        }
    }
    None
}

/// Fails at the caller's line if a value of the row `$name` is not the wanted one.
macro_rules! equal {
    ($rt:expr, $name:expr; $($found:expr => $wanted:expr),+ $(,)?) => {
        if let Some(text) = crate::checks::first([
            $(crate::checks::difference(&$name, stringify!($found), &$found, &$wanted)),+
        ]) {
            panic!("{text}")
        }
    };
}

pub(crate) use equal;

/// Replaces the bytes from the index `place` on, if there is room for all of them.
pub(crate) fn put(target: &mut [u8], place: usize, bytes: &[u8]) {
    if let Some(to) = target.get_mut(place..place.saturating_add(bytes.len())) {
        to.copy_from_slice(bytes);
    }
}
