//! Splits a text at a byte.

/// The parts of a text before and after the first `byte`: `vlan` and `vid` of `vlan.vid`, at a dot. Returns `None` if
/// it has no such byte.
///
/// <details><summary>Contract</summary>
///
/// ```text
/// ensures some { IfSome result (λ parts. SplitsAt byte text.now parts.0.now parts.1.now) }
/// ensures none { IfNone result (All (λ it. (it == byte) ≡ false) text.now) }
/// ```
///
/// Words: [`SplitsAt`](crate::definitions::ether_format#def.SplitsAt). [Notation](crate::definitions::notation)
///
/// </details>
#[must_use]
#[inline]
pub fn split_at(byte: u8, text: &[u8]) -> Option<(&[u8], &[u8])> {
    match text.iter().position(|it| *it == byte) {
        Some(at) => Some((&text[..at], &text[at + 1..])),
        None => None,
    }
}
