//! Why a text is not an expression.

use core::error::Error;
use core::fmt;

/// Why a text is not an expression, and where.
///
/// ```
/// use etherpeel::ether_filter::{Filter, FilterErrorKind};
///
/// # fn main() -> Result<(), Box<dyn std::error::Error>> {
/// let Err(error) = Filter::parse(b"vlan 4096") else {
///     return Ok(());
/// };
/// assert_eq!(error.offset, 5);
/// assert_eq!(error.kind, FilterErrorKind::ExpectedNumber(4095));
/// assert_eq!(
///     format!("{error}").as_str(),
///     "At byte 5: expected a number up to 4095."
/// );
/// # Ok(())
/// # }
/// ```
#[derive(Clone, Copy, PartialEq, Eq, Hash, Debug)]
pub struct FilterError {
    /// The offset in bytes of the first word that does not fit. It is the length of the text if words are missing at
    /// the end.
    pub offset: usize,
    /// What is expected there, or why the word does not fit.
    pub kind: FilterErrorKind,
}

/// What is expected at a place of an expression, or why a word does not fit there.
#[derive(Clone, Copy, PartialEq, Eq, Hash, Debug)]
pub enum FilterErrorKind {
    /// A primitive, `not` or `(` is expected.
    ExpectedOperand,
    /// `and`, `or`, `)` or the end of the text is expected.
    ExpectedOperator,
    /// An identifier up to 4095 is expected after `vlan`, or `and`, `or`, `)` or the end of the text.
    ExpectedVlanIdOrOperator,
    /// `vlan` is expected.
    ExpectedVlan,
    /// `proto`, `src`, `dst`, `host`, `broadcast` or `multicast` is expected.
    ExpectedEtherWord,
    /// An address is expected, in the form `xx:xx:xx:xx:xx:xx` or `xxxxxxxxxxxx`.
    ExpectedAddress,
    /// A number up to this one is expected.
    ExpectedNumber(u32),
    /// A relation is expected: `==`, `!=`, `<`, `<=`, `>`, `>=` or `in`.
    ExpectedRelation,
    /// A relation or `&` is expected after a field, or `and`, `or`, `)` or the end of the text.
    ExpectedRelationOrOperator,
    /// This number of bytes is expected, or a number that fits in them.
    ExpectedBytes(u8),
    /// Bytes are expected, as those of an address.
    ExpectedAnyBytes,
    /// A time is expected, in the form `2026-11-01T00:00:00Z`.
    ExpectedTime,
    /// The name of a header is expected.
    ExpectedHeader,
    /// `{` is expected.
    ExpectedSet,
    /// `,` or `}` is expected.
    ExpectedSetEnd,
    /// `and` and `or` are mixed without parentheses.
    MixedOperators,
    /// A `)` has no `(`.
    Unopened,
    /// The text ends before a `(` is closed.
    Unclosed,
    /// The expression has more than [`Filter::MAX_WORDS`](crate::ether_filter::Filter::MAX_WORDS) words.
    TooLong,
}

impl fmt::Display for FilterErrorKind {
    fn fmt(&self, f: &mut fmt::Formatter<'_>) -> fmt::Result {
        match self {
            FilterErrorKind::ExpectedOperand => {
                f.write_str("expected a primitive, `not` or `(`.")
            }
            FilterErrorKind::ExpectedOperator => {
                f.write_str("expected `and`, `or`, `)` or the end.")
            }
            FilterErrorKind::ExpectedVlanIdOrOperator => {
                f.write_str("expected a number up to 4095, `and`, `or`, `)` or the end.")
            }
            FilterErrorKind::ExpectedVlan => f.write_str("expected `vlan`."),
            FilterErrorKind::ExpectedEtherWord => f.write_str(
                "expected `proto`, `src`, `dst`, `host`, `broadcast` or `multicast`.",
            ),
            FilterErrorKind::ExpectedAddress => {
                f.write_str("expected an address, as 02:00:5e:10:00:01.")
            }
            FilterErrorKind::ExpectedNumber(most) => {
                write!(f, "expected a number up to {most}.")
            }
            FilterErrorKind::ExpectedRelation => {
                f.write_str("expected `==`, `!=`, `<`, `<=`, `>`, `>=` or `in`.")
            }
            FilterErrorKind::ExpectedRelationOrOperator => f.write_str(
                "expected `==`, `!=`, `<`, `<=`, `>`, `>=`, `in`, `&`, `and`, `or`, `)` or the end.",
            ),
            FilterErrorKind::ExpectedBytes(len) => { write!(f, "expected a value of {len} bytes.") }
            FilterErrorKind::ExpectedAnyBytes => {
                f.write_str("expected bytes, as 02:00:5e:10:00:01 or 10.0.0.1.")
            }
            FilterErrorKind::ExpectedTime => {
                f.write_str("expected a time, as 2026-11-01T00:00:00Z.")
            }
            FilterErrorKind::ExpectedHeader => {
                f.write_str("expected `eth`, `sll`, `vlan`, `macsec` or `arp`.")
            }
            FilterErrorKind::ExpectedSet => f.write_str("expected `{`."),
            FilterErrorKind::ExpectedSetEnd => f.write_str("expected `,` or `}`."),
            FilterErrorKind::MixedOperators => {
                f.write_str("`and` and `or` can be mixed only with parentheses.")
            }
            FilterErrorKind::Unopened => f.write_str("there is no `(` for this `)`."),
            FilterErrorKind::Unclosed => f.write_str("a `(` is not closed."),
            FilterErrorKind::TooLong => f.write_str("an expression has at most 192 words."),
        }
    }
}

impl fmt::Display for FilterError {
    fn fmt(&self, f: &mut fmt::Formatter<'_>) -> fmt::Result {
        write!(f, "At byte {}: {}", self.offset, self.kind)
    }
}

impl Error for FilterError {}
