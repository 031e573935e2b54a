//! Why a text is not a filter's expression, as a struct of C.

use etherpeel::ether_filter::{FilterError, FilterErrorKind};

/// Why a text is not a filter's expression, and where: `etherpeel_filter_error` in C.
///
/// Each bit pattern is a value, so that C may pass memory that it has not written to.
#[repr(C)]
#[derive(Clone, Copy)]
pub struct EtherFilterError {
    /// The offset in bytes of the first word that does not fit. It is the length of the text if words are missing at
    /// the end.
    pub offset: usize,
    /// Expected is 1 a primitive, 2 an operator, 3 `vlan`, 4 a word after `ether`, 5 an address, 6 a number, 11 an
    /// identifier after `vlan` or an operator, 12 a relation, 13 a relation after a field or an operator, 14 bytes of
    /// a given number, 15 bytes, 16 `{`, 17 `,` or `}`, 18 a time, 19 the name of a header. 7 mixed operators, 8 a `)`
    /// without a `(`, 9 a `(` without a `)`, 10 too many words.
    pub kind: u32,
    /// The greatest number that is expected, in the kinds 6 and 11; the number of bytes, in the kind 14; else 0.
    pub greatest: u32,
}

// as c/etherpeel.h lays it out
const _: () = assert!(size_of::<EtherFilterError>() == 16);

impl EtherFilterError {
    /// The error as a struct of C.
    pub(crate) fn of(error: &FilterError) -> EtherFilterError {
        EtherFilterError {
            offset: error.offset,
            kind: kind_number(error.kind),
            greatest: greatest_expected(error.kind),
        }
    }
}

/// The number of a kind of error.
fn kind_number(kind: FilterErrorKind) -> u32 {
    match kind {
        FilterErrorKind::ExpectedOperand => 1,
        FilterErrorKind::ExpectedOperator => 2,
        FilterErrorKind::ExpectedVlan => 3,
        FilterErrorKind::ExpectedEtherWord => 4,
        FilterErrorKind::ExpectedAddress => 5,
        FilterErrorKind::ExpectedNumber(_) => 6,
        FilterErrorKind::MixedOperators => 7,
        FilterErrorKind::Unopened => 8,
        FilterErrorKind::Unclosed => 9,
        FilterErrorKind::TooLong => 10,
        FilterErrorKind::ExpectedVlanIdOrOperator => 11,
        FilterErrorKind::ExpectedRelation => 12,
        FilterErrorKind::ExpectedRelationOrOperator => 13,
        FilterErrorKind::ExpectedBytes(_) => 14,
        FilterErrorKind::ExpectedAnyBytes => 15,
        FilterErrorKind::ExpectedSet => 16,
        FilterErrorKind::ExpectedSetEnd => 17,
        FilterErrorKind::ExpectedTime => 18,
        FilterErrorKind::ExpectedHeader => 19,
    }
}

/// The greatest number that is expected, or the number of bytes; 0 if neither is.
fn greatest_expected(kind: FilterErrorKind) -> u32 {
    match kind {
        FilterErrorKind::ExpectedNumber(most) => most,
        FilterErrorKind::ExpectedVlanIdOrOperator => 4095,
        FilterErrorKind::ExpectedBytes(len) => u32::from(len),
        _ => 0,
    }
}
