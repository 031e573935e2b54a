//! Texts that are not expressions: the offset and the kind of each error.
use crate::checks::equal;
use etherpeel::ether_filter::{Filter, FilterError, FilterErrorKind};

/// Why a text is refused, and where.
fn refusal(text: &[u8]) -> Option<(usize, FilterErrorKind)> {
    match Filter::parse(text) {
        Ok(_) => None,
        Err(FilterError { offset, kind }) => Some((offset, kind)),
    }
}

/// A text, and where and why it is refused.
#[rustfmt::skip]
static TEXTS: [(&str, usize, FilterErrorKind); 29] = [
    ("", 0, FilterErrorKind::ExpectedOperand),
    ("  ", 2, FilterErrorKind::ExpectedOperand),
    ("arp and", 7, FilterErrorKind::ExpectedOperand),
    ("and arp", 0, FilterErrorKind::ExpectedOperand),
    ("arp foo", 4, FilterErrorKind::ExpectedOperator),
    ("foo", 0, FilterErrorKind::ExpectedOperand),
    ("vlan 4096", 5, FilterErrorKind::ExpectedNumber(4095)),
    ("vlan 010", 5, FilterErrorKind::ExpectedVlanIdOrOperator),
    ("vlan abc", 5, FilterErrorKind::ExpectedVlanIdOrOperator),
    ("arp or vlan not 5", 12, FilterErrorKind::ExpectedVlanIdOrOperator),
    ("vlan 5 6", 7, FilterErrorKind::ExpectedOperator),
    ("outer arp", 6, FilterErrorKind::ExpectedVlan),
    ("inner vlan", 10, FilterErrorKind::ExpectedNumber(4095)),
    ("ether", 5, FilterErrorKind::ExpectedEtherWord),
    ("ether proto 65536", 12, FilterErrorKind::ExpectedNumber(65535)),
    ("ether src 02:00:5e:10:00", 10, FilterErrorKind::ExpectedAddress),
    ("ether src 02005e1000010", 10, FilterErrorKind::ExpectedAddress),
    ("ether dst arp", 10, FilterErrorKind::ExpectedAddress),
    ("less arp", 5, FilterErrorKind::ExpectedNumber(4294967295)),
    ("less 4294967296", 5, FilterErrorKind::ExpectedNumber(4294967295)),
    ("arp and ip or vlan", 11, FilterErrorKind::MixedOperators),
    ("arp or (ip and vlan or cut)", 20, FilterErrorKind::MixedOperators),
    ("arp)", 3, FilterErrorKind::Unopened),
    ("(arp", 4, FilterErrorKind::Unclosed),
    ("(vlan", 5, FilterErrorKind::Unclosed),
    ("()", 1, FilterErrorKind::ExpectedOperand),
    ("arp &&& ip", 4, FilterErrorKind::ExpectedOperator),
    ("not", 3, FilterErrorKind::ExpectedOperand),
    ("(arp) ip", 6, FilterErrorKind::ExpectedOperator),
];

#[test]
fn a_text_is_refused_at_the_first_word_that_does_not_fit() {
    let rt = crate::kit::HostRuntime;
    for &(text, offset, kind) in &TEXTS {
        equal!(rt, text; refusal(text.as_bytes()) => Some((offset, kind)));
    }
}

#[test]
fn the_193rd_word_is_too_many() {
    let rt = crate::kit::HostRuntime;
    let text = [b'('; 193];
    equal!(rt, "192 words, and one more";
        refusal(&text[..192]) => Some((192, FilterErrorKind::ExpectedOperand)),
        refusal(&text) => Some((192, FilterErrorKind::TooLong)),
    );
}
