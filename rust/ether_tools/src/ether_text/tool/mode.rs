//! The modes of the tool, and the words that name them.

use etherpeel::EtherType;

/// How the frames of a run begin, and how they are read.
#[derive(Clone, Copy, PartialEq, Eq, Debug)]
pub enum Mode {
    /// With an Ethernet II header.
    Eth,
    /// With an Ethernet II header; in the last 4 bytes there is a frame check sequence.
    Fcs,
    /// With a header of Linux cooked capture v1.
    Sll,
    /// With what an ether type announces.
    EtherType(EtherType),
    /// With an Ethernet II header. The walk is fed the frame, and takes only the bytes that it asks for.
    Feed,
}

/// The arguments are wrong.
#[derive(Clone, Copy, PartialEq, Eq, Debug)]
pub struct Usage;

/// The mode that the words name, which are all words of a command but those of its limit.
pub(in crate::ether_text) fn named_mode(words: &[&str]) -> Result<Mode, Usage> {
    match words {
        [] => Ok(Mode::Eth),
        ["eth"] => Ok(Mode::Eth),
        ["fcs"] => Ok(Mode::Fcs),
        ["sll"] => Ok(Mode::Sll),
        ["feed"] => Ok(Mode::Feed),
        ["type", digits] => match number_of(digits) {
            Some(number) => Ok(Mode::EtherType(EtherType(number))),
            None => Err(Usage),
        },
        _ => Err(Usage),
    }
}

/// The number that exactly four hexadecimal digits of either case name. `None` for any other word.
fn number_of(digits: &str) -> Option<u16> {
    if digits.len() != 4 {
        return None;
    }
    let mut bytes = [0; 2];
    match hex::decode_to_slice(digits.as_bytes(), &mut bytes) {
        Ok(()) => Some(u16::from_be_bytes(bytes)),
        Err(_) => None,
    }
}
