//! A command: a mode with its limit, if it has one, and the words that name it.

use crate::ether_text::tool::mode::{Mode, Usage, named_mode};
use std::env;

/// The mode of a run, and its limit.
#[derive(Clone, Copy)]
pub struct Command {
    /// How the frames begin, and how they are read.
    pub mode: Mode,
    /// The greatest number of VLAN tags and SecTags that are read of a frame; `None` for all.
    pub limit: Option<usize>,
}

/// Returns the mode that the words name, and its limit on the VLAN tags and SecTags of a frame, if they name one.
///
/// No word, or `eth`, names [`Mode::Eth`]; `fcs` names [`Mode::Fcs`], `sll` [`Mode::Sll`] and `feed` [`Mode::Feed`].
/// `type` and a second word of exactly four hexadecimal digits name [`Mode::EtherType`]. If there is at least one of
/// these words, `limit` and a word of one to four decimal digits may follow and name a limit. All other words are
/// [`Usage`].
///
/// The words are the arguments without the program's own name. Their case matters, but that of the digits does not.
///
/// <details><summary>Contract</summary>
///
/// ```text
/// ensures ok { IfOk result (NamesCommand (map (λ word. word.now) words.now)) }
/// ensures err { OnErr result (NamesNoCommand (map (λ word. word.now) words.now)) }
/// ```
///
/// </details>
pub fn command_of(words: &[&str]) -> Result<(Mode, Option<usize>), Usage> {
    match words {
        ["limit", _] => Err(Usage),
        [mode @ .., "limit", digits] => Ok((named_mode(mode)?, Some(limit_of(digits)?))),
        _ => Ok((named_mode(words)?, None)),
    }
}

/// The number that one to four decimal digits name. All other words are [`Usage`].
fn limit_of(digits: &str) -> Result<usize, Usage> {
    if digits.len() > 4 || digits.starts_with('+') {
        return Err(Usage);
    }
    match digits.parse() {
        Ok(limit) => Ok(limit),
        Err(_) => Err(Usage),
    }
}

/// Like [`command_of`], but for the program's arguments, which begin with its own name.
///
/// <details><summary>Contract</summary>
///
/// ```text
/// ensures ok { IfOk result (NamesCommand (words_after (into_iter_items args))) }
/// ensures err { OnErr result (NamesNoCommand (words_after (into_iter_items args))) }
/// ```
///
/// </details>
pub fn command_of_args(mut args: env::Args) -> Result<(Mode, Option<usize>), Usage> {
    let _program = args.next();
    let Some(first) = args.next() else {
        return command_of(&[]);
    };
    let Some(second) = args.next() else {
        return command_of(&[first.as_str()]);
    };
    let Some(third) = args.next() else {
        return command_of(&[first.as_str(), second.as_str()]);
    };
    let Some(fourth) = args.next() else {
        return command_of(&[first.as_str(), second.as_str(), third.as_str()]);
    };
    if args.next().is_some() {
        return Err(Usage);
    }
    command_of(&[
        first.as_str(),
        second.as_str(),
        third.as_str(),
        fourth.as_str(),
    ])
}
