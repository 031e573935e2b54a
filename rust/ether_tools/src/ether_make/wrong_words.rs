//! What is wrong with words that `clap` refuses.

use crate::ether_make::option_table::all_options;
use crate::ether_make::request::Usage;
use etherpeel::ether_format::split_at;

/// What is wrong with words that `clap` refuses: an option is not known, or else one lacks its value, or else
/// [`Usage::Words`]. The first of the words is the program's name.
///
/// <details><summary>Contract</summary>
///
/// ```text
/// ensures { IsUsageOf (map string_bytes words.now) result }
/// ```
///
/// </details>
pub fn usage_of(words: &[String]) -> Usage<'_> {
    let [_, words @ ..] = words else {
        return Usage::Words;
    };
    if let Some(word) = unknown_option(words) {
        return Usage::Unknown(word);
    }
    match bare_option(words) {
        Some(word) => Usage::NoValue(word),
        None => Usage::Words,
    }
}

/// The first option that is not known, before a word `--`.
fn unknown_option(words: &[String]) -> Option<&str> {
    let mut rest = words;
    while let [word, others @ ..] = rest {
        let text = word.as_str();
        if text == "--" {
            return None;
        }
        if need_of(text.as_bytes()).is_none() {
            return Some(text);
        }
        rest = others;
    }
    None
}

/// The first option that lacks its value, before a word `--`.
fn bare_option(words: &[String]) -> Option<&str> {
    let mut rest = words;
    while let [word, others @ ..] = rest {
        let text = word.as_str();
        if text == "--" {
            return None;
        }
        if need_of(text.as_bytes()) == Some(true) && !begins_with_value(others) {
            return Some(text);
        }
        rest = others;
    }
    None
}

/// Tests that the first word can be a value: it is not an option.
fn begins_with_value(words: &[String]) -> bool {
    match words {
        [] => false,
        [word, ..] => is_value(word.as_bytes()),
    }
}

/// Tests that a word can be a value: it is `-`, or does not begin with that.
fn is_value(word: &[u8]) -> bool {
    !matches!(word, [b'-', _, ..])
}

/// Whether a word is an option whose value has to be the next word. Returns `None` for an option that is not known.
fn need_of(word: &[u8]) -> Option<bool> {
    match word {
        [b'-', b'-', text @ ..] if !text.is_empty() => long_need(text),
        [b'-', b'-'] => Some(false),
        [b'-', letter, attached @ ..] => letter_need(*letter, attached.is_empty()),
        _ => Some(false),
    }
}

/// The same for an option with a long name, which may have `=` and a value after it.
fn long_need(text: &[u8]) -> Option<bool> {
    match split_at(b'=', text) {
        Some((name, _)) => name_need(name, false),
        None => name_need(text, true),
    }
}

/// The same for an option with this name, which is all of the word or not.
fn name_need(name: &[u8], is_all: bool) -> Option<bool> {
    let mut rows = all_options();
    while let [row, others @ ..] = rows {
        if row.spelling.is_word() && row.name.as_bytes() == name {
            return Some(row.value.is_some() && is_all);
        }
        rows = others;
    }
    None
}

/// The same for an option with this letter, which is all of the word or not.
fn letter_need(letter: u8, is_all: bool) -> Option<bool> {
    let mut rows = all_options();
    while let [row, others @ ..] = rows {
        if row.spelling.has_letter(letter) {
            return Some(row.value.is_some() && is_all);
        }
        rows = others;
    }
    None
}
