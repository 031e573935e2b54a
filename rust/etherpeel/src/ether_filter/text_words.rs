//! The words of a text.

/// The class of a character.
#[derive(Clone, Copy)]
pub(in crate::ether_filter) enum Class {
    /// It separates words.
    Blank,
    /// It is a word of its own.
    Sign,
    /// `!`, which `=` can follow.
    Negation,
    /// `<` or `>`, which `=` can follow.
    Order,
    /// `=`
    Equals,
    /// It is part of a word of `&` or `|`.
    Connective,
    /// It is part of a word of other characters.
    Letter,
}

/// The offsets in a text at which a word begins and ends.
#[derive(Clone, Copy)]
pub(in crate::ether_filter) struct Word {
    pub start: usize,
    pub end: usize,
}

/// The first word of a text from the offset `from` on.
#[inline]
pub(in crate::ether_filter) fn next_word(text: &[u8], from: usize) -> Option<Word> {
    let start = word_start(text, from);
    if start == text.len() {
        return None;
    }
    let end = word_end(text, start);
    Some(Word { start, end })
}

/// The offset at which the blanks from `from` on end.
#[inline]
fn word_start(text: &[u8], from: usize) -> usize {
    let mut start = from;
    while start < text.len() {
        if !matches!(class_of(text[start]), Class::Blank) {
            return start;
        }
        start += 1;
    }
    start
}

/// The offset at which the word ends that begins at `start`.
#[inline]
fn word_end(text: &[u8], start: usize) -> usize {
    let mut end = start + 1;
    while end < text.len() && are_joined(class_of(text[end - 1]), class_of(text[end])) {
        end += 1;
    }
    end
}

/// The class of a character.
#[inline]
fn class_of(byte: u8) -> Class {
    match byte {
        b' ' | b'\t' | b'\n' | b'\r' => Class::Blank,
        b'(' | b')' | b'{' | b'}' | b',' => Class::Sign,
        b'!' => Class::Negation,
        b'<' | b'>' => Class::Order,
        b'=' => Class::Equals,
        b'&' | b'|' => Class::Connective,
        _ => Class::Letter,
    }
}

/// Whether two neighboring characters are in one word.
#[inline]
fn are_joined(first: Class, second: Class) -> bool {
    matches!(
        (first, second),
        (Class::Letter, Class::Letter)
            | (Class::Connective, Class::Connective)
            | (
                Class::Negation | Class::Order | Class::Equals,
                Class::Equals
            )
    )
}
