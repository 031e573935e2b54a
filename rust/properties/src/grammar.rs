//! Reads expressions: the words of pcap-filter(7) that the crate lists, and its own `outer`, `inner`, `macsec`, `cut`
//! and `refused`.
//!
//! ```text
//! expression = operand { "and" operand } | operand { "or" operand }
//! operand    = "not" operand | "(" expression ")" | primitive
//! ```

use crate::fields::{self, Subject, Takes};
use crate::filter::Expression;
use etherpeel::ether_filter::{Filter, FilterError, FilterErrorKind, Operator, Primitive, Relation};

/// A word and where it begins.
struct Word<'a> {
    at: usize,
    bytes: &'a [u8],
}

/// What a word means.
#[derive(Clone, Copy, PartialEq, Eq)]
enum Token<'a> {
    Open,
    Close,
    Not,
    Join(Operator),
    /// A number; `None` if it does not fit in 64 bits.
    Number(Option<u64>),
    Address(u64),
    Other(&'a [u8]),
}

/// Blanks separate words; parentheses, braces and commas are words of their own; `&` and `|` are not in a word with other
/// characters; `=` can follow `!`, `<`, `>` and itself.
fn words(text: &[u8]) -> Vec<Word<'_>> {
    let class = |byte: u8| match byte {
        b' ' | b'\t' | b'\n' | b'\r' => 0,
        b'(' | b')' | b'{' | b'}' | b',' => 1,
        b'!' => 2,
        b'<' | b'>' => 3,
        b'=' => 4,
        b'&' | b'|' => 5,
        _ => 6,
    };
    let are_joined = |first, second| matches!((first, second), (2..=4, 4) | (5, 5) | (6, 6));
    let mut words: Vec<Word<'_>> = Vec::new();
    for (at, &byte) in text.iter().enumerate() {
        let goes_on = at > 0 && are_joined(class(text[at - 1]), class(byte));
        match words.last_mut().filter(|_| goes_on) {
            Some(word) => word.bytes = &text[word.at..=at],
            None if class(byte) > 0 => words.push(Word { at, bytes: &text[at..=at] }),
            None => {}
        }
    }
    words
}

/// The number that digits write, at most 2^64.
fn digits(text: &[u8], radix: u32) -> Option<u128> {
    let values: Option<Vec<u32>> = text.iter().map(|&digit| char::from(digit).to_digit(radix)).collect();
    let values = values.filter(|values| !values.is_empty())?;
    let append = |number: u128, &value: &u32| (number * u128::from(radix) + u128::from(value)).min(1 << 64);
    Some(values.iter().fold(0, append))
}

/// The number in a word, at most 2^64: hexadecimal after `0x`, or decimal without a leading zero, which would make it
/// octal.
fn wide_number_in(word: &[u8]) -> Option<u128> {
    match word {
        [b'0', b'x', hexadecimal @ ..] => digits(hexadecimal, 16),
        [b'0', _, ..] => None,
        decimal => digits(decimal, 10),
    }
}

/// The number in a word, if it fits in 32 bits.
pub fn number_in(word: &[u8]) -> Option<Option<u32>> {
    wide_number_in(word).map(|number| u32::try_from(number).ok())
}

/// A number up to 255.
fn byte_in(word: &[u8]) -> Option<u8> {
    number_in(word)??.try_into().ok()
}

/// The bytes in a word: two to eight pairs of hexadecimal digits with colons, or four numbers with dots.
fn bytes_in(word: &[u8]) -> Option<(u8, u64)> {
    let pairs: Vec<&[u8]> = word.split(|&byte| byte == b':').collect();
    if (2..=8).contains(&pairs.len()) && pairs.iter().all(|pair| pair.len() == 2) {
        return digits(&pairs.concat(), 16).map(|number| (pairs.len() as u8, number as u64));
    }
    let parts: Option<Vec<u8>> = word.split(|&byte| byte == b'.').map(byte_in).collect();
    parts.filter(|parts| parts.len() == 4).map(|parts| (4, fields::number_of(&parts)))
}

/// The slice in brackets: its first offset and its length.
fn slice_in(text: &[u8]) -> Option<(u8, u8)> {
    let inner = text.strip_prefix(b"[")?.strip_suffix(b"]")?;
    let colon = inner.iter().position(|&byte| byte == b':')?;
    Some((byte_in(&inner[..colon])?, byte_in(&inner[colon + 1..])?))
}

/// The field, or the slice of a field, that a word names.
fn subject_in(word: &[u8]) -> Option<Subject> {
    let name = word.split(|&byte| byte == b'[').next()?;
    let column = fields::COLUMNS.iter().find(|column| column.name.as_bytes() == name)?;
    let whole = Subject { column: column.number, first: 0, count: 0, takes: column.takes };
    if name.len() == word.len() {
        return Some(whole);
    }
    let (first, count) = slice_in(&word[name.len()..])?;
    let fits = match column.takes {
        Takes::Number(_) => false,
        Takes::Bytes(len) => u16::from(first) + u16::from(count) <= u16::from(len),
        Takes::AnyBytes => true,
    };
    let takes = Takes::Bytes(count);
    ((1..=8).contains(&count) && fits).then_some(Subject { first, count, takes, ..whole })
}

fn relation_in(word: &[u8]) -> Option<Relation> {
    Some(match word {
        b"==" => Relation::Equal,
        b"!=" => Relation::NotEqual,
        b"<" => Relation::Less,
        b"<=" => Relation::AtMost,
        b">" => Relation::Greater,
        b">=" => Relation::AtLeast,
        _ => return None,
    })
}

/// The address in a word: six pairs of hexadecimal digits, with colons between them or without.
fn address_in(word: &[u8]) -> Option<u64> {
    let pairs: Vec<&[u8]> = match word.len() {
        12 => word.chunks(2).collect(),
        17 => word.split(|&byte| byte == b':').collect(),
        _ => return None,
    };
    if pairs.len() != 6 || pairs.iter().any(|pair| pair.len() != 2) {
        return None;
    }
    digits(&pairs.concat(), 16).map(|number| number as u64)
}

fn token(word: &[u8]) -> Token<'_> {
    match word {
        b"(" => Token::Open,
        b")" => Token::Close,
        b"not" | b"!" => Token::Not,
        b"and" | b"&&" => Token::Join(Operator::And),
        b"or" | b"||" => Token::Join(Operator::Or),
        _ => match (address_in(word), wide_number_in(word)) {
            (Some(address), _) => Token::Address(address),
            (None, Some(number)) => Token::Number(u64::try_from(number).ok()),
            (None, None) => Token::Other(word),
        },
    }
}

/// Whether bytes of this length are a value.
fn takes_bytes(takes: Takes, len: u8) -> bool {
    match takes {
        Takes::Number(_) => false,
        Takes::Bytes(wanted) => wanted == len,
        Takes::AnyBytes => true,
    }
}

/// A text that is read from left to right.
struct Reader<'a> {
    words: Vec<Word<'a>>,
    /// How many words were read.
    read: usize,
    /// The length of the text.
    end: usize,
}

/// Reads a text as an expression. The error names the first word that does not fit, or the end.
pub fn parse(text: &[u8]) -> Result<Expression, FilterError> {
    let mut reader = Reader { words: words(text), read: 0, end: text.len() };
    reader.expression(0)
}

impl<'a> Reader<'a> {
    /// The error for the next word, or for the end.
    fn error(&self, kind: FilterErrorKind) -> FilterError {
        FilterError { offset: self.words.get(self.read).map_or(self.end, |word| word.at), kind }
    }

    /// The next word, which is not read yet.
    fn next(&self) -> Result<Option<Token<'a>>, FilterError> {
        match self.words.get(self.read) {
            Some(_) if self.read == Filter::MAX_WORDS => Err(self.error(FilterErrorKind::TooLong)),
            word => Ok(word.map(|word| token(word.bytes))),
        }
    }

    /// Reads a word if it is the next one.
    fn take(&mut self, wanted: Token<'_>, otherwise: FilterErrorKind) -> Result<(), FilterError> {
        match self.next()? {
            Some(token) if token == wanted => self.read += 1,
            _ => return Err(self.error(otherwise)),
        }
        Ok(())
    }

    /// Reads an expression inside of `depth` parentheses, up to the parenthesis that closes it, or to the end.
    fn expression(&mut self, depth: usize) -> Result<Expression, FilterError> {
        let mut left = self.operand(depth)?;
        let mut chain = None;
        loop {
            match self.next()? {
                None if depth > 0 => return Err(self.error(FilterErrorKind::Unclosed)),
                Some(Token::Close) if depth == 0 => return Err(self.error(FilterErrorKind::Unopened)),
                None | Some(Token::Close) => return Ok(left),
                Some(Token::Join(operator)) if chain.is_none_or(|other| other == operator) => {
                    self.read += 1;
                    chain = Some(operator);
                    left = Expression::Join(operator, Box::new(left), Box::new(self.operand(depth)?));
                }
                Some(Token::Join(_)) => return Err(self.error(FilterErrorKind::MixedOperators)),
                Some(Token::Number(_)) if !self.is_after_field() => {
                    return Err(self.error(FilterErrorKind::ExpectedOperator));
                }
                Some(_) => return Err(self.error(self.after_operand())),
            }
        }
    }

    fn is_after_field(&self) -> bool {
        subject_in(self.words[self.read - 1].bytes).is_some()
    }

    /// What is expected after an operand: a `vlan` alone may have a number, too, and a field alone a relation.
    fn after_operand(&self) -> FilterErrorKind {
        if self.is_after_field() {
            return FilterErrorKind::ExpectedRelationOrOperator;
        }
        match self.words[self.read - 1].bytes {
            b"vlan" => FilterErrorKind::ExpectedVlanIdOrOperator,
            _ => FilterErrorKind::ExpectedOperator,
        }
    }

    fn operand(&mut self, depth: usize) -> Result<Expression, FilterError> {
        let Some(token) = self.next()? else { return Err(self.error(FilterErrorKind::ExpectedOperand)) };
        match token {
            Token::Not => {
                self.read += 1;
                Ok(Expression::Not(Box::new(self.operand(depth)?)))
            }
            Token::Open => {
                self.read += 1;
                let inner = self.expression(depth + 1)?;
                self.take(Token::Close, FilterErrorKind::Unclosed)?;
                Ok(inner)
            }
            Token::Other(word) => match subject_in(word) {
                Some(subject) => self.field(subject),
                None => Ok(Expression::Test(self.primitive(word)?)),
            },
            _ => Err(self.error(FilterErrorKind::ExpectedOperand)),
        }
    }

    /// Reads a test of a field.
    fn field(&mut self, subject: Subject) -> Result<Expression, FilterError> {
        self.read += 1;
        let test = |mask, relation, value| Expression::Test(fields::primitive(subject.test(mask, relation, value)));
        let mut mask = u64::MAX;
        let mut is_masked = false;
        if self.next()? == Some(Token::Other(b"&")) {
            self.read += 1;
            (_, mask) = self.value(subject.takes)?;
            is_masked = true;
        }
        match self.next()? {
            Some(Token::Other(b"in")) => {
                self.read += 1;
                self.take(Token::Other(b"{"), FilterErrorKind::ExpectedSet)?;
                let mut values = test(mask, Relation::Equal, self.value(subject.takes)?);
                while self.next()? == Some(Token::Other(b",")) {
                    self.read += 1;
                    let further = test(mask, Relation::Equal, self.value(subject.takes)?);
                    values = Expression::Join(Operator::Or, Box::new(values), Box::new(further));
                }
                self.take(Token::Other(b"}"), FilterErrorKind::ExpectedSetEnd)?;
                Ok(values)
            }
            Some(Token::Other(word)) if relation_in(word).is_some() => {
                self.read += 1;
                let relation = relation_in(word).unwrap_or(Relation::Exists);
                Ok(test(mask, relation, self.value(subject.takes)?))
            }
            _ if is_masked => Err(self.error(FilterErrorKind::ExpectedRelation)),
            _ => Ok(test(mask, Relation::Exists, (0, 0))),
        }
    }

    /// Reads a value of a field: the number of its bytes, or 0 for a number, and its number.
    fn value(&mut self, takes: Takes) -> Result<(u8, u64), FilterError> {
        let bytes = match self.next()? {
            Some(Token::Number(Some(number))) => match takes {
                Takes::Number(most) => (number <= most.into()).then_some((0, number)),
                Takes::Bytes(len) => (u128::from(number) < 1 << (8 * len)).then_some((len, number)),
                Takes::AnyBytes => None,
            },
            Some(Token::Address(address)) => Some((6, address)).filter(|_| takes_bytes(takes, 6)),
            Some(Token::Other(word)) => bytes_in(word).filter(|&(len, _)| takes_bytes(takes, len)),
            _ => None,
        };
        self.read += usize::from(bytes.is_some());
        bytes.ok_or_else(|| self.error(takes.error()))
    }

    /// Reads a primitive that begins with this word.
    fn primitive(&mut self, word: &[u8]) -> Result<Primitive, FilterError> {
        let refused = self.error(FilterErrorKind::ExpectedOperand);
        self.read += 1;
        match word {
            b"vlan" => match self.next()? {
                Some(Token::Number(_)) => Ok(Primitive::VlanId(self.number(4095)? as u16)),
                _ => Ok(Primitive::Vlan),
            },
            b"outer" | b"inner" => {
                self.take(Token::Other(b"vlan"), FilterErrorKind::ExpectedVlan)?;
                let id = self.number(4095)? as u16;
                Ok(if word == b"outer" { Primitive::OuterVlan(id) } else { Primitive::InnerVlan(id) })
            }
            b"ether" => self.ether(),
            b"macsec" => Ok(Primitive::Macsec),
            b"arp" => Ok(Primitive::EtherType(0x0806)),
            b"ip" => Ok(Primitive::EtherType(0x0800)),
            b"ip6" => Ok(Primitive::EtherType(0x86DD)),
            b"refused" | b"fault" => Ok(Primitive::Refused),
            b"cut" => Ok(Primitive::Cut),
            b"less" => Ok(Primitive::Less(self.number(u32::MAX)?)),
            b"greater" => Ok(Primitive::Greater(self.number(u32::MAX)?)),
            _ => Err(refused),
        }
    }

    /// Reads what follows `ether`.
    fn ether(&mut self) -> Result<Primitive, FilterError> {
        let Some(Token::Other(word)) = self.next()? else {
            return Err(self.error(FilterErrorKind::ExpectedEtherWord));
        };
        let refused = self.error(FilterErrorKind::ExpectedEtherWord);
        self.read += 1;
        match word {
            b"proto" => Ok(Primitive::EtherType(self.number(65535)? as u16)),
            b"src" => Ok(Primitive::Source(self.address()?)),
            b"dst" => Ok(Primitive::Destination(self.address()?)),
            b"host" => Ok(Primitive::Host(self.address()?)),
            b"broadcast" => Ok(Primitive::Broadcast),
            b"multicast" => Ok(Primitive::Multicast),
            _ => Err(refused),
        }
    }

    fn number(&mut self, most: u32) -> Result<u32, FilterError> {
        match self.next()? {
            Some(Token::Number(Some(number))) if number <= most.into() => {
                self.read += 1;
                Ok(number as u32)
            }
            _ => Err(self.error(FilterErrorKind::ExpectedNumber(most))),
        }
    }

    fn address(&mut self) -> Result<u64, FilterError> {
        match self.next()? {
            Some(Token::Address(address)) => {
                self.read += 1;
                Ok(address)
            }
            _ => Err(self.error(FilterErrorKind::ExpectedAddress)),
        }
    }
}
