//! Why an object means no frame.

/// Why a member is refused.
#[derive(Clone, Copy, PartialEq, Eq, Debug)]
pub enum Reason {
    /// No member of the object has this name.
    Unknown,
    /// The object needs it.
    Missing,
    /// Its value is no object.
    NotAnObject,
    /// Its value is no array.
    NotAnArray,
    /// Its value is no number from 0 on.
    NotANumber,
    /// Its value is no text.
    NotAText,
    /// The text is no address, and no bytes.
    NotBytes,
    /// The text names no header.
    NotAHeader,
    /// No frame begins with this header.
    NotALink,
    /// The number has more bits than the field.
    TooBig,
    /// The field has another number of bytes.
    OtherLength,
    /// The header does not have the field.
    Absent,
    /// The text is no time.
    NotATime,
    /// A capture can't have the time.
    OtherTime,
    /// The first header has another link type.
    OtherHeader,
    /// The frames before have another link type.
    OtherFrames,
    /// The object is no range of the field's numbers.
    NotARange,
    /// The ranges have more combinations than 64 bits count.
    TooMany,
}

/// What is refused, and why.
#[derive(Clone, Copy, Debug)]
pub struct Refusal<'v> {
    /// The header's index, if a header is refused.
    pub header: Option<usize>,
    /// The name of the member.
    pub member: &'v str,
    /// Why it is refused.
    pub reason: Reason,
}

/// Why no frame is made.
#[derive(Clone, Copy, Debug)]
pub enum Fault<'v> {
    /// The object means none.
    Refused(Refusal<'v>),
    /// There is no memory.
    Memory,
}

impl Reason {
    /// What is wrong, as the end of a sentence that begins with the member's name.
    ///
    /// <details><summary>Contract</summary>
    ///
    /// ```text
    /// ensures { result.now ≡ reason_text self }
    /// ```
    ///
    /// </details>
    pub fn text(self) -> &'static str {
        match self {
            Reason::Unknown => "is no member of this object",
            Reason::Missing => "is missing",
            Reason::NotAnObject => "is no object",
            Reason::NotAnArray => "is no array",
            Reason::NotANumber => "is no number from 0 on",
            Reason::NotAText => "is no text",
            Reason::NotBytes => "spells no bytes",
            Reason::NotAHeader => "names no header that is made",
            Reason::NotALink => "names a header that begins no frame",
            Reason::TooBig => "has more bits than the field",
            Reason::OtherLength => "has another number of bytes than the field",
            Reason::Absent => "is a field that this header does not have",
            Reason::NotATime => "is no date and time of day in UTC",
            Reason::OtherTime => "is a time before 1970 or after 7 February 2106",
            Reason::OtherHeader => "is not the link type of the first header",
            Reason::OtherFrames => "is not the link type of the frames before",
            Reason::NotARange => "is no range of numbers that the field has",
            Reason::TooMany => "has too many combinations of ranges without --count",
        }
    }
}
