//! Words of a request.

use crate::ether_stream::selection::Undecided;
use crate::ether_stream::usage::{Usage, ValueOption};
use crate::ether_stream::vlan_options::{TagEdit, small_number, tag_edit_of};
use etherpeel::ether_content::PacketEdit;
use etherpeel::ether_filter::{Filter, FilterError};
use etherpeel::ether_format::Columns;
use std::num::NonZeroUsize;

/// The values of `--undecided`.
const KEEP: &str = "keep";

const DROP: &str = "drop";

/// The values of `--format`.
const LINES: &str = "lines";

const BRIEF: &str = "brief";

const JSON: &str = "json";

const CSV: &str = "csv";

/// The values of `--status-on-fault`.
const YES: &str = "yes";

const NO: &str = "no";

/// The text of packets that `--format` names.
#[derive(Clone, Copy, PartialEq, Eq, Debug)]
pub enum FormatName {
    /// Objects of JSON.
    Json,
    /// Lines for the eye.
    Brief,
    /// Columns as CSV.
    Csv,
}

/// The edit that options ask for, if any: to cut packets to their headers, to pop a VLAN tag, to push one, or to set
/// an identifier.
///
/// Returns [`Usage::Edits`] if several are asked for, and [`Usage::Value`] if the value of `push` or `set` means
/// nothing.
///
/// <details><summary>Contract</summary>
///
/// ```text
/// ensures ok { IfOk result (λ it. IsOneEdit cuts pops (option_map (λ s. s.now) push.entry)
///     (option_map (λ s. s.now) set.entry) (option_map edit_view it)) }
/// ensures err { OnErr result ((e : Option EditValue)
///     → ¬ (IsOneEdit cuts pops (option_map (λ s. s.now) push.entry) (option_map (λ s. s.now) set.entry) e)) }
/// ensures usage { IfErr result
///     (IsWrongEdit cuts pops (option_map (λ s. s.now) push.entry) (option_map (λ s. s.now) set.entry)) }
/// ```
///
/// </details>
pub fn edit_of_words<'a>(
    cuts: bool,
    pops: bool,
    push: Option<&'a str>,
    set: Option<&'a str>,
) -> Result<Option<PacketEdit>, Usage<'a>> {
    match (cuts, pops, push, set) {
        (false, false, None, None) => Ok(None),
        (true, false, None, None) => Ok(Some(PacketEdit::CutToHeaders)),
        (false, true, None, None) => Ok(Some(PacketEdit::PopVlan)),
        (false, false, Some(text), None) => match tag_edit_of(TagEdit::Push, text.as_bytes()) {
            Some(edit) => Ok(Some(edit)),
            None => Err(Usage::Value(ValueOption::PushVlan, text)),
        },
        (false, false, None, Some(text)) => match tag_edit_of(TagEdit::Set, text.as_bytes()) {
            Some(edit) => Ok(Some(edit)),
            None => Err(Usage::Value(ValueOption::SetVlan, text)),
        },
        _ => Err(Usage::Edits),
    }
}

/// The value of `-c` or `--jobs`, if there is one: a number of packets or threads, 1 at least.
///
/// <details><summary>Contract</summary>
///
/// ```text
/// ensures ok { IfOk result
///     (λ it. IsIfAny IsCount (option_map (λ s. s.now) text.entry) (option_map non_zero_usize_get it)) }
/// ensures err { OnErr result ((n : Option ℕ) → ¬ (IsIfAny IsCount (option_map (λ s. s.now) text.entry) n)) }
/// ensures usage { IfErr result (IsWrongValue option (option_map (λ s. s.now) text.entry)) }
/// ```
///
/// </details>
pub fn count_of<'a>(
    option: ValueOption,
    text: Option<&'a str>,
) -> Result<Option<NonZeroUsize>, Usage<'a>> {
    let Some(text) = text else {
        return Ok(None);
    };
    let Some(number) = small_number(text.as_bytes()) else {
        return Err(Usage::Value(option, text));
    };
    match NonZeroUsize::new(number as usize) {
        Some(count) => Ok(Some(count)),
        None => Err(Usage::Value(option, text)),
    }
}

/// The value of `--limit`, if there is one: a number of headers.
///
/// <details><summary>Contract</summary>
///
/// ```text
/// ensures ok { IfOk result (IsIfAny IsLimit (option_map (λ s. s.now) text.entry)) }
/// ensures err { OnErr result ((n : Option ℕ) → ¬ (IsIfAny IsLimit (option_map (λ s. s.now) text.entry) n)) }
/// ensures usage { IfErr result (IsWrongValue ValueOption.Limit (option_map (λ s. s.now) text.entry)) }
/// ```
///
/// </details>
pub fn limit_of<'a>(text: Option<&'a str>) -> Result<Option<usize>, Usage<'a>> {
    let Some(text) = text else {
        return Ok(None);
    };
    match small_number(text.as_bytes()) {
        Some(number) => Ok(Some(number as usize)),
        None => Err(Usage::Value(ValueOption::Limit, text)),
    }
}

/// The value of `--undecided`, if there is one: `keep` or `drop`.
///
/// <details><summary>Contract</summary>
///
/// ```text
/// ensures ok { IfOk result (IsIfAny MeansUndecided (option_map (λ s. s.now) text.entry)) }
/// ensures err { OnErr result ((u : Option UndecidedValue)
///     → ¬ (IsIfAny MeansUndecided (option_map (λ s. s.now) text.entry) u)) }
/// ensures usage { IfErr result (IsWrongValue ValueOption.Undecided (option_map (λ s. s.now) text.entry)) }
/// ```
///
/// </details>
pub fn undecided_of<'a>(text: Option<&'a str>) -> Result<Option<Undecided>, Usage<'a>> {
    match text {
        None => Ok(None),
        Some(KEEP) => Ok(Some(Undecided::Kept)),
        Some(DROP) => Ok(Some(Undecided::Dropped)),
        Some(text) => Err(Usage::Value(ValueOption::Undecided, text)),
    }
}

/// The value of `--status-on-fault`, if there is one: whether it is `yes` or `no`.
///
/// <details><summary>Contract</summary>
///
/// ```text
/// ensures ok { IfOk result (IsIfAny MeansAnswer (option_map (λ s. s.now) text.entry)) }
/// ensures err { OnErr result ((b : Option Bool) → ¬ (IsIfAny MeansAnswer (option_map (λ s. s.now) text.entry) b)) }
/// ensures usage { IfErr result (IsWrongValue ValueOption.StatusOnFault (option_map (λ s. s.now) text.entry)) }
/// ```
///
/// </details>
pub fn status_on_fault_of<'a>(text: Option<&'a str>) -> Result<Option<bool>, Usage<'a>> {
    match text {
        None => Ok(None),
        Some(YES) => Ok(Some(true)),
        Some(NO) => Ok(Some(false)),
        Some(text) => Err(Usage::Value(ValueOption::StatusOnFault, text)),
    }
}

/// The value of `--fields` or `--by`, if there is one: names of columns. Returns [`Usage::NoColumn`] with the first name
/// that no column has, or [`Usage::Value`] if there are more than 32.
///
/// <details><summary>Contract</summary>
///
/// ```text
/// ensures ok { IfOk result (IsIfAny AreFields (option_map (λ s. s.now) text.entry)) }
/// ensures err { OnErr result ((columns : Option ColumnsValue)
///     → ¬ (IsIfAny AreFields (option_map (λ s. s.now) text.entry) columns)) }
/// ensures usage { IfErr result (AreWrongFields option (option_map (λ s. s.now) text.entry)) }
/// ```
///
/// </details>
pub fn fields_of<'a>(
    option: ValueOption,
    text: Option<&'a str>,
) -> Result<Option<Columns>, Usage<'a>> {
    let Some(text) = text else {
        return Ok(None);
    };
    if let Some(columns) = Columns::of_names(text) {
        return Ok(Some(columns));
    }
    match Columns::unknown_name(text) {
        Some(name) => Err(Usage::NoColumn(option, name)),
        None => Err(Usage::Value(option, text)),
    }
}

/// The value of `--format`: `None` for `lines`, and if there is no value.
///
/// <details><summary>Contract</summary>
///
/// ```text
/// ensures ok { IfOk result (IsFormat (option_map (λ s. s.now) text.entry)) }
/// ensures err { OnErr result ((f : Option FormatNameValue) → ¬ (IsFormat (option_map (λ s. s.now) text.entry) f)) }
/// ensures usage { IfErr result (IsWrongValue ValueOption.Format (option_map (λ s. s.now) text.entry)) }
/// ```
///
/// </details>
pub fn format_of<'a>(text: Option<&'a str>) -> Result<Option<FormatName>, Usage<'a>> {
    match text {
        None | Some(LINES) => Ok(None),
        Some(JSON) => Ok(Some(FormatName::Json)),
        Some(BRIEF) => Ok(Some(FormatName::Brief)),
        Some(CSV) => Ok(Some(FormatName::Csv)),
        Some(text) => Err(Usage::Value(ValueOption::Format, text)),
    }
}

/// The filter that a text means, if there is a text.
///
/// <details><summary>Contract</summary>
///
/// ```text
/// ensures ok { IfOk result (IsSelection (option_map (λ s. s.now) text.entry)) }
/// ensures err { IfErr result (RefusesSelection (option_map (λ s. s.now) text.entry)) }
/// ```
///
/// </details>
pub fn filter_of(text: Option<&str>) -> Result<Option<Filter>, FilterError> {
    let Some(text) = text else {
        return Ok(None);
    };
    match Filter::parse(text.as_bytes()) {
        Ok(filter) => Ok(Some(filter)),
        Err(error) => Err(error),
    }
}
