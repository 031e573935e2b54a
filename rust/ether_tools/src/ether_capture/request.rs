//! What the options together ask for.

use crate::ether_capture::heading::{Heading, line_of, statistics_format_of, statistics_of};
use crate::ether_capture::statistics_format::{Counting, StatisticsFormat};
use etherpeel::ether_content::PacketEdit;
use etherpeel::ether_filter::{Filter, FilterError};
use etherpeel::ether_format::{Columns, Format};
use etherpeel::ether_pcap::CopyMode;
use crate::ether_stream::{
    DependentOption, Form, FormatName, LineOptions, Selection, Task, Undecided, Usage, filter_of,
};
use std::num::NonZeroUsize;

/// Why the arguments ask for nothing.
#[derive(Clone, Copy, Debug)]
pub enum RequestError<'a> {
    /// They are wrong in this way.
    Usage(Usage<'a>),
    /// Memory for them was refused.
    Memory,
    /// The filter is not an expression.
    Filter(FilterError),
}

impl<'a> From<Usage<'a>> for RequestError<'a> {
    fn from(usage: Usage<'a>) -> RequestError<'a> {
        RequestError::Usage(usage)
    }
}

/// What the arguments ask for.
#[derive(Debug)]
pub enum Request<'a> {
    /// What is made of one capture.
    Run(Job<'a>),
    /// The lines of several captures.
    List(Listing<'a>),
    /// The sums of counts that were printed.
    Merge(StatisticsFormat),
    /// How the program is used.
    Help,
    /// The program's name and version.
    Version,
}

/// What is made of one capture.
#[derive(Debug)]
pub struct Job<'a> {
    /// Whether lines or a copy are made, and of what packets.
    pub task: Task<'a>,
    /// The name of the capture's file, unless it is read from standard input.
    pub input: Option<&'a str>,
    /// The name of the copy's file, unless what is made goes to standard output.
    pub output: Option<&'a str>,
    /// What is made of columns.
    pub heading: Heading,
    /// Whether to show how far it is read.
    pub is_shown: bool,
    /// How many threads are to make its lines.
    pub jobs: Option<NonZeroUsize>,
}

/// Which lines of several captures.
#[derive(Debug)]
pub struct Listing<'a> {
    /// Which packets are chosen; all of them without a selection.
    pub selection: Option<Selection>,
    /// The number of these after which the run ends; with `None` it ends at the end of the last capture.
    pub count: Option<NonZeroUsize>,
    /// Which lines a packet has.
    pub options: LineOptions<'a>,
    /// The names of their files, two at least.
    pub files: Vec<&'a str>,
    /// What is made of columns.
    pub heading: Heading,
    /// Whether to show how far they are read.
    pub is_shown: bool,
    /// How many threads are to make their lines.
    pub jobs: Option<NonZeroUsize>,
}

/// What options ask for.
pub(in crate::ether_capture) struct Asked<'a> {
    pub(in crate::ether_capture) is_plain: bool,
    pub(in crate::ether_capture) is_write: bool,
    pub(in crate::ether_capture) is_shown: bool,
    pub(in crate::ether_capture) has_bytes: bool,
    pub(in crate::ether_capture) has_header: bool,
    pub(in crate::ether_capture) is_counted: bool,
    pub(in crate::ether_capture) is_merge: bool,
    pub(in crate::ether_capture) edit: Option<PacketEdit>,
    pub(in crate::ether_capture) text: Option<&'a str>,
    pub(in crate::ether_capture) undecided: Option<Undecided>,
    pub(in crate::ether_capture) status_on_fault: Option<bool>,
    pub(in crate::ether_capture) count: Option<NonZeroUsize>,
    pub(in crate::ether_capture) jobs: Option<NonZeroUsize>,
    pub(in crate::ether_capture) limit: Option<usize>,
    pub(in crate::ether_capture) format: Option<FormatName>,
    pub(in crate::ether_capture) fields: Option<Columns>,
    pub(in crate::ether_capture) by: Option<Columns>,
    /// The columns whose texts are counted, if that is asked for and there are 32 at most.
    pub(in crate::ether_capture) counted: Option<Columns>,
    pub(in crate::ether_capture) input: Option<&'a str>,
    pub(in crate::ether_capture) output: Option<&'a str>,
    pub(in crate::ether_capture) files: Vec<&'a str>,
}

impl<'a> Asked<'a> {
    /// Tests that there are several names.
    fn has_several(&self) -> bool {
        matches!(self.files.as_slice(), [_, _, ..])
    }

    /// Tests that a copy is asked for.
    fn is_copy(&self) -> bool {
        self.is_write || self.output.is_some()
    }

    /// What is wrong with the options and names together, if anything is.
    fn fault(&self) -> Option<Usage<'a>> {
        if let Some(option) = self.lacking() {
            return Some(Usage::Lacks(option));
        }
        if let Some(name) = self.surplus() {
            return Some(Usage::Surplus(name));
        }
        if names_input_twice(self.files.as_slice()) {
            return Some(Usage::InputTwice);
        }
        if self.clashes() {
            return Some(Usage::Clash);
        }
        None
    }

    /// The option that is there without the one that it needs, if there is one.
    fn lacking(&self) -> Option<DependentOption> {
        if self.undecided.is_some() && self.text.is_none() {
            return Some(DependentOption::Undecided);
        }
        if self.has_header && self.fields.is_none() && !self.is_counted {
            return Some(DependentOption::Header);
        }
        if self.is_csv() && self.fields.is_none() && !self.is_counted {
            return Some(DependentOption::Csv);
        }
        if self.has_bytes && !self.is_json() {
            return Some(DependentOption::Bytes);
        }
        if self.by.is_some() && !self.is_counted {
            return Some(DependentOption::By);
        }
        self.lacking_copy()
    }

    /// The option of an edit that is there without a copy.
    fn lacking_copy(&self) -> Option<DependentOption> {
        if self.is_copy() {
            return None;
        }
        match &self.edit {
            Some(edit) => Some(option_of(edit)),
            None => None,
        }
    }

    /// The first name of a file after the only one that can be read, if there is one.
    fn surplus(&self) -> Option<&'a str> {
        match (self.input, self.files.as_slice()) {
            (Some(_), [name, ..]) => Some(*name),
            (None, [name, ..]) if self.is_merge => Some(*name),
            (None, [_, name, ..]) if self.is_copy() => Some(*name),
            _ => None,
        }
    }

    /// Tests that there is an option that does not go with the others.
    fn clashes(&self) -> bool {
        self.clashes_with_copy() || self.clashes_in_columns() || self.clashes_with_merge()
    }

    /// Tests that a copy is asked for with options of lines, or lines that are plain in another format.
    fn clashes_with_copy(&self) -> bool {
        if self.is_copy() {
            return self.is_plain || self.limit.is_some() || self.has_format();
        }
        self.is_plain && self.has_format()
    }

    /// Tests that sums of counts are asked for with an option of captures.
    fn clashes_with_merge(&self) -> bool {
        self.is_merge && (self.chooses_packets() || self.makes_packets() || self.forms_packets())
    }

    /// Tests that packets or a capture are chosen.
    fn chooses_packets(&self) -> bool {
        self.text.is_some() || self.count.is_some() || self.input.is_some()
    }

    /// Tests that something is to be made of packets.
    fn makes_packets(&self) -> bool {
        self.is_copy()
            || self.is_plain
            || self.is_counted
            || self.limit.is_some()
            || self.fields.is_some()
    }

    /// Tests that packets are to have a form that sums of counts do not have, or that their faults count.
    fn forms_packets(&self) -> bool {
        self.status_on_fault.is_some() || self.has_bytes || self.is_brief() || self.is_csv()
    }

    /// Tests that there is an option of columns that does not go with the others.
    fn clashes_in_columns(&self) -> bool {
        if self.is_counted {
            return self.has_header
                || self.has_bytes
                || self.counted.is_none()
                || self.is_brief()
                || self.is_csv()
                || self.clashes_with_by();
        }
        (self.is_brief() || self.is_json()) && self.fields.is_some()
    }

    /// Tests that columns are counted together, and others by themselves.
    fn clashes_with_by(&self) -> bool {
        self.by.is_some() && self.fields.is_some()
    }

    /// Tests that objects of JSON are asked for.
    fn is_json(&self) -> bool {
        matches!(self.format, Some(FormatName::Json))
    }

    /// Tests that CSV is asked for.
    fn is_csv(&self) -> bool {
        matches!(self.format, Some(FormatName::Csv))
    }

    /// Tests that lines for the eye are asked for.
    fn is_brief(&self) -> bool {
        matches!(self.format, Some(FormatName::Brief))
    }

    /// Tests that another format than lines is asked for.
    fn has_format(&self) -> bool {
        self.format().is_some()
    }

    /// The columns of rows, if these are asked for.
    fn columns(&self) -> Option<Columns> {
        if self.is_counted {
            return self.counted;
        }
        self.fields
    }

    /// The format that is asked for, if it is another than lines.
    fn format(&self) -> Option<Format> {
        match self.columns() {
            Some(columns) if self.is_csv() => Some(Format::Csv(columns)),
            Some(columns) => Some(Format::Fields(columns)),
            None => format_named(self.format, self.has_bytes),
        }
    }

    /// What is made of columns.
    fn heading(&self) -> Heading {
        if self.is_counted {
            return statistics_of(self.by.is_some(), &self.format, &self.counted);
        }
        if self.has_header {
            return line_of(&self.format());
        }
        Heading::Absent
    }

    /// What all options together ask for.
    pub(in crate::ether_capture) fn request(self) -> Result<Request<'a>, RequestError<'a>> {
        if let Some(usage) = self.fault() {
            return Err(RequestError::Usage(usage));
        }
        match filter_of(self.text) {
            Ok(_) if self.is_merge => Ok(Request::Merge(statistics_format_of(&self.format))),
            Ok(filter) if self.has_several() => Ok(Request::List(Listing {
                selection: self.selection(filter),
                count: self.count,
                options: self.options(),
                heading: self.heading(),
                files: self.files,
                is_shown: self.is_shown,
                jobs: self.jobs,
            })),
            Ok(filter) => {
                let form = self.form();
                let task = Task {
                    selection: self.selection(filter),
                    count: self.count,
                    form,
                };
                Ok(Request::Run(Job {
                    task,
                    input: self.input(),
                    output: self.output(),
                    heading: self.heading(),
                    is_shown: self.is_shown,
                    jobs: self.jobs,
                }))
            }
            Err(error) => Err(RequestError::Filter(error)),
        }
    }

    /// The name of the only file, unless standard input is asked for.
    fn input(&self) -> Option<&'a str> {
        match self.input {
            Some(name) => named(name),
            None => named(self.files.first().copied()?),
        }
    }

    /// The name of the copy's file, unless standard output is asked for.
    fn output(&self) -> Option<&'a str> {
        named(self.output?)
    }

    /// Which packets a filter selects, if there is one.
    fn selection(&self, filter: Option<Filter>) -> Option<Selection> {
        match filter {
            Some(filter) => Some(Selection {
                filter,
                undecided: self.undecided,
            }),
            None => None,
        }
    }

    /// Lines, or a copy if one is asked for.
    fn form(&self) -> Form<'a> {
        if self.is_copy() {
            Form::Copy {
                mode: self.mode(),
                edit: self.edit,
            }
        } else {
            Form::Lines(self.options())
        }
    }

    /// A copy is exact if all packets are copied, and none is edited.
    fn mode(&self) -> CopyMode {
        if self.text.is_some() || self.count.is_some() || self.edit.is_some() {
            CopyMode::Changed {
                raise: self.growth(),
            }
        } else {
            CopyMode::Exact
        }
    }

    /// The most bytes that the edit adds to a packet; 0 without an edit.
    fn growth(&self) -> u32 {
        match self.edit {
            Some(edit) => edit.growth(),
            None => 0,
        }
    }

    /// Tests that faults of headers are no failure.
    fn excuses(&self) -> bool {
        matches!(self.status_on_fault, Some(false))
    }

    /// Which lines are asked for.
    fn options(&self) -> LineOptions<'a> {
        LineOptions {
            file: name_bytes(self.input()),
            is_plain: self.is_plain || self.has_format(),
            format: self.format(),
            limit: self.limit,
            before: None,
            excuses: self.excuses(),
        }
    }
}

/// The option of an edit.
fn option_of(edit: &PacketEdit) -> DependentOption {
    match edit {
        PacketEdit::CutToHeaders => DependentOption::CutToHeaders,
        PacketEdit::PopVlan => DependentOption::PopVlan,
        PacketEdit::PushVlan { .. } => DependentOption::PushVlan,
        PacketEdit::SetVlan { .. } => DependentOption::SetVlan,
    }
}

/// Tests that standard input is among these names twice.
fn names_input_twice(names: &[&str]) -> bool {
    let mut rest = names;
    while let [name, others @ ..] = rest {
        if *name == "-" {
            return names_input(others);
        }
        rest = others;
    }
    false
}

/// Tests that standard input is among these names.
fn names_input(names: &[&str]) -> bool {
    let mut rest = names;
    while let [name, others @ ..] = rest {
        if *name == "-" {
            return true;
        }
        rest = others;
    }
    false
}

/// The columns of the first option that is there.
pub(in crate::ether_capture) fn first_of(by: Option<Columns>, fields: Option<Columns>) -> Option<Columns> {
    match by {
        Some(columns) => Some(columns),
        None => fields,
    }
}

/// The format of this name, unless it has columns; objects of JSON with all bytes of a packet if `has_bytes`.
fn format_named(name: Option<FormatName>, has_bytes: bool) -> Option<Format> {
    match name {
        Some(FormatName::Json) if has_bytes => Some(Format::JsonBytes),
        Some(FormatName::Json) => Some(Format::Json),
        Some(FormatName::Brief) => Some(Format::Brief),
        Some(FormatName::Csv) | None => None,
    }
}

impl Request<'_> {
    /// How packets are counted, if that is asked for.
    pub(in crate::ether_capture) fn statistics(&self) -> Option<Counting> {
        match self {
            Request::Run(job) => job.heading.statistics(),
            Request::List(listing) => listing.heading.statistics(),
            Request::Merge(_) | Request::Help | Request::Version => None,
        }
    }
}

/// A name of a file, unless it is that of a standard stream.
pub(in crate::ether_capture) fn named(name: &str) -> Option<&str> {
    if name == "-" {
        return None;
    }
    Some(name)
}

/// The bytes of a name, if there is one.
pub(in crate::ether_capture) fn name_bytes(name: Option<&str>) -> Option<&[u8]> {
    match name {
        Some(name) => Some(name.as_bytes()),
        None => None,
    }
}
