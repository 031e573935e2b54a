//! What is made of columns.

use crate::ether_capture::statistics_format::{Counting, StatisticsFormat};
use etherpeel::ether_format::{Columns, Format};
use crate::ether_stream::FormatName;

/// What is made of columns.
#[derive(Clone, Copy, Debug)]
pub enum Heading {
    /// Rows, if columns are asked for.
    Absent,
    /// A line of their names in this format, and then rows.
    Line(Format),
    /// Counts of the texts in the rows, whose first column is the length of the packet.
    Statistics(Counting, Columns),
}

impl Heading {
    /// The format of the line of names, if one is written first.
    pub(in crate::ether_capture) fn format(&self) -> Option<Format> {
        match self {
            Heading::Absent => None,
            Heading::Line(format) => Some(*format),
            Heading::Statistics(_, columns) => Some(Format::Fields(*columns)),
        }
    }

    /// How packets are counted, if that is asked for.
    pub(in crate::ether_capture) fn statistics(&self) -> Option<Counting> {
        match self {
            Heading::Statistics(counting, _) => Some(*counting),
            Heading::Absent | Heading::Line(_) => None,
        }
    }
}

/// Counts of the texts of columns, of each or of all together, in a format.
pub(in crate::ether_capture) fn statistics_of(
    is_joint: bool,
    format: &Option<FormatName>,
    columns: &Option<Columns>,
) -> Heading {
    match columns {
        Some(columns) => Heading::Statistics(
            Counting {
                is_joint,
                format: statistics_format_of(format),
            },
            *columns,
        ),
        None => Heading::Absent,
    }
}

/// The format of counts.
pub(in crate::ether_capture) fn statistics_format_of(format: &Option<FormatName>) -> StatisticsFormat {
    match format {
        Some(FormatName::Json) => StatisticsFormat::Json,
        _ => StatisticsFormat::Text,
    }
}

/// A line of the names of columns in a format.
pub(in crate::ether_capture) fn line_of(format: &Option<Format>) -> Heading {
    match format {
        Some(format) => Heading::Line(*format),
        None => Heading::Absent,
    }
}

/// The columns whose texts are counted: the length of the packet, and then these, or common ones. Returns `None` if
/// nothing is counted, or if these would be more than 32.
pub(in crate::ether_capture) fn counted_of(is_counted: bool, fields: &Option<Columns>) -> Option<Columns> {
    if !is_counted {
        return None;
    }
    match fields {
        Some(columns) => columns.after_original(),
        None => Columns::common().after_original(),
    }
}
