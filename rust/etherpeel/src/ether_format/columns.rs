//! The columns of a row.

use crate::ether_format::column::Column;
use crate::ether_format::split::split_at;
use crate::ether_fields::Section;
use crate::ether_output::{OutputBuffer, Sink};

/// How many columns there may be after the first.
const MOST_OTHERS: usize = 31;

/// `headers.header`, `vlan.vid`, `eth.type`, `vlan.type`, `rest.type`, `fault.kind`, `arp.sha` and `arp.spa`.
static COMMON: [Column; 8] = [
    Column {
        section: Section::Headers,
        index: 0,
    },
    Column {
        section: Section::Vlan,
        index: 7,
    },
    Column {
        section: Section::Eth,
        index: 7,
    },
    Column {
        section: Section::Vlan,
        index: 8,
    },
    Column {
        section: Section::Rest,
        index: 3,
    },
    Column {
        section: Section::Fault,
        index: 2,
    },
    Column {
        section: Section::Arp,
        index: 10,
    },
    Column {
        section: Section::Arp,
        index: 11,
    },
];

/// The columns of a row, 1 to 32.
///
/// The name of a column is that of a section and that of one of its fields, with a dot between them: `frame.number`,
/// `vlan.vid`. A field is a member in [`crate::ether_format::Format::Json`], but for the minute, the hour and the day of a packet's
/// time, which are columns alone. The sections are `frame`, the packet itself; `eth`, `sll`, `sll2`, `vlan`,
/// `macsec` and `arp`, its headers; `headers`, the name and the place of each header; and how the walk through them
/// ends, `rest` or `fault`.
#[derive(Clone, Copy, PartialEq, Eq, Hash, Debug)]
pub struct Columns {
    first: Column,
    others: [Column; MOST_OTHERS],
    /// How many of `others` are columns of the row, from the first on.
    count: usize,
}

impl Columns {
    /// The columns that a text names, with a comma between two: `vlan.vid,eth.src`.
    ///
    /// Returns `None` if a name is not that of a column ([`Columns::unknown_name`] gives it), or if there are more than
    /// 32.
    ///
    /// <details><summary>Contract</summary>
    ///
    /// ```text
    /// ensures some { IfSome result (λ it. AreColumns text.now (columns_view it)) }
    /// ensures none { IfNone result ((columns : List ColumnValue) → ¬ (AreColumns text.now columns)) }
    /// ```
    ///
    /// Words: [`AreColumns`](crate::definitions::ether_format#def.AreColumns),
    /// [`columns_view`](crate::definitions::ether_format#def.columns_view),
    /// [`ColumnValue`](crate::definitions::ether_format#def.ColumnValue). [Notation](crate::definitions::notation)
    ///
    /// </details>
    #[must_use]
    #[inline]
    pub fn of_names(text: &str) -> Option<Columns> {
        Columns::of_bytes(text.as_bytes())
    }

    /// .. that the bytes of a text name.
    #[inline]
    pub(in crate::ether_format) fn of_bytes(text: &[u8]) -> Option<Columns> {
        let (word, mut rest) = first_word(text);
        let mut columns = Columns::of_one(Column::of_name(word)?);
        while let Some(text) = rest {
            let (word, after) = first_word(text);
            columns.push(Column::of_name(word)?)?;
            rest = after;
        }
        Some(columns)
    }

    /// The first name in a text, with a comma between two names, that no column has. Returns `None` if each is that
    /// of a column.
    ///
    /// <details><summary>Contract</summary>
    ///
    /// ```text
    /// ensures { IsUnknownIn (slice_split (λ b. b == 44) text.now) (option_map (λ s. s.now) result) }
    /// ```
    ///
    /// Words: [`IsUnknownIn`](crate::definitions::ether_format#def.IsUnknownIn).
    /// [Notation](crate::definitions::notation)
    ///
    /// </details>
    #[must_use]
    #[inline]
    pub fn unknown_name(text: &str) -> Option<&str> {
        let mut rest = text;
        while let Some((name, after)) = rest.split_once(',') {
            if Column::of_name(name.as_bytes()).is_none() {
                return Some(name);
            }
            rest = after;
        }
        if Column::of_name(rest.as_bytes()).is_none() {
            return Some(rest);
        }
        None
    }

    /// The columns that a summary counts if none are named: the headers of a packet, its VLAN identifiers, its ether
    /// types, what is wrong with it, and the senders of ARP.
    ///
    /// <details><summary>Contract</summary>
    ///
    /// ```text
    /// ensures { columns_view result ≡ common_columns }
    /// ```
    ///
    /// Words: [`columns_view`](crate::definitions::ether_format#def.columns_view),
    /// [`common_columns`](crate::definitions::ether_format#def.common_columns).
    /// [Notation](crate::definitions::notation)
    ///
    /// </details>
    #[must_use]
    #[inline]
    pub fn common() -> Columns {
        let mut others = [COMMON[1]; MOST_OTHERS];
        others[1] = COMMON[2];
        others[2] = COMMON[3];
        others[3] = COMMON[4];
        others[4] = COMMON[5];
        others[5] = COMMON[6];
        others[6] = COMMON[7];
        Columns {
            first: COMMON[0],
            others,
            count: 7,
        }
    }

    /// These columns after `frame.original`, the length that the packet had. Returns `None` if there are 32 already.
    ///
    /// <details><summary>Contract</summary>
    ///
    /// ```text
    /// ensures some { IfSome result (λ it. columns_view it ≡ original_column ∷ columns_view self.now) }
    /// ensures none { IfNone result (32 ≤ length (columns_view self.now)) }
    /// ```
    ///
    /// Words: [`columns_view`](crate::definitions::ether_format#def.columns_view),
    /// [`original_column`](crate::definitions::ether_format#def.original_column).
    /// [Notation](crate::definitions::notation)
    ///
    /// </details>
    #[must_use]
    #[inline]
    pub fn after_original(&self) -> Option<Columns> {
        let mut columns = Columns::of_one(Column {
            section: Section::Frame,
            index: 4,
        });
        columns.push(self.first)?;
        for column in self.others() {
            columns.push(*column)?;
        }
        Some(columns)
    }

    /// One column.
    #[inline]
    fn of_one(column: Column) -> Columns {
        Columns {
            first: column,
            others: [column; MOST_OTHERS],
            count: 0,
        }
    }

    /// Appends a column. Returns `None` if there are 32 already.
    #[inline]
    fn push(&mut self, column: Column) -> Option<()> {
        if self.count >= MOST_OTHERS {
            return None;
        }
        self.others[self.count] = column;
        self.count += 1;
        Some(())
    }

    /// The first column.
    #[inline]
    pub(in crate::ether_format) fn first(&self) -> Column {
        self.first
    }

    /// The columns after it.
    #[inline]
    pub(in crate::ether_format) fn others(&self) -> &[Column] {
        &self.others[..self.count.min(MOST_OTHERS)]
    }

    /// Writes the line of their names, with a tab between two.
    ///
    /// <details><summary>Contract</summary>
    ///
    /// ```text
    /// ensures { Takes W.contents W.can_fail out.old (heading_text (columns_view self.now)) out.new }
    /// ```
    ///
    /// Words: [`Takes`](crate::definitions::ether_output#def.Takes),
    /// [`heading_text`](crate::definitions::ether_format#def.heading_text),
    /// [`columns_view`](crate::definitions::ether_format#def.columns_view). [Notation](crate::definitions::notation)
    ///
    /// </details>
    #[inline]
    pub fn write_heading<W: Sink>(&self, out: &mut OutputBuffer<'_, W>) {
        self.first.write_name(out);
        write_names_after(b"\t", self.others(), out);
        out.append(b"\n");
    }

    /// Writes the line of their names as a record of CSV.
    #[inline]
    pub(in crate::ether_format) fn write_csv_heading<W: Sink>(&self, out: &mut OutputBuffer<'_, W>) {
        self.first.write_name(out);
        write_names_after(b",", self.others(), out);
        out.append(b"\r\n");
    }
}

/// Writes the names of columns, each after a separator.
#[inline]
fn write_names_after<W: Sink>(separator: &[u8], columns: &[Column], out: &mut OutputBuffer<'_, W>) {
    for column in columns {
        out.append(separator);
        column.write_name(out);
    }
}

/// The text before the first comma, and that after it, if there is one.
#[inline]
fn first_word(text: &[u8]) -> (&[u8], Option<&[u8]>) {
    match split_at(b',', text) {
        Some((word, after)) => (word, Some(after)),
        None => (text, None),
    }
}
