//! Columns. Each shows one field of one section of a packet.

use crate::ether_format::found::Found;
use crate::ether_format::split::split_at;
use crate::ether_format::value::Value;
use crate::ether_fields::{Field, Section};
use crate::ether_output::{OutputBuffer, Sink};

/// A column: a field of a section.
#[derive(Clone, Copy, PartialEq, Eq, Hash, Debug)]
pub struct Column {
    /// The section.
    pub(in crate::ether_format) section: Section,
    /// The index of the field in its section, counted from 0.
    pub(in crate::ether_format) index: u8,
}

impl Column {
    /// The column with this name, as `vlan.vid`. Returns `None` if no column has it.
    #[inline]
    pub(in crate::ether_format) fn of_name(name: &[u8]) -> Option<Column> {
        let (section, member) = split_at(b'.', name)?;
        let section = Section::of_name(section)?;
        let index = index_of(section.fields(), member)?;
        Some(Column {
            section,
            index: index as u8,
        })
    }

    /// Writes the name, as `vlan.vid`.
    #[inline]
    pub(in crate::ether_format) fn write_name<W: Sink>(self, out: &mut OutputBuffer<'_, W>) {
        out.append(self.section.name().as_bytes());
        out.append(b".");
        if let Some(field) = self.section.fields().get(usize::from(self.index)) {
            out.append(field.name.as_bytes());
        }
    }

    /// Its value in a header.
    #[inline(always)]
    pub(in crate::ether_format) fn in_found<'a>(self, found: &'a Found<'_>) -> Option<Value<'a>> {
        let index = usize::from(self.index);
        if self.section == found.section {
            return found.value(index);
        }
        if self.section == Section::Headers {
            return found.placed(index);
        }
        None
    }
}

/// The index of the member with this name among fields.
#[inline]
fn index_of(fields: &[Field], name: &[u8]) -> Option<usize> {
    for (index, field) in fields.iter().enumerate() {
        if is_named(field, name) {
            return Some(index);
        }
    }
    None
}

/// Whether a field is the member with this name.
#[inline]
fn is_named(field: &Field, name: &[u8]) -> bool {
    field.is_column && field.name.as_bytes() == name
}
