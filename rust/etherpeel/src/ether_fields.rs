//! The fields of headers, and what else a packet tells, as one table: what each is called, what its value is, and how
//! many bits it has. A second table has the names of numbers. JSON, columns, lines for the eye, and the calls from C
//! read these tables. No call allocates memory.
//!
//! The rows are in `specs/Rows.antt`, with the clauses of the standards, and the names of numbers in
//! `specs/Names.antt`. `python3 fields.py` writes both to `rows` and `names`, and to what can't read them there.

mod extent;
mod field;
mod field_place;
mod kind;
mod names;
mod number_name;
mod part;
pub mod rows;
mod section;
mod unit;

pub use extent::Extent;
pub use field::Field;
pub use field_place::{FieldPlace, places};
pub use kind::Kind;
pub use number_name::name_of;
pub use part::{Part, Sizes};
pub use section::Section;
pub use unit::{section_of, sizes_of};
