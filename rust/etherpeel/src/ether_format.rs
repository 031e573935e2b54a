//! The text of a captured packet for other programs and for people, in one of several formats. No call allocates
//! memory.

mod brief;
mod calendar;
mod cause;
mod column;
mod columns;
mod csv;
mod end;
mod end_values;
mod format;
mod found;
mod found_header;
mod gathered;
mod interval;
mod json;
mod json_bytes;
mod line;
mod members;
mod moment;
mod origin;
mod packet;
mod place;
mod row;
mod spelling;
mod split;
mod text;
mod times;
mod value;
mod values;
mod visit;

pub use columns::Columns;
pub use format::Format;
pub use moment::Moment;
pub use origin::Origin;
pub use packet::write_packet;
pub use spelling::nine_digits;
pub use split::split_at;
pub use text::write_json_text;
