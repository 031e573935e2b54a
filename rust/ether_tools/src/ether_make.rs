//! Makes frames from objects of JSON, one in each line of files or of standard input, and writes them as a capture or as
//! lines of hexadecimal digits.
//!
//! This list of modules is written by hand, in the place of `crates/ether_make/src/main.rt`.
pub mod about;
pub mod bits;
pub mod capture;
pub mod check_sequence;
mod check_tables;
pub mod field_bits;
pub mod frame;
pub mod header;
pub mod hex_lines;
pub mod input_files;
pub mod json;
pub mod lines;
pub mod memory;
pub mod named_files;
pub mod objects;
pub mod option_table;
pub mod options;
pub mod output;
pub mod pace;
pub mod program;
pub mod progress;
pub mod random;
pub mod range;
pub mod refusal;
mod repeated;
pub mod request;
pub mod series;
pub mod settings;
pub mod shown;
pub mod sizes;
pub mod slot;
pub mod template;
pub mod texts;
pub mod time_text;
pub mod wrong_words;
