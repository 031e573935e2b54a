//! Reads a capture of the classic pcap format or of pcapng, a file or standard input, and prints the lines of the walk of
//! each packet, or copies the capture without some of its packets, to standard output or a file.
//!
//! This list of modules is written by hand, in the place of `crates/ether_capture/src/main.rt`.
pub mod capture_files;
pub mod captures;
pub mod copy_run;
pub mod count;
pub mod count_line;
pub mod count_table;
pub mod grouping;
pub mod heading;
pub mod heap_memory;
pub mod heap_text;
pub mod interface_buffer;
pub mod journal;
pub mod key_members;
pub mod memory;
pub mod merge_run;
pub mod merger;
pub mod option_table;
pub mod options;
pub mod program;
pub mod progress_line;
pub mod request;
pub mod row_counts;
pub mod row_slot;
pub mod row_slots;
pub mod rows;
pub mod run_input;
pub mod several_files;
pub mod statistics;
pub mod statistics_format;
pub mod wrong_words;
