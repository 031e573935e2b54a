//! Classic capture files: the file header and the records (draft-ietf-opsawg-pcap).
//!
//! A file is a [`FileHeader`], followed by [`PcapRecord`]s in the byte order of that header. [`PcapRecords`] iterates
//! over the records of a file in memory. [`FileHeader::to_bytes`] and [`PcapRecord::header_to_bytes`] write them.
mod file_header;
mod file_header_error;
mod pcap_record;
mod pcap_records;
mod record_error;
mod record_fault;
mod timestamp_resolution;

pub use file_header::FileHeader;
pub use file_header_error::FileHeaderError;
pub use pcap_record::PcapRecord;
pub use pcap_records::PcapRecords;
pub use record_error::RecordError;
pub use record_fault::RecordFault;
pub use timestamp_resolution::TimestampResolution;
