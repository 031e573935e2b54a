//! What the program says of its words and of a run, but for names and numbers.

/// The program, where a message has no name of a file.
pub(in crate::ether_stream) const PROGRAM: &str = "ether_capture";

/// What messages call standard input.
pub(in crate::ether_stream) const STANDARD_INPUT: &str = "standard input";

// ---- a capture that is not read to its end

pub(in crate::ether_stream) const UNREADABLE: &str = "can't be read";

pub(in crate::ether_stream) const NO_MEMORY: &str = "out of memory";

/// Why a packet can't be edited.
pub(in crate::ether_stream) const NOT_EDITED: &str =
    "This packet can't be written: its block has no number of captured bytes, or it would be too long.";

/// Why lines of counts are not added up.
pub(in crate::ether_stream) const NOT_COUNTS: &str = "no whole line of a count, as --stats prints it";

// ---- a program for a file that this one can't read

pub(in crate::ether_stream) const GZIP: &str = " This looks like gzip: zcat unpacks it.";

pub(in crate::ether_stream) const ZSTD: &str = " This looks like zstd: zstdcat unpacks it.";

pub(in crate::ether_stream) const XZ: &str = " This looks like xz: xzcat unpacks it.";

pub(in crate::ether_stream) const BZIP2: &str = " This looks like bzip2: bzcat unpacks it.";

pub(in crate::ether_stream) const LZ4: &str = " This looks like lz4: lz4cat unpacks it.";

pub(in crate::ether_stream) const PCAP_VARIANT: &str = " This is a variant of pcap: editcap converts it.";

pub(in crate::ether_stream) const OTHER_VERSION: &str = " editcap converts it.";

// ---- options, as they are written

pub(in crate::ether_stream) const BY: &str = "--by";

pub(in crate::ether_stream) const BYTES: &str = "--bytes";

pub(in crate::ether_stream) const COUNT: &str = "-c";

pub(in crate::ether_stream) const CUT_TO_HEADERS: &str = "--cut-to-headers";

pub(in crate::ether_stream) const FIELDS: &str = "--fields";

pub(in crate::ether_stream) const FORMAT: &str = "--format";

pub(in crate::ether_stream) const FORMAT_CSV: &str = "--format csv";

pub(in crate::ether_stream) const FORMAT_JSON: &str = "--format json";

pub(in crate::ether_stream) const HEADER: &str = "--header";

pub(in crate::ether_stream) const JOBS: &str = "--jobs";

pub(in crate::ether_stream) const LIMIT: &str = "--limit";

pub(in crate::ether_stream) const POP_VLAN: &str = "--pop-vlan";

pub(in crate::ether_stream) const PUSH_VLAN: &str = "--push-vlan";

pub(in crate::ether_stream) const SELECT: &str = "--select";

pub(in crate::ether_stream) const SET_VLAN: &str = "--set-vlan";

pub(in crate::ether_stream) const STATS: &str = "--stats";

pub(in crate::ether_stream) const STATUS_ON_FAULT: &str = "--status-on-fault";

pub(in crate::ether_stream) const UNDECIDED: &str = "--undecided";

/// The options that ask for a copy.
pub(in crate::ether_stream) const COPIES: &str = "--write or -w";

// ---- the values that they take

pub(in crate::ether_stream) const PUSHED_TAG: &str = "a TPID of VLAN tags and an identifier up to 4095, as 0x8100:5";

pub(in crate::ether_stream) const TWO_IDENTIFIERS: &str = "two identifiers up to 4095, as 5:6";

pub(in crate::ether_stream) const PACKETS: &str = "a number from 1 to 4294967295";

pub(in crate::ether_stream) const HEADERS: &str = "a number up to 4294967295";

pub(in crate::ether_stream) const KEEP_OR_DROP: &str = "keep or drop";

pub(in crate::ether_stream) const YES_OR_NO: &str = "yes or no";

pub(in crate::ether_stream) const FORMATS: &str = "lines, brief, json or csv";

pub(in crate::ether_stream) const COLUMNS: &str = "at most 32 columns, as vlan.vid,eth.src";

// ---- wrong words

pub(in crate::ether_stream) const TRY_HELP: &str = "try --help";

pub(in crate::ether_stream) const NO_OPTION: &str = "there is no such option";

pub(in crate::ether_stream) const NO_VALUE: &str = "its value is missing";

pub(in crate::ether_stream) const TWICE: &str = "an option occurs twice, or has a value and takes none";

pub(in crate::ether_stream) const CLASH: &str = "these options do not go together";

pub(in crate::ether_stream) const SURPLUS: &str = "this is one FILE too many";

pub(in crate::ether_stream) const INPUT_TWICE: &str = "-: standard input can be read only once";

pub(in crate::ether_stream) const EDITS: &str =
    "--cut-to-headers, --pop-vlan, --push-vlan and --set-vlan do not go together";

pub(in crate::ether_stream) const NO_COLUMN: &str = "there is no column";
