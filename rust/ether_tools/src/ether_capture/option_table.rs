//! The options of the program.

/// An option of the program. Its texts are of a type that is a parameter: a definition can't cite a table of rows that
/// have references themselves.
///
/// `clap`'s arguments, what is said of wrong words, and the completions of shells are made of these rows, and
/// `tests/options.py --set` makes the lines of `--help` of them.
#[derive(Clone, Copy, Debug)]
pub struct OptionRow<Text> {
    /// Its name in the program's code.
    pub name: Text,
    /// How it is written.
    pub spelling: Spelling,
    /// The word for its value, if it has one.
    pub value: Option<Text>,
    /// The heading above its line in the help. The first and the last options have none.
    pub group: Text,
    /// What it does.
    pub help: Text,
}

/// How an option is written.
#[derive(Clone, Copy, Debug)]
pub enum Spelling {
    /// By its name, after two hyphens.
    Name,
    /// By a letter, after one hyphen.
    Letter(char),
    /// By its name or a letter. Such options say something of the program, and `clap` adds them.
    Both(char),
}

impl Spelling {
    /// Tests that an option is written by its name.
    pub(in crate::ether_capture) fn is_word(self) -> bool {
        matches!(self, Spelling::Name | Spelling::Both(_))
    }

    /// Tests that an option is written by this letter.
    pub(in crate::ether_capture) fn has_letter(self, it: u8) -> bool {
        match self {
            Spelling::Name => false,
            Spelling::Letter(letter) | Spelling::Both(letter) => letter == char::from(it),
        }
    }

    /// Tests that `clap` adds an option.
    pub(in crate::ether_capture) fn is_added(self) -> bool {
        matches!(self, Spelling::Both(_))
    }
}

/// All options, in the order of the help.
pub(in crate::ether_capture) fn all_options() -> &'static [OptionRow<&'static str>] {
    &OPTIONS
}

/// The table of options, in the order of the help.
pub static OPTIONS: [OptionRow<&str>; 24] = [
    OptionRow {
        name: "read",
        spelling: Spelling::Letter('r'),
        value: Some("FILE"),
        group: "",
        help: "read FILE, as if it was named alone",
    },
    OptionRow {
        name: "progress",
        spelling: Spelling::Name,
        value: None,
        group: "",
        help: "show on standard error how many bytes are read, and how fast",
    },
    OptionRow {
        name: "jobs",
        spelling: Spelling::Name,
        value: Some("N"),
        group: "",
        help: "make lines in N threads, where the program has threads; the output is the same",
    },
    OptionRow {
        name: "select",
        spelling: Spelling::Name,
        value: Some("EXPR"),
        group: "Which packets",
        help: "only packets that match EXPR, as 'vlan 5 or arp'",
    },
    OptionRow {
        name: "undecided",
        spelling: Spelling::Name,
        value: Some("keep|drop"),
        group: "Which packets",
        help: "with --select, keep or drop packets that were cut too short to tell, in place of taking them as they are",
    },
    OptionRow {
        name: "count",
        spelling: Spelling::Letter('c'),
        value: Some("N"),
        group: "Which packets",
        help: "end with the N-th of these packets, of all files together",
    },
    OptionRow {
        name: "plain",
        spelling: Spelling::Name,
        value: None,
        group: "Lines",
        help: "leave out the lines of packets and the totals",
    },
    OptionRow {
        name: "limit",
        spelling: Spelling::Name,
        value: Some("N"),
        group: "Lines",
        help: "read N VLAN tags and SecTags of each packet at most",
    },
    OptionRow {
        name: "format",
        spelling: Spelling::Name,
        value: Some("lines|brief|json|csv"),
        group: "Lines",
        help: "print lines as ever; or each packet on a line of its own, for the eye, as an object of JSON or, with --fields, as CSV, without totals",
    },
    OptionRow {
        name: "bytes",
        spelling: Spelling::Name,
        value: None,
        group: "Lines",
        help: "with --format json, also print the bytes after the headers of a packet, and reserved bits that are not 0",
    },
    OptionRow {
        name: "fields",
        spelling: Spelling::Name,
        value: Some("COLUMNS"),
        group: "Lines",
        help: "print the values of COLUMNS, as frame.number,vlan.vid,eth.src, with tabs; more than one value with commas",
    },
    OptionRow {
        name: "header",
        spelling: Spelling::Name,
        value: None,
        group: "Lines",
        help: "with --fields, print a line of the names first",
    },
    OptionRow {
        name: "stats",
        spelling: Spelling::Name,
        value: None,
        group: "Lines",
        help: "count packets and bytes by the values of COLUMNS, or without --fields of headers, VLANs, types, faults and ARP senders",
    },
    OptionRow {
        name: "by",
        spelling: Spelling::Name,
        value: Some("COLUMNS"),
        group: "Lines",
        help: "with --stats, count by the values of all COLUMNS together, as arp.spa,arp.sha",
    },
    OptionRow {
        name: "merge",
        spelling: Spelling::Name,
        value: None,
        group: "Lines",
        help: "add up counts that --stats has printed, which are read from standard input",
    },
    OptionRow {
        name: "status-on-fault",
        spelling: Spelling::Name,
        value: Some("yes|no"),
        group: "Lines",
        help: "exit with 1 if headers of a packet are wrong or cut: yes, as ever, or no",
    },
    OptionRow {
        name: "write",
        spelling: Spelling::Name,
        value: None,
        group: "Copies",
        help: "write the capture itself to standard output, of one FILE at most, without the other packets",
    },
    OptionRow {
        name: "output",
        spelling: Spelling::Letter('w'),
        value: Some("COPY"),
        group: "Copies",
        help: "write it to the file COPY, which changes only once all is written; without --write, too",
    },
    OptionRow {
        name: "cut-to-headers",
        spelling: Spelling::Name,
        value: None,
        group: "Copies",
        help: "with --write, cut each packet where its link-layer headers end",
    },
    OptionRow {
        name: "pop-vlan",
        spelling: Spelling::Name,
        value: None,
        group: "Copies",
        help: "with --write, take the VLAN tag after the link's header off each frame",
    },
    OptionRow {
        name: "push-vlan",
        spelling: Spelling::Name,
        value: Some("TPID:ID"),
        group: "Copies",
        help: "with --write, put a VLAN tag after the link's header, as 0x8100:5",
    },
    OptionRow {
        name: "set-vlan",
        spelling: Spelling::Name,
        value: Some("A:B"),
        group: "Copies",
        help: "with --write, give the outermost VLAN tag with identifier A identifier B",
    },
    OptionRow {
        name: "help",
        spelling: Spelling::Both('h'),
        value: None,
        group: "",
        help: "print this text",
    },
    OptionRow {
        name: "version",
        spelling: Spelling::Both('V'),
        value: None,
        group: "",
        help: "print the version",
    },
];
