//! The options of the program.

/// An option of the program. Its texts are of a type that is a parameter: a definition can't cite a table of rows that
/// have references themselves.
///
/// `clap`'s arguments, what is said of wrong words, and the completions of shells are made of these rows, and
/// `tests/options.py --set` makes the lines of `--help` of them.
#[derive(Clone, Copy, Debug)]
pub struct OptionRow<Text> {
    /// Its name in the program's code.
    pub name: Text,
    /// How it is written.
    pub spelling: Spelling,
    /// The word for its value, if it has one.
    pub value: Option<Text>,
    /// The heading above its line in the help. The last options have none.
    pub group: Text,
    /// What it does.
    pub help: Text,
}

/// How an option is written.
#[derive(Clone, Copy, Debug)]
pub enum Spelling {
    /// By its name, after two hyphens.
    Name,
    /// By a letter, after one hyphen.
    Letter(char),
    /// By its name or a letter. Such options say something of the program, and `clap` adds them.
    Both(char),
}

impl Spelling {
    /// Tests that an option is written by its name.
    pub(in crate::ether_make) fn is_word(self) -> bool {
        matches!(self, Spelling::Name | Spelling::Both(_))
    }

    /// Tests that an option is written by this letter.
    pub(in crate::ether_make) fn has_letter(self, it: u8) -> bool {
        match self {
            Spelling::Name => false,
            Spelling::Letter(letter) | Spelling::Both(letter) => letter == char::from(it),
        }
    }

    /// Tests that `clap` adds an option.
    pub(in crate::ether_make) fn is_added(self) -> bool {
        matches!(self, Spelling::Both(_))
    }
}

/// All options, in the order of the help.
pub(in crate::ether_make) fn all_options() -> &'static [OptionRow<&'static str>] {
    &OPTIONS
}

/// The table of options, in the order of the help.
pub static OPTIONS: [OptionRow<&str>; 9] = [
    OptionRow {
        name: "pad",
        spelling: Spelling::Name,
        value: None,
        group: "Frames",
        help: "add zeros to frames of Ethernet that have fewer than 60 bytes, up to 60",
    },
    OptionRow {
        name: "fcs",
        spelling: Spelling::Name,
        value: None,
        group: "Frames",
        help: "append its check sequence to each frame of Ethernet",
    },
    OptionRow {
        name: "count",
        spelling: Spelling::Name,
        value: Some("N"),
        group: "Frames",
        help: "make N frames of each line",
    },
    OptionRow {
        name: "seed",
        spelling: Spelling::Name,
        value: Some("N"),
        group: "Frames",
        help: "draw the random numbers of ranges from N",
    },
    OptionRow {
        name: "rate",
        spelling: Spelling::Name,
        value: Some("N"),
        group: "Frames",
        help: "let N frames follow each other in a second",
    },
    OptionRow {
        name: "hex",
        spelling: Spelling::Name,
        value: None,
        group: "Output",
        help: "write each frame as a line of hexadecimal digits, as ether_tool reads it",
    },
    OptionRow {
        name: "output",
        spelling: Spelling::Letter('w'),
        value: Some("FILE"),
        group: "Output",
        help: "write to FILE, in place of standard output",
    },
    OptionRow {
        name: "help",
        spelling: Spelling::Both('h'),
        value: None,
        group: "",
        help: "print this text",
    },
    OptionRow {
        name: "version",
        spelling: Spelling::Both('V'),
        value: None,
        group: "",
        help: "print the version",
    },
];
