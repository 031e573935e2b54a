//! What the program is asked for.

use crate::ether_make::settings::Settings;
use std::fmt;

/// What is asked for.
#[derive(Debug)]
pub enum Request<'a> {
    /// Frames.
    Make(Job<'a>),
    /// The help.
    Help,
    /// The version.
    Version,
}

/// Frames that are asked for.
#[derive(Debug)]
pub struct Job<'a> {
    /// How they are made and written.
    pub settings: Settings,
    /// The file that gets them, unless standard output does.
    pub output: Option<&'a str>,
    /// The names of the files with lines. If there are none, standard input has the lines.
    pub files: Vec<&'a str>,
}

/// An option whose value is a number.
#[derive(Clone, Copy, PartialEq, Eq, Debug)]
pub enum NumberOption {
    /// How many frames are made.
    Count,
    /// What random numbers are drawn from.
    Seed,
    /// How many frames a second has. It is not 0.
    Rate,
}

/// What is wrong with words.
#[derive(Clone, Copy, Debug)]
pub enum Usage<'a> {
    /// No option has this name or letter.
    Unknown(&'a str),
    /// This option lacks its value.
    NoValue(&'a str),
    /// The value of this option is no such number.
    Value(NumberOption, &'a str),
    /// Words do not go together, as an option that is there twice.
    Words,
}

/// Why words ask for nothing.
#[derive(Clone, Copy, Debug)]
pub enum RequestError<'a> {
    /// They are wrong.
    Usage(Usage<'a>),
    /// There is no memory.
    Memory,
}

impl fmt::Display for NumberOption {
    fn fmt(&self, f: &mut fmt::Formatter<'_>) -> fmt::Result {
        f.write_str(match self {
            NumberOption::Count => "--count",
            NumberOption::Seed => "--seed",
            NumberOption::Rate => "--rate",
        })
    }
}

impl fmt::Display for Usage<'_> {
    fn fmt(&self, f: &mut fmt::Formatter<'_>) -> fmt::Result {
        match self {
            Usage::Unknown(word) => write!(f, "{word}: there is no such option; try --help"),
            Usage::NoValue(word) => write!(f, "{word}: the value is missing; try --help"),
            Usage::Value(NumberOption::Rate, text) => {
                write!(f, "--rate: {text} is no number from 1 on")
            }
            Usage::Value(option, text) => write!(f, "{option}: {text} is no number from 0 on"),
            Usage::Words => write!(f, "these words do not go together; try --help"),
        }
    }
}
