//! How a run ends, and the exit status of each ending.

use crate::ether_text::InputFault;
pub use crate::ether_text::Verdict;
use crate::ether_text::tool::mode::Usage;
use etherpeel::ether_output::OutputFault;
use std::fmt;
use thiserror::Error;

/// Why a run stopped before the end of its input.
#[derive(PartialEq, Eq, Debug, Error)]
pub enum ToolFault {
    /// The line with this number names no frame. Lines are counted from 1, up to `u64::MAX`; later lines have that
    /// number too.
    #[error("line {0}: bad line")]
    BadLine(u64),
    /// The reader failed, or did not end within `u64::MAX` reads.
    #[error("input failed")]
    Input,
    /// The writer failed.
    #[error("output failed")]
    Output,
}

impl From<InputFault> for ToolFault {
    fn from(_fault: InputFault) -> ToolFault {
        ToolFault::Input
    }
}

impl From<OutputFault> for ToolFault {
    fn from(_fault: OutputFault) -> ToolFault {
        ToolFault::Output
    }
}

/// The exit status of a run: 0 if all frames were accepted, 1 if one was refused, 3 after a bad line, 4 if a stream
/// failed.
///
/// <details><summary>Contract</summary>
///
/// ```text
/// ensures { result ≡ exit_status outcome.now }
/// ```
///
/// </details>
pub fn status_of(outcome: &Result<Verdict, ToolFault>) -> u8 {
    match outcome {
        Ok(Verdict::AllAccepted) => 0,
        Ok(Verdict::SomeRefused) => 1,
        Err(ToolFault::BadLine(_)) => 3,
        Err(ToolFault::Input | ToolFault::Output) => 4,
    }
}

/// The line that is printed if the arguments are wrong, without its LF.
pub const USAGE: &str = "usage: ether_tool eth | fcs | sll | type XXXX | feed [limit N]";

/// What the program says of a line that names no frame, after the number of that line.
pub(in crate::ether_text) const BAD_LINE: &str = "bad line";

/// A line that the program prints after the lines of all frames.
#[derive(Clone, Copy, PartialEq, Eq, Debug)]
pub enum LastLine {
    /// The arguments are wrong.
    Usage,
    /// The line with this number names no frame.
    BadLine(u64),
}

impl fmt::Display for LastLine {
    fn fmt(&self, f: &mut fmt::Formatter<'_>) -> fmt::Result {
        match *self {
            LastLine::Usage => write!(f, "{USAGE}"),
            LastLine::BadLine(number) => write!(f, "line {number}: {BAD_LINE}"),
        }
    }
}

/// The outcome of a run, or that the arguments are wrong.
pub type Outcome = Result<Result<Verdict, ToolFault>, Usage>;

/// The line that the program prints last: the usage, or the number of a bad line. `None` after all other outcomes.
///
/// <details><summary>Contract</summary>
///
/// ```text
/// ensures { option_map last_line_text result ≡ last_text outcome.now }
/// ```
///
/// </details>
pub fn last_line(outcome: &Outcome) -> Option<LastLine> {
    match outcome {
        Ok(Err(ToolFault::BadLine(number))) => Some(LastLine::BadLine(*number)),
        Ok(_) => None,
        Err(Usage) => Some(LastLine::Usage),
    }
}

/// The exit status of the program: 2 if the arguments are wrong, otherwise that of its run. If `is_printed` is false,
/// since the last line could not be printed, it is 4, that of failed output.
///
/// <details><summary>Contract</summary>
///
/// ```text
/// ensures { result ≡ status_of_program outcome.now is_printed }
/// ```
///
/// </details>
pub fn program_status(outcome: &Outcome, is_printed: bool) -> u8 {
    if !is_printed {
        return status_of(&Err(ToolFault::Output));
    }
    match outcome {
        Ok(outcome) => status_of(outcome),
        Err(Usage) => 2,
    }
}
