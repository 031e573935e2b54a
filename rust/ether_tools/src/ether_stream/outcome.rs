//! How the program ends: what a run found or why it stopped, the exit status of each, and the last line.

use crate::ether_stream::about::{HELP, VERSION};
use crate::ether_stream::messages::{
    BZIP2, GZIP, LZ4, NO_MEMORY, NOT_COUNTS, NOT_EDITED, OTHER_VERSION, PCAP_VARIANT, PROGRAM,
    SELECT, STANDARD_INPUT, TRY_HELP, UNREADABLE, XZ, ZSTD,
};
use crate::ether_stream::{NoMemory, Usage};
use crate::ether_files::{OpenFault, WriteFault};
use etherpeel::ether_filter::FilterError;
use etherpeel::ether_output::OutputFault;
use etherpeel::ether_pcap::{CaptureError, CaptureFault, FileHeaderError};
use crate::ether_text::{InputFault, Verdict};
use std::fmt;

/// A sentence that names a program for a file that this crate can't read, by its first four bytes or its version; or
/// nothing.
fn hint(error: &CaptureError) -> &'static str {
    let CaptureError::File(error) = error else {
        return "";
    };
    match error {
        FileHeaderError::Len { .. } => "",
        FileHeaderError::Magic(number) => magic_hint(*number),
        FileHeaderError::Version { .. } => OTHER_VERSION,
    }
}

/// The same for a file with these first four bytes.
fn magic_hint(number: u32) -> &'static str {
    match number {
        0x1F8B_0000..=0x1F8B_FFFF => GZIP,
        0x28B5_2FFD => ZSTD,
        0xFD37_7A58 => XZ,
        0x425A_6800..=0x425A_68FF => BZIP2,
        0x0422_4D18 => LZ4,
        0xA1B2_CD34 | 0x34CD_B2A1 => PCAP_VARIANT,
        _ => "",
    }
}

/// Why a run stopped before the end of its input.
#[derive(Debug)]
pub enum RunFault {
    /// The capture can't be read further. An offset above `usize::MAX` is given as `usize::MAX`.
    Capture(CaptureFault),
    /// The packet at this offset is to be edited, and can't be.
    NotEdited(usize),
    /// The reader failed, or did not end.
    Input,
    /// The writer failed.
    Output,
    /// Memory for a record or block was refused.
    Memory,
}

impl From<InputFault> for RunFault {
    fn from(_fault: InputFault) -> RunFault {
        RunFault::Input
    }
}

impl From<OutputFault> for RunFault {
    fn from(_fault: OutputFault) -> RunFault {
        RunFault::Output
    }
}

impl From<NoMemory> for RunFault {
    fn from(_fault: NoMemory) -> RunFault {
        RunFault::Memory
    }
}

/// The exit status of a run.
///
/// <details><summary>Contract</summary>
///
/// ```text
/// ensures { result ≡ exit_status outcome.now }
/// ```
///
/// </details>
pub fn status_of(outcome: &Result<Verdict, RunFault>) -> u8 {
    match outcome {
        Ok(Verdict::AllAccepted) => 0,
        Ok(Verdict::SomeRefused) => 1,
        Err(RunFault::Capture(_) | RunFault::NotEdited(_)) => 3,
        Err(RunFault::Input | RunFault::Output) => 4,
        Err(RunFault::Memory) => 5,
    }
}

/// How the program has answered its arguments.
#[derive(Debug)]
pub enum Outcome<'a> {
    /// Standard input was read, or the arguments could not be read: how that ended.
    Run(Result<Verdict, RunFault>),
    /// The only file was read.
    File {
        /// Its name.
        name: &'a str,
        /// How the run ended.
        end: Result<Verdict, RunFault>,
    },
    /// Several captures were read: the greatest exit status of these, unless the output failed.
    Files(Result<u8, OutputFault>),
    /// The file can't be opened.
    NotOpened {
        /// Its name.
        name: &'a str,
        /// Why it can't.
        fault: OpenFault,
    },
    /// A copy can't be written to the file.
    NotWritten {
        /// Its name.
        name: &'a str,
        /// Why it can't.
        fault: WriteFault,
    },
    /// The line of this number of standard input is not that of a count.
    NotCounts(usize),
    /// The text of the filter is not an expression.
    NoFilter(FilterError),
    /// The arguments ask how the program is used.
    Help,
    /// The arguments ask for the version.
    Version,
    /// The arguments are wrong.
    Usage(Usage<'a>),
    /// Memory for the arguments was refused.
    NoMemory,
}

/// Why a capture was not read to its end.
#[derive(Clone, Copy, Debug)]
pub enum Reason<'a> {
    /// It can't be read further.
    Fault(&'a CaptureFault),
    /// The packet at this offset can't be edited.
    NotEdited(usize),
    /// Its reader failed.
    Input,
    /// Memory was refused.
    Memory,
}

impl fmt::Display for Reason<'_> {
    fn fmt(&self, f: &mut fmt::Formatter<'_>) -> fmt::Result {
        match self {
            Reason::Fault(fault) => {
                let offset = fault.offset;
                let error = &fault.error;
                let hint = hint(error);
                write!(f, "byte {offset}: {error}{hint}")
            }
            Reason::NotEdited(offset) => write!(f, "byte {offset}: {NOT_EDITED}"),
            Reason::Input => write!(f, "{UNREADABLE}"),
            Reason::Memory => write!(f, "{NO_MEMORY}"),
        }
    }
}

/// A line of the program about a run or its arguments.
#[derive(Clone, Copy, Debug)]
pub enum LastLine<'a> {
    /// The capture of this name was not read to its end.
    Stopped(&'a str, Reason<'a>),
    /// The file of this name can't be opened.
    NotOpened(&'a str, OpenFault),
    /// A copy can't be written to the file of this name.
    NotWritten(&'a str, WriteFault),
    /// The line of this number of standard input is not that of a count.
    NotCounts(usize),
    /// How the program is used.
    Help,
    /// The version.
    Version,
    /// The arguments are wrong.
    Usage(Usage<'a>),
    /// The text of the filter is not an expression.
    NoFilter(&'a FilterError),
    /// Memory for the arguments was refused.
    NoMemory,
}

impl fmt::Display for LastLine<'_> {
    fn fmt(&self, f: &mut fmt::Formatter<'_>) -> fmt::Result {
        match self {
            LastLine::Stopped(name, reason) => write!(f, "{name}: {reason}"),
            LastLine::NotOpened(name, fault) => write!(f, "{name}: {fault}"),
            LastLine::NotWritten(name, fault) => write!(f, "{name}: {fault}"),
            LastLine::NotCounts(number) => write!(
                f,
                "{STANDARD_INPUT}: line {number}: {NOT_COUNTS}"
            ),
            LastLine::Help => write!(f, "{HELP}"),
            LastLine::Version => write!(f, "{VERSION}"),
            LastLine::Usage(usage) => write!(f, "{PROGRAM}: {usage}; {TRY_HELP}"),
            LastLine::NoFilter(error) => write!(f, "{SELECT}: {error}"),
            LastLine::NoMemory => write!(f, "{PROGRAM}: {NO_MEMORY}"),
        }
    }
}

/// The line that the program prints last, if there is one.
///
/// <details><summary>Contract</summary>
///
/// ```text
/// ensures { option_map last_line_text result ≡ last_text outcome.now }
/// ```
///
/// </details>
pub fn last_line<'a>(outcome: &'a Outcome<'_>) -> Option<LastLine<'a>> {
    match outcome {
        Outcome::Run(end) => line_of_input(end),
        Outcome::Files(_) => None,
        Outcome::File { name, end } => line_of_run(name, end),
        Outcome::NotOpened { name, fault } => Some(LastLine::NotOpened(name, *fault)),
        Outcome::NotWritten { name, fault } => Some(LastLine::NotWritten(name, *fault)),
        Outcome::NotCounts(number) => Some(LastLine::NotCounts(*number)),
        Outcome::NoFilter(error) => Some(LastLine::NoFilter(error)),
        Outcome::Help => Some(LastLine::Help),
        Outcome::Version => Some(LastLine::Version),
        Outcome::Usage(usage) => Some(LastLine::Usage(*usage)),
        Outcome::NoMemory => Some(LastLine::NoMemory),
    }
}

/// The line that says why standard input was not read to its end, if it was not. There is no such line for
/// [`RunFault::Input`]: `main` writes the system's reason.
///
/// <details><summary>Contract</summary>
///
/// ```text
/// ensures { option_map last_line_text result ≡ text_of_input end.now }
/// ```
///
/// </details>
pub fn line_of_input(end: &Result<Verdict, RunFault>) -> Option<LastLine<'_>> {
    match end {
        Err(RunFault::Input) => None,
        _ => line_of_run(STANDARD_INPUT, end),
    }
}

/// The line that says why the capture of this name was not read to its end, if it was not.
fn line_of_run<'a>(name: &'a str, end: &'a Result<Verdict, RunFault>) -> Option<LastLine<'a>> {
    match end {
        Err(RunFault::Capture(fault)) => Some(LastLine::Stopped(name, Reason::Fault(fault))),
        Err(RunFault::NotEdited(offset)) => {
            Some(LastLine::Stopped(name, Reason::NotEdited(*offset)))
        }
        Err(RunFault::Input) => Some(LastLine::Stopped(name, Reason::Input)),
        Err(RunFault::Memory) => Some(LastLine::Stopped(name, Reason::Memory)),
        Ok(_) | Err(RunFault::Output) => None,
    }
}

/// How one of several captures has ended.
#[derive(Debug)]
pub enum FileEnd {
    /// Its file can't be opened.
    NotOpened(OpenFault),
    /// It was read: how its run ended.
    Read(Result<Verdict, RunFault>),
}

/// The line that says why one of several captures was not read to its end, if it was not.
///
/// <details><summary>Contract</summary>
///
/// ```text
/// ensures { option_map last_line_text result ≡ text_of_file name.now end.now }
/// ```
///
/// </details>
pub fn line_of_file<'a>(name: &'a str, end: &'a FileEnd) -> Option<LastLine<'a>> {
    match end {
        FileEnd::NotOpened(fault) => Some(LastLine::NotOpened(name, *fault)),
        FileEnd::Read(end) => line_of_run(name, end),
    }
}

/// The exit status of one of several captures.
///
/// <details><summary>Contract</summary>
///
/// ```text
/// ensures { result ≡ status_of_file end.now }
/// ```
///
/// </details>
pub fn status_of_file(end: &FileEnd) -> u8 {
    match end {
        FileEnd::NotOpened(_) => status_of(&Err(RunFault::Input)),
        FileEnd::Read(end) => status_of(end),
    }
}

/// Tests that the last line is a message, which is not printed where lines or a copy are. All are messages but the
/// usage and the version.
///
/// <details><summary>Contract</summary>
///
/// ```text
/// ensures { result ≡ is_message outcome.now }
/// ```
///
/// </details>
pub fn is_message(outcome: &Outcome<'_>) -> bool {
    !matches!(outcome, Outcome::Help | Outcome::Version)
}

/// The exit status of the program: that of its outcome, or if the last line was not printed and is not a message,
/// that of failed output.
///
/// <details><summary>Contract</summary>
///
/// ```text
/// ensures { result ≡ status_of_program outcome.now is_printed }
/// ```
///
/// </details>
pub fn program_status(outcome: &Outcome<'_>, is_printed: bool) -> u8 {
    if !is_printed && !is_message(outcome) {
        return status_of(&Err(RunFault::Output));
    }
    match outcome {
        Outcome::Run(end) | Outcome::File { end, .. } => status_of(end),
        Outcome::Files(Ok(status)) => *status,
        Outcome::Files(Err(_)) => status_of(&Err(RunFault::Output)),
        Outcome::NotOpened { .. } => status_of(&Err(RunFault::Input)),
        Outcome::NotWritten { .. } => status_of(&Err(RunFault::Output)),
        Outcome::NotCounts(_) => 3,
        Outcome::Help | Outcome::Version => 0,
        Outcome::Usage(_) | Outcome::NoFilter(_) => 2,
        Outcome::NoMemory => status_of(&Err(RunFault::Memory)),
    }
}
