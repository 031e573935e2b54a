//! Makes frames from objects of JSON, one in each line, and writes them as a capture or as lines of hexadecimal digits.
//!
//! Written by hand, not proved: `crates/ether_make/src/main.rt` takes the streams and files from the runtime of Rattle.
#![cfg_attr(all(target_os = "linux", target_env = "gnu"), no_main)]

use ether_tools::ending::{Ended, Ending, Written};
use ether_tools::ether_files::{Copies, CopyFiles, Form, OwnOutput, WriteFault};
use ether_tools::ether_make::about::{HELP, VERSION};
use ether_tools::ether_make::input_files::{FileFault, run_files};
use ether_tools::ether_make::memory::Global;
use ether_tools::ether_make::named_files::NamedFiles;
use ether_tools::ether_make::options::request_of_words;
use ether_tools::ether_make::program::{RunFault, status_of};
use ether_tools::ether_make::request::{Job, Request, RequestError};
use ether_tools::ether_make::settings;
use ether_tools::streams::{arguments, input, output};
use std::io::{self, BufRead, BufReader, BufWriter, Error, ErrorKind, Write};

ether_tools::program!(run);

/// The name of standard input among those of files.
const INPUT_WORD: &str = "-";

/// The program on the standard streams. Returns its exit status.
fn run() -> u8 {
    let Ok(args) = arguments() else {
        return say("an argument is not UTF-8", 4);
    };
    let words: Vec<String> = args.collect();
    match request_of_words(&words) {
        Ok(Request::Make(job)) => make(&job),
        Ok(Request::Help) => written(HELP),
        Ok(Request::Version) => written(&format!("{VERSION}\n")),
        Err(RequestError::Usage(usage)) => say(&usage.to_string(), 2),
        Err(RequestError::Memory) => say("out of memory", 5),
    }
}

/// Says something on standard error, and returns the exit status.
fn say(text: &str, status: u8) -> u8 {
    let _ = writeln!(io::stderr(), "ether_make: {text}");
    status
}

/// Writes a text, and returns the exit status.
fn written(text: &str) -> u8 {
    match output().and_then(|mut output| output.write_all(text.as_bytes())) {
        Ok(()) => 0,
        Err(error) => unwritten(&error),
    }
}

/// Says why standard output was not written, unless nobody reads it any more, and returns the exit status.
fn unwritten(error: &Error) -> u8 {
    if error.kind() == ErrorKind::BrokenPipe { 4 } else { say(&format!("standard output: {error}"), 4) }
}

/// Says why the file of a name can't be written, and returns the exit status.
fn not_written(name: &str, fault: WriteFault) -> u8 {
    say(&format!("{name}: {fault}"), 4)
}

/// Makes the frames that are asked for, and returns the exit status.
fn make(job: &Job<'_>) -> u8 {
    let ending = Ending::watched();
    match job.output {
        None | Some(INPUT_WORD) => {
            let made = output().map_err(output_fault).and_then(|output| make_to(job, output, &ending));
            made.map_or_else(|fault| tell(&fault, &ending), |()| 0)
        }
        Some(name) => make_file(job, name, &ending),
    }
}

/// Makes frames for the file of a name, and returns the exit status. The file gets all of them, or after a fault those before
/// it, if they were made of standard input that can't be read again, or if a signal has ended the run.
fn make_file(job: &Job<'_>, name: &str, ending: &Ending) -> u8 {
    let form = match job.settings.form {
        settings::Form::Capture => Form::Capture,
        settings::Form::Hex => Form::Lines,
    };
    let mut files = CopyFiles::new(ending, form);
    let inputs = inputs_of(job);
    let mut part = match files.begin(name, inputs) {
        Ok(part) => part,
        Err(fault) => return not_written(name, fault),
    };
    let made = make_to(job, &mut part, ending);
    let is_kept = (ending.has_cut() || files.keeps_input() && inputs.contains(&INPUT_WORD)) && part.has_frames();
    let (status, ended) = match made {
        Ok(()) => (0, files.finish(name, part)),
        Err(fault) if !part.has_frames() && !matches!(fault.fault, RunFault::Output(_)) => {
            files.discard(part);
            (tell(&fault, ending), Ok(()))
        }
        Err(fault) if matches!(fault.fault, RunFault::Output(_)) && !ending.has_cut() => {
            (4, Err(files.give_up(name, part, is_kept)))
        }
        Err(fault) => {
            let ended = files.break_off(name, part, is_kept);
            (if ended.is_ok() { tell(&fault, ending) } else { 4 }, ended)
        }
    };
    match (ended, files.lost()) {
        (Err(fault), _) => not_written(name, fault),
        (Ok(()), Some((name, fault))) => not_written(name, fault),
        (Ok(()), None) => status,
    }
}

/// The names of the inputs.
fn inputs_of<'a>(job: &'a Job<'a>) -> &'a [&'a str] {
    if job.files.is_empty() { &[INPUT_WORD] } else { job.files.as_slice() }
}

/// Makes the frames that are asked for, and writes them to an output.
fn make_to<'a, W: Write>(job: &'a Job<'a>, output: W, ending: &Ending) -> Result<(), FileFault<'a>> {
    let input = input().map_err(|error| FileFault { file: None, fault: RunFault::Input(error) })?;
    let mut reader = BufReader::new(Ended::new(input, ending));
    if let Some(fault) = own_output(inputs_of(job), &mut reader) {
        return Err(fault);
    }
    let mut writer = BufWriter::new(Written::new(output, ending));
    run_files(&NamedFiles { ending }, Global, &job.settings, job.files.as_slice(), &mut reader, &mut writer)
}

/// The first input that is standard output, too, and has something to read, if there is one: what is written would be read.
fn own_output<'a>(inputs: &[&'a str], reader: &mut impl BufRead) -> Option<FileFault<'a>> {
    let own = OwnOutput::new();
    let is_own = |input: &&&str| match **input {
        INPUT_WORD => own.is_input() && reader.fill_buf().is_ok_and(|bytes| !bytes.is_empty()),
        name => own.is_named(name),
    };
    let file = inputs.iter().find(is_own).copied()?;
    let fault = RunFault::Input(Error::other("it is the output, too"));
    Some(FileFault { file: Some(file).filter(|file| *file != INPUT_WORD), fault })
}

/// The fault of an output that can't be written.
fn output_fault<'a>(error: Error) -> FileFault<'a> {
    FileFault { file: None, fault: RunFault::Output(error) }
}

/// Says why not all frames were made, and returns the exit status.
fn tell(fault: &FileFault<'_>, ending: &Ending) -> u8 {
    if ending.has_cut() {
        return ending.tell("ether_make", &mut io::stderr());
    }
    match (&fault.fault, fault.file) {
        (RunFault::Output(error), _) => unwritten(error),
        (RunFault::Input(error), file) => say(&format!("{}: {error}", file.unwrap_or("standard input")), 4),
        (RunFault::Line(stop), Some(file)) => say(&format!("{file}: {stop}"), status_of(stop)),
        (RunFault::Line(stop), None) => say(&stop.to_string(), status_of(stop)),
    }
}
