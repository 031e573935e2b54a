//! `ether_capture` on the standard streams and the file system.
//!
//! Written by hand, not proved: `crates/ether_capture/src/main.rt` takes them from the runtime of Rattle.
#![cfg_attr(all(target_os = "linux", target_env = "gnu"), no_main)]

use ether_tools::ending::{Ended, Ending};
use ether_tools::ether_capture::capture_files::CaptureFiles;
use ether_tools::ether_capture::memory::Global;
use ether_tools::ether_capture::program::run_program;
use ether_tools::ether_capture::progress_line::{Gauge, Meter};
use ether_tools::ether_files::{CopyFiles, Form, OwnOutput};
use ether_tools::ether_stream::LastLine;
use ether_tools::ether_text::{Noted, tell_failure};
use ether_tools::gzip::Unpacked;
use ether_tools::reasons::{Messages, Reasons};
use ether_tools::streams::{arguments, input, output};
use std::io::{self, Write};

ether_tools::program!(run);

/// The program on the standard streams. Returns its exit status.
fn run() -> u8 {
    let (input, output) = match (input(), output()) {
        (Ok(input), Ok(output)) => (input, output),
        (input, output) => {
            tell_failure("ether_capture", None, input.err().as_ref(), output.err().as_ref(), &mut io::stderr());
            return 4;
        }
    };
    let args = arguments();
    let unread = args.as_ref().err().map(|error| error.kind().into());
    let ending = Ending::watched();
    let (gauge, reasons) = (Gauge::default(), Reasons::default());
    let own = OwnOutput::new();
    let guarded = own.guard(input, |file| Ended::new(file, &ending));
    let mut input = Noted::new(Unpacked::new(Meter::new(guarded, None, &gauge)));
    let mut output = Noted::new(output);
    let captures = CaptureFiles { gauge: &gauge, ending: &ending, reasons: &reasons, output: own };
    let mut copies = CopyFiles::new(&ending, Form::Capture);
    let status = run_program::<io::Sink, _, _, _, _, _>(
        args,
        Global,
        &captures,
        &mut copies,
        &mut input,
        &mut output,
        &mut Messages::new(io::stderr(), &reasons, &ending),
    );
    let (input, output) = (input.error(), output.error());
    if ending.has_cut() {
        return end_by_signal(&ending, &copies, output);
    }
    let is_stream = unread.is_some() || input.is_some() || output.is_some();
    if status == 4 && is_stream {
        tell_failure("ether_capture", unread.as_ref(), input, output, &mut io::stderr());
    }
    status
}

/// Says that a signal has ended the run, and what could not be written then. Returns the exit status.
fn end_by_signal(ending: &Ending, copies: &CopyFiles<'_>, output: Option<&io::Error>) -> u8 {
    let mut messages = io::stderr();
    let status = ending.tell("ether_capture", &mut messages);
    if output.is_some() {
        tell_failure("ether_capture", None, None, output, &mut messages);
        return 4;
    }
    let Some((name, fault)) = copies.lost() else {
        return status;
    };
    let _ = writeln!(messages, "{}", LastLine::NotWritten(name, fault));
    4
}
