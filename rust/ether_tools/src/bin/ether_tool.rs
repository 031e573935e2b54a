//! Reads frames, one line of hexadecimal digits each, and prints the lines of the walk of each.
//!
//! Written by hand, not proved: `crates/ether_tool/src/main.rt` takes the streams from the runtime of Rattle.
#![cfg_attr(all(target_os = "linux", target_env = "gnu"), no_main)]

use ether_tools::ether_text::tool::about::about;
use ether_tools::ether_text::tool::program::run_program;
use ether_tools::ether_text::{Noted, tell_failure};
use ether_tools::streams::{arguments, input, output};
use etherpeel::ether_output::{OutputBuffer, Sink};
use std::{env, io};

ether_tools::program!(run);

/// The program on the standard streams. Returns its exit status.
fn run() -> u8 {
    let (input, output) = match (input(), output()) {
        (Ok(input), Ok(output)) => (input, output),
        (input, output) => {
            tell_failure("ether_tool", None, input.err().as_ref(), output.err().as_ref(), &mut io::stderr());
            return 4;
        }
    };
    let args = arguments();
    let unread = args.as_ref().err().map(|error| error.kind().into());
    let mut input = Noted::new(input);
    let mut output = Noted::new(output);
    let status = match about_of(arguments()) {
        Some(text) => tell(text, &mut output),
        None => run_program(args, &mut input, &mut output),
    };
    if status == 4 {
        let (input, output) = (input.error(), output.error());
        tell_failure("ether_tool", unread.as_ref(), input, output, &mut io::stderr());
    }
    status
}

/// What the program says of itself, if the arguments ask for that.
fn about_of(args: io::Result<env::Args>) -> Option<&'static str> {
    let words: Vec<String> = args.ok()?.skip(1).collect();
    let [word] = words.as_slice() else {
        return None;
    };
    about(&[word.as_str()])
}

/// Writes a text and an LF, and returns the exit status.
fn tell<W: Sink>(text: &str, writer: &mut W) -> u8 {
    let mut out = OutputBuffer::new(writer);
    out.append(text.as_bytes());
    out.append(b"\n");
    if out.flush().is_ok() { 0 } else { 4 }
}
