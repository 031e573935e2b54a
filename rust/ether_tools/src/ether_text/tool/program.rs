//! The program, over any arguments, source and sink.

use crate::ether_text::Source;
use crate::ether_text::tool::command::{Command, command_of_args};
use crate::ether_text::tool::outcome::{
    BAD_LINE, LastLine, Outcome, ToolFault, USAGE, last_line, program_status,
};
use crate::ether_text::tool::run::run_command;
use etherpeel::ether_output::{OutputBuffer, Sink, write_decimal};
use std::{env, io};

/// Runs the command that the arguments name, prints the last line if there is one, and returns the exit status.
///
/// If the arguments name no command, nothing is read, the usage is printed, and the status is 2. If the arguments
/// can't be read, nothing else is read, and the status is 4, as for a fault of the input.
///
/// <details><summary>Contract</summary>
///
/// ```text
/// ensures served { HasServed (words_of args) (R.remaining reader.old) (R.remaining reader.new)
///     (W.contents writer.old) (W.contents writer.new) result }
/// ensures failed { result ≡ 4 → ((words_of args ≡ None)
///     ⊎ (R.can_fail ⊎ IsEndless (R.remaining reader.old) (R.remaining reader.new))) ⊎ W.can_fail }
/// ensures flushed { result ≢ 4 → W.is_flushed writer.new }
/// ```
///
/// </details>
pub fn run_program<R: Source, W: Sink>(
    args: io::Result<env::Args>,
    reader: &mut R,
    writer: &mut W,
) -> u8 {
    let outcome = run_args(args, reader, writer);
    let is_printed = print_last_line(&outcome, writer);
    program_status(&outcome, is_printed)
}

/// Runs the command that the arguments name.
fn run_args<R: Source, W: Sink>(
    args: io::Result<env::Args>,
    reader: &mut R,
    writer: &mut W,
) -> Outcome {
    let Ok(args) = args else {
        return Ok(Err(ToolFault::Input));
    };
    match command_of_args(args) {
        Ok((mode, limit)) => Ok(run_command(Command { mode, limit }, reader, writer)),
        Err(usage) => Err(usage),
    }
}

/// Prints the last line, if there is one, and returns whether the writer took it.
fn print_last_line<W: Sink>(outcome: &Outcome, writer: &mut W) -> bool {
    let Some(line) = last_line(outcome) else {
        return true;
    };
    let mut out = OutputBuffer::new(writer);
    write_last_line(line, &mut out);
    out.flush().is_ok()
}

/// Writes the last line and an LF.
fn write_last_line<W: Sink>(line: LastLine, out: &mut OutputBuffer<'_, W>) {
    match line {
        LastLine::Usage => out.append(USAGE.as_bytes()),
        LastLine::BadLine(number) => {
            out.append(b"line ");
            write_decimal(out, number);
            out.append(b": ");
            out.append(BAD_LINE.as_bytes());
        }
    }
    out.append(b"\n");
}
