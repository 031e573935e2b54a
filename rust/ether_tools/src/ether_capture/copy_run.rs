//! A run whose copy goes to the file of its name.

use crate::ether_capture::captures::Captures;
use crate::ether_capture::run_input::run_input;
use crate::ether_files::{Copies, WriteFault};
use crate::ether_stream::{Outcome, RunFault, Task};
use crate::ether_text::{Source, Verdict};
use crate::ether_capture::memory::Global;

/// The name of standard input among those of files.
const STANDARD_INPUT: &str = "-";

/// Copies standard input to the file of a name.
///
/// <details><summary>Contract</summary>
///
/// ```text
/// ensures { HasCopiedInput R.can_fail (keeps K.can_refuse K.Part.Sink.can_fail (K.keeps_input copies.old))
///     (task_view task.now)
///     output.entry.now (R.remaining reader.old) (R.remaining reader.new) (K.file copies.old output.entry.now)
///     (K.file copies.new output.entry.now) result }
/// ```
///
/// </details>
pub fn copy_input<'a, K: Copies, R: Source>(
    task: &Task<'_>,
    output: &'a str,
    alloc: Global,
    copies: &mut K,
    reader: &mut R,
) -> Outcome<'a> {
    let is_kept = copies.keeps_input();
    match copy_to(task, STANDARD_INPUT, is_kept, output, alloc, copies, reader) {
        Ok(end) => Outcome::Run(end),
        Err(fault) => Outcome::NotWritten {
            name: output,
            fault,
        },
    }
}

/// Copies the capture of a name to the file of another name, or of the same one.
///
/// <details><summary>Contract</summary>
///
/// ```text
/// ensures { HasCopiedFile (names (C.has captures.now) C.can_refuse C.Input.Source.can_fail)
///     (keeps K.can_refuse K.Part.Sink.can_fail (K.keeps_input copies.old)) (task_view task.now) name.entry.now
///     output.entry.now
///     (K.file copies.old output.entry.now) (K.file copies.new output.entry.now) result }
/// ```
///
/// </details>
pub fn copy_file<'a, C: Captures, K: Copies>(
    task: &Task<'_>,
    name: &'a str,
    output: &'a str,
    alloc: Global,
    captures: &C,
    copies: &mut K,
) -> Outcome<'a> {
    let mut input = match captures.open_named(name) {
        Ok(input) => input,
        Err(fault) => return Outcome::NotOpened { name, fault },
    };
    match copy_to(task, name, false, output, alloc, copies, &mut input) {
        Ok(end) => Outcome::File { name, end },
        Err(fault) => Outcome::NotWritten {
            name: output,
            fault,
        },
    }
}

/// Copies what a reader reads, the capture of the name `input` or standard input, to the file of a name. That gets the
/// copy when it is whole, and after a fault what was copied before if `is_kept`.
fn copy_to<K: Copies, R: Source>(
    task: &Task<'_>,
    input: &str,
    is_kept: bool,
    output: &str,
    alloc: Global,
    copies: &mut K,
    reader: &mut R,
) -> Result<Result<Verdict, RunFault>, WriteFault> {
    let mut part = copies.begin(output, &[input])?;
    let end = run_input(task, None, alloc, reader, &mut part).0;
    match end {
        Ok(verdict) => {
            copies.finish(output, part)?;
            Ok(Ok(verdict))
        }
        Err(RunFault::Output) => Err(copies.give_up(output, part, is_kept)),
        Err(fault) => {
            copies.break_off(output, part, is_kept)?;
            Ok(Err(fault))
        }
    }
}
