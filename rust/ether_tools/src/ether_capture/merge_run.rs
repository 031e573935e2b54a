//! Adds up the counts that standard input has.

use crate::ether_capture::merger::{MergeFault, Merger};
use crate::ether_capture::statistics_format::StatisticsFormat;
use etherpeel::ether_output::{OutputBuffer, Sink};
use crate::ether_stream::{Outcome, RunFault};
use crate::ether_text::{Source, Verdict};
use crate::ether_capture::memory::Global;

/// Adds up counts that were printed, and writes their sums once all are read.
///
/// <details><summary>Contract</summary>
///
/// ```text
/// ensures merged { HasMerged R.can_fail W.can_fail format (R.remaining reader.old) (R.remaining reader.new)
///     (W.contents writer.old) (W.contents writer.new) result }
/// ensures flushed { IfGone result (Settles W.is_flushed writer.old writer.new) }
/// ```
///
/// </details>
pub fn merge_counts<'a, R: Source, W: Sink>(
    format: StatisticsFormat,
    alloc: Global,
    reader: &mut R,
    writer: &mut W,
) -> Outcome<'a> {
    let mut counts = Merger::new(alloc);
    match read_counts(&mut counts, reader) {
        Ok(()) => {}
        Err(MergeFault::Line(number)) => return Outcome::NotCounts(number),
        Err(MergeFault::Input) => return Outcome::Run(Err(RunFault::Input)),
        Err(MergeFault::Memory) => return Outcome::NoMemory,
    }
    let mut out = OutputBuffer::new(writer);
    counts.write(format, &mut out);
    match out.flush() {
        Ok(()) => Outcome::Run(Ok(Verdict::AllAccepted)),
        Err(_) => Outcome::Run(Err(RunFault::Output)),
    }
}

/// Reads all lines, and adds up their counts.
fn read_counts<R: Source>(counts: &mut Merger, reader: &mut R) -> Result<(), MergeFault> {
    let mut chunk = [0; 16_384];
    for _ in 0..u64::MAX {
        let len = reader.read_some(&mut chunk)?;
        if len == 0 {
            return counts.finish();
        }
        counts.take(&chunk[..len])?;
    }
    Err(MergeFault::Input)
}
