//! A run with memory of the heap, in threads if that is asked for. Written by hand, not proved.
use crate::ether_capture::heap_memory::HeapMemory;
use crate::ether_capture::interface_buffer::InterfaceBuffer;
use crate::ether_capture::memory::Global;
use crate::ether_stream::run::run_counted;
use crate::ether_stream::{Buffers, Form, NoMemory, PacketCounts, RunFault, Task};
use crate::ether_text::{Source, Verdict};
use crate::jobs::run_lines;
use etherpeel::ether_output::Sink;
use std::num::NonZeroUsize;

/// Like [`run_counted`], with memory of the heap that is allocated first. If several jobs are asked for, so many threads
/// make the lines. A copy is made by one.
pub fn run_input<R: Source, W: Sink>(
    task: &Task,
    jobs: Option<NonZeroUsize>,
    alloc: Global,
    reader: &mut R,
    writer: &mut W,
) -> (Result<Verdict, RunFault>, PacketCounts) {
    let threads = jobs.map_or(1, NonZeroUsize::get);
    if let (Form::Lines(options), 2..) = (&task.form, threads) {
        if let Some(outcome) = run_lines(task, options, threads, reader, writer) {
            return outcome;
        }
    }
    match allocated(alloc) {
        Ok(buffers) => run_counted(task, buffers, reader, writer),
        Err(_) => (Err(RunFault::Memory), PacketCounts::none(task)),
    }
}

/// Memory for a run.
fn allocated(alloc: Global) -> Result<Buffers<HeapMemory, InterfaceBuffer>, NoMemory> {
    match InterfaceBuffer::new(alloc) {
        Ok(interfaces) => Buffers::new(HeapMemory::new(alloc), HeapMemory::new(alloc), interfaces),
        Err(_) => Err(NoMemory),
    }
}
