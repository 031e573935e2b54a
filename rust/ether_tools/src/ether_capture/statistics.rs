//! Counts the texts of rows.

use crate::ether_capture::grouping::Grouping;
use crate::ether_capture::journal::Journal;
use crate::ether_capture::rows::Rows;
use crate::ether_capture::statistics_format::StatisticsFormat;
use etherpeel::ether_output::{OutputBuffer, OutputFault, Sink};
use crate::ether_stream::RunFault;
use crate::ether_capture::memory::Global;
use std::marker::PhantomData;

/// A sink of rows, whose texts are counted: by themselves, or those of all columns together.
pub struct Statistics<J: Journal, G: Grouping> {
    journal: J,
    grouping: PhantomData<G>,
    rows: Rows,
    has_failed: bool,
}

impl<J: Journal, G: Grouping> Statistics<J, G> {
    /// No row is counted yet.
    ///
    /// <details><summary>Contract</summary>
    ///
    /// ```text
    /// ensures { J.Sink.contents result.journal ≡ known_if J.is_known }
    /// ```
    ///
    /// </details>
    pub fn new(alloc: Global) -> Self {
        Statistics {
            journal: J::start(),
            grouping: PhantomData,
            rows: Rows::new(alloc),
            has_failed: false,
        }
    }

    /// Tests that a row could not be counted, since memory was refused.
    ///
    /// <details><summary>Contract</summary>
    ///
    /// ```text
    /// ensures { result ≡ self.now.has_failed }
    /// ```
    ///
    /// </details>
    pub fn has_failed(&self) -> bool {
        self.has_failed
    }

    /// Writes a line for all packets, and for each text of a column, in the order of their bytes. No row can be counted
    /// after that.
    ///
    /// <details><summary>Contract</summary>
    ///
    /// ```text
    /// ensures written { OnOk result (self.old.has_failed ≡ false
    ///     → Shows J.is_known G.is_joint (J.Sink.contents self.old.journal) format (W.contents writer.old)
    ///     (W.contents writer.new)) }
    /// ensures flushed { OnOk result (W.is_flushed writer.new) }
    /// ensures failed { IfErr result (λ fault. ((fault ≡ Memory) × (writer.new ≡ writer.old))
    ///     ⊎ ((fault ≡ Output) × W.can_fail)) }
    /// ```
    ///
    /// </details>
    pub fn write<W: Sink>(
        &mut self,
        format: StatisticsFormat,
        writer: &mut W,
    ) -> Result<(), RunFault> {
        self.has_failed = true;
        self.rows.add_total::<G>()?;
        let mut out = OutputBuffer::new(writer);
        self.rows.write(format, &mut out);
        out.flush()?;
        Ok(())
    }
}

impl<J: Journal, G: Grouping> Sink for Statistics<J, G> {
    fn put(&mut self, bytes: &[u8]) -> Result<(), OutputFault> {
        if self.has_failed {
            return Err(OutputFault);
        }
        self.has_failed = true;
        self.journal.put(bytes)?;
        let Ok(()) = self.rows.take::<G>(bytes) else {
            return Err(OutputFault);
        };
        self.has_failed = false;
        Ok(())
    }

    fn flush_all(&mut self) -> Result<(), OutputFault> {
        Ok(())
    }
}
