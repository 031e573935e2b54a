//! A sink that may keep the rows that are counted.

use etherpeel::ether_output::Sink;
use std::io;

/// A sink for the rows that are counted.
///
/// The program's journal keeps none of them. For every journal, also for one that keeps them, it is proved that the
/// counts are those of the rows that it holds.
pub trait Journal: Sink {
    /// A journal with nothing in it.
    ///
    /// <details><summary>Contract</summary>
    ///
    /// ```text
    /// ensures { Self.Sink.contents result ≡ known_if is_known }
    /// ```
    ///
    /// </details>
    fn start() -> Self;
}

impl Journal for io::Sink {
    fn start() -> Self {
        io::sink()
    }
}
