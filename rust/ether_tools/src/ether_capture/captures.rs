//! What opens captures by their names.

use crate::ether_files::OpenFault;
use crate::ether_text::Source;

/// What opens captures by their names, and can show how far they are read.
///
/// What is proved for all of them holds for one that can't fail, too. So a call that reports that a capture can't be
/// opened has tried it.
pub trait Captures {
    /// The bytes of a capture.
    type Input: Source;

    /// Opens the capture of a name, at its first byte.
    ///
    /// <details><summary>Contract</summary>
    ///
    /// ```text
    /// ensures ok { IfOk result (λ input. has self.now name.now (Self.Input.Source.remaining input)) }
    /// ensures refused { IfErr result (λ fault. can_refuse fault) }
    /// ```
    ///
    /// </details>
    fn open_named(&self, name: &str) -> Result<Self::Input, OpenFault>;

    /// From here on, shows how far these captures and standard input are read.
    fn show(&self);

    /// Ends the line in which that is shown, if there is one.
    fn end_line(&self);
}
