//! What keeps copies by their names.

use crate::ether_files::WriteFault;
use etherpeel::ether_output::Sink;

/// What keeps copies by their names, as files do.
///
/// What is proved for all of them holds for one whose files are known, and for one that can't fail. So a call that
/// reports that a copy can't be written has tried it.
///
/// A copy is begun, written and then finished, broken off or given up. Only then does its file get bytes, all at once. A
/// copy that is finished is its file's. After a fault of what is copied, the file gets what was copied before, if that
/// can't be read again; else it is as it was. So it is said of files that are known; one in a folder where no other file
/// can be made gets the bytes as they are written.
pub trait Copies {
    /// A copy that is being written.
    type Part: Sink;

    /// Tests that what was copied of standard input before a fault is kept, since it can't be read again.
    ///
    /// <details><summary>Contract</summary>
    ///
    /// ```text
    /// ensures { result ≡ keeps_input self.now }
    /// ```
    ///
    /// </details>
    fn keeps_input(&self) -> bool;

    /// Begins a copy of the captures of the names `inputs`; `-` is standard input. The copy has no byte yet.
    ///
    /// <details><summary>Contract</summary>
    ///
    /// ```text
    /// ensures empty { IfOk result (λ part. IsAtEnd (Self.Part.Sink.contents part)) }
    /// ensures kept { file self.new name.now ≡ file self.old name.now }
    /// ensures same { keeps_input self.new ≡ keeps_input self.old }
    /// ensures refused { IfErr result can_refuse }
    /// ```
    ///
    /// </details>
    fn begin(&mut self, name: &str, inputs: &[&str]) -> Result<Self::Part, WriteFault>;

    /// Finishes a copy: the file of this name has its bytes.
    ///
    /// <details><summary>Contract</summary>
    ///
    /// ```text
    /// ensures ok { OnOk result (file self.new name.now ≡ Self.Part.Sink.contents part) }
    /// ensures kept { OnErr result (file self.new name.now ≡ file self.old name.now) }
    /// ensures refused { IfErr result can_refuse }
    /// ```
    ///
    /// </details>
    fn finish(&mut self, name: &str, part: Self::Part) -> Result<(), WriteFault>;

    /// Ends a copy after a fault of what is copied. If what was copied is to be kept, and it has a byte, the file of this
    /// name has it; else the file is as it was.
    ///
    /// <details><summary>Contract</summary>
    ///
    /// ```text
    /// ensures ok { OnOk result (file self.new name.now
    ///     ≡ kept_of is_kept (Self.Part.Sink.contents part) (file self.old name.now)) }
    /// ensures kept { OnErr result (file self.new name.now ≡ file self.old name.now) }
    /// ensures refused { IfErr result can_refuse }
    /// ```
    ///
    /// </details>
    fn break_off(&mut self, name: &str, part: Self::Part, is_kept: bool) -> Result<(), WriteFault>;

    /// Gives a copy up that could not be written, and returns why, if a fault of writing was the cause. If what was copied
    /// is to be kept, the file of this name has what was written whole; else it is as it was.
    ///
    /// <details><summary>Contract</summary>
    ///
    /// ```text
    /// ensures kept { is_kept ≡ false → file self.new name.now ≡ file self.old name.now }
    /// ```
    ///
    /// </details>
    fn give_up(&mut self, name: &str, part: Self::Part, is_kept: bool) -> WriteFault;
}
