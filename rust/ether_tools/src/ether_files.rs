//! Files that a program writes, whole or not at all, and why one can't be opened or written.
//!
//! [`Copies`] says what happens to the file of a copy; [`CopyFiles`] keeps copies in the file system.

mod closed;
mod copies;
mod copy_files;
mod messages;
mod open_fault;
mod own_output;
mod units;
mod write_fault;

pub use closed::hold;
pub use copies::Copies;
pub use copy_files::{CopyFiles, PartFile};
pub use open_fault::OpenFault;
pub use own_output::{Guarded, OwnOutput};
pub use units::Form;
pub use write_fault::WriteFault;
