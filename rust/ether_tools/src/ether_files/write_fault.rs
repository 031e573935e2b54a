//! Why a file can't be written.

use crate::ether_files::messages::{DENIED, IS_FOLDER, NO_FOLDER, NO_NAME, NO_SPACE, NOT_WRITTEN};
use std::io::ErrorKind;
use std::{fmt, io};

/// Why a copy can't be written to the file of its name.
#[derive(Clone, Copy, PartialEq, Eq, Debug)]
pub enum WriteFault {
    /// The name is empty.
    NoName,
    /// There is no such folder.
    NotFound,
    /// Files may not be made or changed there.
    PermissionDenied,
    /// The name is that of a folder.
    IsADirectory,
    /// There is no room for it.
    StorageFull,
    /// The system has another reason.
    Other,
}

impl WriteFault {
    /// Why a copy can't be written, by the system's error.
    ///
    /// <details><summary>Contract</summary>
    ///
    /// ```text
    /// ensures { result ≡ write_fault_of (error_kind error.now) }
    /// ```
    ///
    /// </details>
    pub fn of(error: &io::Error) -> WriteFault {
        match error.kind() {
            ErrorKind::NotFound | ErrorKind::NotADirectory => WriteFault::NotFound,
            ErrorKind::PermissionDenied | ErrorKind::ReadOnlyFilesystem =>
                WriteFault::PermissionDenied,
            ErrorKind::IsADirectory => WriteFault::IsADirectory,
            ErrorKind::StorageFull | ErrorKind::QuotaExceeded | ErrorKind::FileTooLarge => {
                WriteFault::StorageFull
            }
            _ => WriteFault::Other,
        }
    }

    /// The end of the message: why.
    fn reason(self) -> &'static str {
        match self {
            WriteFault::NoName => NO_NAME,
            WriteFault::NotFound => NO_FOLDER,
            WriteFault::PermissionDenied => DENIED,
            WriteFault::IsADirectory => IS_FOLDER,
            WriteFault::StorageFull => NO_SPACE,
            WriteFault::Other => "",
        }
    }
}

impl fmt::Display for WriteFault {
    fn fmt(&self, f: &mut fmt::Formatter<'_>) -> fmt::Result {
        let reason = self.reason();
        write!(f, "{NOT_WRITTEN}{reason}")
    }
}
