//! Why a file can't be opened.

use crate::ether_files::messages::{DENIED, IS_FOLDER, IS_OUTPUT, NO_FILE, NOT_OPENED};
use std::io::ErrorKind;
use std::{fmt, io};

/// Why a file can't be opened.
#[derive(Clone, Copy, PartialEq, Eq, Debug)]
pub enum OpenFault {
    /// No file has its name.
    NotFound,
    /// The file may not be read.
    PermissionDenied,
    /// It is a folder.
    IsADirectory,
    /// It is also the output, so what is written would be read.
    IsOutput,
    /// The system has another reason.
    Other,
}

impl OpenFault {
    /// Why a file can't be opened, by the system's error.
    ///
    /// <details><summary>Contract</summary>
    ///
    /// ```text
    /// ensures { result ≡ open_fault_of (error_kind error.now) }
    /// ```
    ///
    /// </details>
    pub fn of(error: &io::Error) -> OpenFault {
        match error.kind() {
            ErrorKind::NotFound => OpenFault::NotFound,
            ErrorKind::PermissionDenied => OpenFault::PermissionDenied,
            ErrorKind::IsADirectory => OpenFault::IsADirectory,
            _ => OpenFault::Other,
        }
    }

    /// The end of the message: why.
    fn reason(self) -> &'static str {
        match self {
            OpenFault::NotFound => NO_FILE,
            OpenFault::PermissionDenied => DENIED,
            OpenFault::IsADirectory => IS_FOLDER,
            OpenFault::IsOutput => IS_OUTPUT,
            OpenFault::Other => "",
        }
    }
}

impl fmt::Display for OpenFault {
    fn fmt(&self, f: &mut fmt::Formatter<'_>) -> fmt::Result {
        let reason = self.reason();
        write!(f, "{NOT_OPENED}{reason}")
    }
}
