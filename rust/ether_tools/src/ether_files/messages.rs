//! Why a file is not read or written, as messages say it.

pub(in crate::ether_files) const NOT_OPENED: &str = "can't be opened";

pub(in crate::ether_files) const NOT_WRITTEN: &str = "can't be written";

pub(in crate::ether_files) const NO_FILE: &str = ": there is no such file";

pub(in crate::ether_files) const NO_FOLDER: &str = ": there is no such folder";

pub(in crate::ether_files) const NO_NAME: &str = ": its name is empty";

pub(in crate::ether_files) const NO_SPACE: &str = ": no space is left";

pub(in crate::ether_files) const DENIED: &str = ": permission denied";

pub(in crate::ether_files) const IS_FOLDER: &str = ": it is a folder";

pub(in crate::ether_files) const IS_OUTPUT: &str = ": it is the output, too";
