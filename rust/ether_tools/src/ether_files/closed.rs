//! Standard streams that are closed. Written by hand, not proved.
use std::fs::{File, OpenOptions};
use std::os::fd::{AsFd, IntoRawFd};

/// What has no end to read, and takes all that is written.
const NOTHING: &str = "/dev/null";

/// Where a standard stream is closed, opens what can't be used in its place, for as long as the program runs: what can't be read
/// in place of the input, and what can't be written in place of another one. So its use fails, and no other file gets its
/// number. The streams with lower numbers are open or held.
pub fn hold(stream: &impl AsFd, is_input: bool) {
    if stream.as_fd().try_clone_to_owned().is_err() {
        let _ = OpenOptions::new().read(!is_input).write(is_input).open(NOTHING).map(File::into_raw_fd);
    }
}
