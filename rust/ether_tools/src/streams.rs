//! The arguments and the standard streams of a program. Written by hand, not proved.
use crate::ether_files::hold;
use signal_hook::consts::SIGPIPE;
use signal_hook::flag;
use std::error::Error;
use std::fs::File;
use std::os::fd::AsFd;
use std::process::ExitCode;
use std::sync::Arc;
use std::{env, io};

/// Defines the `main` of a program by a function that returns its exit status. With the GNU C library it is C's `main`, so
/// that it sees which standard streams are closed: Rust's own would put `/dev/null` there first, as if it had been asked for.
#[macro_export]
macro_rules! program {
    ($run:path) => {
        #[cfg(all(target_os = "linux", target_env = "gnu"))]
        #[unsafe(no_mangle)]
        pub extern "C" fn main(_count: std::ffi::c_int, _words: *const *const std::ffi::c_char) -> std::ffi::c_int {
            $crate::streams::begin();
            std::ffi::c_int::from($run())
        }

        #[cfg(not(all(target_os = "linux", target_env = "gnu")))]
        fn main() -> std::process::ExitCode {
            std::process::ExitCode::from($run())
        }
    };
}

/// Makes the use of a standard stream that is closed fail. A write that nobody reads fails, too, and does not end the program.
pub fn begin() {
    hold(&io::stdin(), true);
    hold(&io::stdout(), false);
    hold(&io::stderr(), false);
    let _ = flag::register(SIGPIPE, Arc::default());
}

/// The arguments, if all of them are UTF-8.
pub fn arguments() -> io::Result<env::Args> {
    if env::args_os().all(|argument| argument.to_str().is_some()) {
        Ok(env::args())
    } else {
        Err(io::ErrorKind::InvalidData.into())
    }
}

/// Standard input, without a buffer: the programs have their own.
pub fn input() -> io::Result<File> {
    io::stdin().as_fd().try_clone_to_owned().map(File::from)
}

/// Standard output, without a buffer: what was written is there, whether or not a line has ended.
pub fn output() -> io::Result<File> {
    io::stdout().as_fd().try_clone_to_owned().map(File::from)
}

/// The end of a program that says why it fails.
pub fn ended(result: Result<(), Box<dyn Error>>) -> ExitCode {
    match result {
        Ok(()) => ExitCode::SUCCESS,
        Err(error) => {
            eprintln!("Error: {error}");
            ExitCode::FAILURE
        }
    }
}
