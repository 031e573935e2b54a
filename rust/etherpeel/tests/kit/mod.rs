//! What stands in for the runtime that the tests of the sources are passed. Written by hand.

/// Why a test fails before its assertions.
pub type Fail = Box<dyn std::error::Error>;

/// The runtime.
pub struct HostRuntime;

/// What an assertion takes in the sources.
pub trait Abort {}

impl Abort for HostRuntime {}

impl<T: Abort> Abort for &T {}

/// What a text takes in the sources.
pub trait AllocGlobal {}

impl AllocGlobal for HostRuntime {}

/// What a call that allocates may return in the sources.
#[derive(Clone, Copy, PartialEq, Eq, Debug)]
pub struct AllocError;

impl std::fmt::Display for AllocError {
    fn fmt(&self, f: &mut std::fmt::Formatter<'_>) -> std::fmt::Result {
        f.write_str("no memory")
    }
}

impl std::error::Error for AllocError {}
