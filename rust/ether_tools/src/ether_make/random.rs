//! The generator of random numbers, with the name of a call that its crate lacks. Written by hand, not proved.
use rand_core::RngCore;
pub use rand_core::SeedableRng;
pub use rand_xoshiro::SplitMix64;

/// A generator whose numbers are words.
pub trait NextWord {
    /// The next word.
    fn next_word(&mut self) -> u64;
}

impl NextWord for SplitMix64 {
    fn next_word(&mut self) -> u64 {
        self.next_u64()
    }
}
