//! Whether all frames of a run were accepted.

/// What a run found that has read all its input.
///
/// ```
/// use ether_tools::ether_text::Verdict;
///
/// assert_eq!(Verdict::AllAccepted.with(false), Verdict::SomeRefused);
/// ```
#[derive(Clone, Copy, PartialEq, Eq, Debug)]
pub enum Verdict {
    /// Each frame was accepted, or there was no frame.
    AllAccepted,
    /// At least one frame was refused.
    SomeRefused,
}

impl Verdict {
    /// The verdict with a further frame, which was accepted or not.
    ///
    /// <details><summary>Contract</summary>
    ///
    /// ```text
    /// ensures { result ≡ verdict_with self accepted }
    /// ```
    ///
    /// </details>
    pub fn with(self, accepted: bool) -> Verdict {
        if accepted { self } else { Verdict::SomeRefused }
    }
}
