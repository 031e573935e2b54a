//! Whether the columns of a row are counted by themselves, or together.

/// Whether the columns of a row are counted by themselves, or together.
pub trait Grouping {
    /// Tests that packets are counted by the texts of all columns together.
    ///
    /// <details><summary>Contract</summary>
    ///
    /// ```text
    /// ensures { result ≡ is_joint }
    /// ```
    ///
    /// </details>
    fn is_joint() -> bool;
}

/// A packet is counted for each of its texts.
pub struct Each;

impl Grouping for Each {
    #[inline(always)]
    fn is_joint() -> bool {
        false
    }
}

/// A packet is counted once, for all of its texts.
pub struct Together;

impl Grouping for Together {
    #[inline(always)]
    fn is_joint() -> bool {
        true
    }
}
