//! Runs a property over drawn cases.

use crate::wire::Breach;
use proptest::strategy::Strategy;
use proptest::test_runner::{Config, RngAlgorithm, TestCaseError, TestRng, TestRunner};

/// What a property returns for one case.
pub type Checked = Result<(), TestCaseError>;

/// Checks a property over cases drawn from a fixed seed, and panics with the smallest case that fails.
///
/// `PROPTEST_CASES` sets the number of cases, which is 256 without it. No file is written.
pub fn check<S: Strategy>(strategy: S, property: impl Fn(S::Value) -> Checked) {
    let config = Config { failure_persistence: None, ..Config::default() };
    let rng = TestRng::deterministic_rng(RngAlgorithm::ChaCha);
    let outcome = TestRunner::new_with_rng(config, rng).run(&strategy, property);
    if let Err(error) = outcome {
        panic!("{error}");
    }
}

/// What was read and what the model reads, if both accept the bytes; nothing, if both refuse them for the same breach.
pub fn agreed<T, E, W>(
    found: Result<T, E>,
    wanted: Result<W, Breach>,
    breach: impl Fn(&E) -> Breach,
) -> Result<Option<(T, W)>, TestCaseError> {
    match (found, wanted) {
        (Ok(found), Ok(wanted)) => Ok(Some((found, wanted))),
        (Ok(_), Err(wanted)) => Err(TestCaseError::fail(format!("accepted, in spite of {wanted:?}"))),
        (Err(error), Ok(_)) => Err(TestCaseError::fail(format!("refused for {:?}", breach(&error)))),
        (Err(error), Err(wanted)) if breach(&error) == wanted => Ok(None),
        (Err(error), Err(wanted)) => {
            Err(TestCaseError::fail(format!("refused for {:?} and not for {wanted:?}", breach(&error))))
        }
    }
}
