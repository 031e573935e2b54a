//! A value that exceeds its field's maximum.

use crate::ether_base::err::ValueType;
use core::error::Error;
use core::fmt::{self, Debug, Display};
use core::hash::Hash;

/// The value exceeds the field's maximum.
///
/// ```
/// use etherpeel::VlanPcp;
/// use etherpeel::err::{ValueTooBigError, ValueType};
///
/// let refused = ValueTooBigError {
///     actual: 8,
///     max_allowed: 7,
///     value_type: ValueType::VlanPcp,
/// };
/// assert_eq!(VlanPcp::try_new(8), Err(refused));
/// ```
#[derive(Clone, Copy, PartialEq, Eq, Hash, Debug)]
pub struct ValueTooBigError<T: Clone + Display + Debug + Eq + Hash> {
    /// The value that was passed in.
    pub actual: T,
    /// The greatest value that is accepted.
    pub max_allowed: T,
    /// The field that the value was meant for.
    pub value_type: ValueType,
}

impl<T: Clone + Display + Debug + Eq + Hash> Display for ValueTooBigError<T> {
    fn fmt(&self, f: &mut fmt::Formatter<'_>) -> fmt::Result {
        let actual = &self.actual;
        let value_type = self.value_type;
        let max_allowed = &self.max_allowed;
        write!(
            f,
            "Error '{actual}' is too big to be a '{value_type}' (maximum allowed value is '{max_allowed}')"
        )
    }
}

impl<T: Clone + Display + Debug + Eq + Hash> Error for ValueTooBigError<T> {}
