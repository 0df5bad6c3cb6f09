// Ours, not etherparse's: fills in `ValueTooBigError`, which the shown header writers return.

use crate::err::ValueType;

/// A value doesn't fit its field.
#[derive(Clone, Debug, Eq, PartialEq)]
pub struct ValueTooBigError<T> {
    /// The value.
    pub actual: T,
    /// The most that fits.
    pub max_allowed: T,
    /// Which value it is.
    pub value_type: ValueType,
}
