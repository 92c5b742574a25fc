//! Document 01's two rules in place of `semantics::truthy` and
//! `semantics::sanitize`, which lie outside the source.

use crate::value::Value;

/// An Int or a Float is true exactly when it is not zero (-0.0 is zero), a
/// Bool is itself.
pub fn truthy(v: &Value) -> bool {
    match v {
        Value::Int(n) => *n != 0,
        Value::Float(f) => *f != 0.0,
        Value::Bool(b) => *b,
        _ => false,
    }
}

/// A Float as it is: no NaN and no infinity occurs. `as i64` then drops the
/// fraction, and gives the nearer end beyond the 64-bit range.
pub fn sanitize(f: f64) -> f64 {
    f
}
