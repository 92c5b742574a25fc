//! The values that travel on wires and sit in gate storage.

use crate::graph::GateId;
use crate::semantics;

/// One wire value. The scalar and composite cases are the certified
/// evaluator's ([`semantics::Value`]); the rest are references the game
/// passes by handle.
#[derive(Clone, Debug, PartialEq)]
pub enum Value {
    Int(i64),
    Float(f64),
    Bool(bool),
    /// A reference to a storage gate (`VarRef`, `ArrayVarRef`, `MapVarRef`)
    /// or a function definition.
    Ref(GateId),
    /// What a pure gate gave when it could not be evaluated (a gate or an
    /// operand the evaluator does not certify). Pure gates pass it on; the
    /// error is raised when an exec gate, an Exec pin or a buffer reads it.
    Poison(Poisoned),
}

/// The error a poisoned value carries. Two are equal only when they are the
/// same error.
#[derive(Clone, Debug)]
pub struct Poisoned(pub std::sync::Arc<crate::SimError>);

impl PartialEq for Poisoned {
    fn eq(&self, other: &Self) -> bool {
        std::sync::Arc::ptr_eq(&self.0, &other.0)
    }
}

impl Value {
    /// Certified truthiness, as an Exec pin and a branch condition read it.
    pub fn truthy(&self) -> bool {
        match self {
            Self::Ref(_) => true, // oracle: without Brick and Handle
            Self::Poison(_) => false,
            v => semantics::truthy(v), // oracle: document 01's rule
        }
    }

    pub fn as_int(&self) -> Option<i64> {
        match self {
            Self::Int(n) => Some(*n),
            Self::Float(f) => Some(semantics::sanitize(*f) as i64),
            Self::Bool(b) => Some(i64::from(*b)),
            _ => None,
        }
    }

    pub fn as_float(&self) -> Option<f64> {
        match self {
            Self::Int(n) => Some(*n as f64),
            Self::Float(f) => Some(semantics::sanitize(*f)),
            Self::Bool(b) => Some(f64::from(u8::from(*b))),
            _ => None,
        }
    }

    /// A short name for the value's variant, for error messages.
    pub fn kind(&self) -> &'static str {
        match self {
            Self::Int(_) => "int",
            Self::Float(_) => "float",
            Self::Bool(_) => "bool",
            Self::Ref(_) => "reference",
            Self::Poison(_) => "uncertified value",
        }
    }
}
