//! The world a program runs in: everything outside the logic gates.
//!
//! The simulator models logic exactly and leaves the world to a [`World`].

use crate::graph::GateId;
use crate::value::Value;

pub trait World {
    /// The events the world raises on `tick`, delivered ahead of the tick's
    /// handlers.
    fn events(&mut self, tick: u64) -> Vec<WorldEvent> {
        let _ = tick;
        Vec::new()
    }
}

/// An event the world raises: every event gate of `class` (and, with
/// `filter`, whose config field holds that text) fires with these outputs.
#[derive(Clone, Debug, Default)]
pub struct WorldEvent {
    pub outputs: Vec<(String, Value)>,
    /// The one gate the event is for (a message box being answered), in place
    /// of every event gate of `class`.
    pub gate: Option<GateId>,
    /// The exec output that fires; `ExecOut` when `None`.
    pub fire: Option<String>,
}
