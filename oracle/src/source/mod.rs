//! The source (wirescript-sim) with its outside operations cut off: strings,
//! arrays, maps, prefabs, chat, displays, functions and loops over arrays and
//! maps, tweens, random, spawners, dampen and worlds. What is left of a body stands as in
//! the source; every line added to it ends with an `oracle:` mark. This file
//! is what is left of lib.rs.

#![allow(unused_mut)] // the lines that changed these are cut off
#![allow(clippy::all)] // the source's own style

pub mod graph;
pub mod machine;
pub mod value;
pub mod world;

use graph::GateId;

/// The frame time each tick advances timers by.
#[derive(Clone, Debug)]
pub enum Dt {
    /// `dt` per tick from tick 0; the last entry repeats.
    Schedule(Vec<f64>),
}

#[derive(Clone, Debug)]
pub struct SimOptions {
    pub dt: Dt,
}

impl SimOptions {
    pub fn dt_at(&self, tick: u64) -> f64 {
        match &self.dt {
            Dt::Schedule(v) => v
                .get(tick as usize)
                .or(v.last())
                .copied()
                .unwrap_or(1.0 / 60.0),
        }
    }
}

/// A simulation that cannot go on: a gate it does not model or certify, or a
/// malformed graph.
#[derive(Clone, Debug)]
pub struct SimError {
    pub tick: u64,
    pub gate: Option<GateId>,
    pub message: String,
}
