//! The simulated gate graph: one gate per component, its ports from the
//! game's inventory, and its wires split into value edges and exec calls.
//!
//! An output is an exec output when the inventory types it `exec`, or when it
//! forwards one (a rerouter, a chip pin, a buffer whose input is an exec
//! signal). A wire from an exec output is a call: the target runs when the
//! source fires. Any other wire carries a value. A value wired into an Exec
//! pin is a trigger: the gate runs when that value changes to truthy.

use crate::collections::HashMap;
use crate::fields::{BrdbStruct, BrdbValue};
use crate::load::BrickAddr;
use crate::value::Value;

pub type GateId = u32;

/// What a gate does, decided once from its class.
#[derive(Clone, Copy, Debug, PartialEq, Eq)]
pub enum Op {
    Select,
    /// A rerouter or chip pin: its output is its input.
    Reroute,
    DeltaTime,
    ServerUptime,
    Var,
    ChangeDetector,
    BufferTicks,
    BufferSeconds,
    Clock,
    EventCustom { global: bool },
    /// An event the world raises (a chat command, a player joining).
    WorldEvent,
    VarGet,
    VarSet,
    Branch,
    Union,
    SendEvent { global: bool },
    /// A loop plane's shell, run by its `Exec` pin.
    Loop(LoopKind),
    /// The gate inside a callable plane whose `Body` starts each run.
    CallableEntry,
    CallableBreak,
    /// A gate that pulses when its input changes.
    Detector(Detector),
    /// Each `ExecIn` records the data inputs, released in order after a
    /// delay.
    Queue { seconds: bool },
    Toggle,
    Cycle,
    Stopwatch,
}

#[derive(Clone, Copy, Debug, PartialEq, Eq)]
pub enum Detector {
    /// `bPulseOnRisingEdge` / `bPulseOnFallingEdge` for one tick as a number
    /// rises or falls.
    Edge,
    /// `bPulseOnChange` for one tick on any change.
    Change,
    /// Fires `OnRisingEdge` / `OnFallingEdge` as a number rises or falls.
    EdgeExec,
}

#[derive(Clone, Copy, Debug, PartialEq, Eq)]
pub enum LoopKind {
    CountFor,
}

impl Op {
    /// Evaluated on demand from its inputs, with no state of its own.
    pub fn is_pure(self) -> bool {
        matches!(
            self,
            Self::Select // oracle: the first kept
                | Self::Reroute
                | Self::DeltaTime
                | Self::ServerUptime
        )
    }
}

/// Where a wire into an input comes from.
#[derive(Clone, Copy, Debug)]
pub struct Src {
    pub gate: GateId,
    pub out: u16,
}

#[derive(Clone)]
pub struct Input {
    pub name: String,
    /// The inventory types this port `exec`.
    pub exec_pin: bool,
    /// The value the save stores in the port's field, or `None` when the
    /// field holds the schema default (an unwired input).
    pub stored: Option<Value>,
    pub source: Option<Src>,
}

/// An exec call: the gate and input a fired exec output runs.
#[derive(Clone, Copy, Debug)]
pub struct Call {
    pub gate: GateId,
    pub input: u16,
    pub remote: bool,
}

#[derive(Clone)]
pub struct Output {
    pub name: String,
    /// Fires calls rather than carrying a value.
    pub exec: bool,
    /// Value edges, in stored wire order.
    pub readers: Vec<(GateId, u16)>,
    /// Exec edges, in stored wire order.
    pub calls: Vec<Call>,
}

#[derive(Clone)]
pub struct Gate {
    pub op: Op,
    pub addr: BrickAddr,
    pub inputs: Vec<Input>,
    pub outputs: Vec<Output>,
    pub data: Option<BrdbStruct>,
}

impl Gate {
    pub fn input(&self, name: &str) -> Option<u16> {
        self.inputs.iter().position(|p| p.name == name).map(|i| i as u16)
    }

    pub fn output(&self, name: &str) -> Option<u16> {
        self.outputs.iter().position(|p| p.name == name).map(|i| i as u16)
    }

    /// A config field of the gate's data struct.
    pub fn field(&self, name: &str) -> Option<&BrdbValue> {
        self.data.as_ref()?.get(name)
    }

    pub fn field_str(&self, name: &str) -> Option<String> {
        match self.field(name)? {
            BrdbValue::String(s) => Some(s.clone()),
            _ => None, // oracle: no wire value and no struct in a field
        }
    }

    pub fn field_f64(&self, name: &str) -> Option<f64> {
        match self.field(name)? {
            BrdbValue::F64(f) => Some(*f),
            BrdbValue::I64(n) => Some(*n as f64),
            _ => None, // oracle: no wire value in a field
        }
    }

    pub fn field_i64(&self, name: &str) -> Option<i64> {
        match self.field(name)? {
            BrdbValue::I64(n) => Some(*n),
            _ => None, // oracle: no wire value in a field
        }
    }

    pub fn field_bool(&self, name: &str) -> Option<bool> {
        match self.field(name)? {
            BrdbValue::Bool(b) => Some(*b),
            _ => None, // oracle: no wire value in a field
        }
    }
}

#[derive(Clone)]
pub struct Graph {
    pub gates: Vec<Gate>,
    /// Microchip brick -> its inner grid.
    pub chip_grids: HashMap<BrickAddr, u32>,
}

impl Graph {
    pub fn gate(&self, id: GateId) -> &Gate {
        &self.gates[id as usize]
    }
}
