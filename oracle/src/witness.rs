//! What a unit sees when it begins (document 02, K13), looked at without a
//! trace; and records that are read without a trace.

use super::record::words;
use super::{Machine, State};
use crate::graph::{GateId, Op};
use crate::value::Value;

/// A chain is looked at up to so many steps of its tick.
const LOOKED_AT: u64 = 200;

/// What was seen in a run.
#[derive(Debug, Default, PartialEq, Eq)]
pub struct Witness {
    /// Units that began.
    pub units: u64,
    /// Looks at all value outputs: when a unit begins, when the values that it
    /// brings stand there, and in its chain as long as it has set no Var.
    pub looks: u64,
    /// Of the outputs looked at, those whose gate was stale, and those of them
    /// that showed another value than reading them gave.
    pub stale: u64,
    pub shown_otherwise: u64,
    /// Outputs whose reading was not what is worked out afresh.
    pub left_from_before: Vec<String>,
    /// Ticks that left a stale gate when they were over.
    pub ticks_left_stale: u64,
}

impl Machine {
    /// From now on every value output is looked at, and a record leaves every
    /// gate as stale as it was.
    pub fn with_witness(mut self) -> Self {
        self.tally.witness = Some(Witness::default());
        self
    }

    /// What was seen so far; nobody looks any longer.
    pub fn take_witness(&mut self) -> Witness {
        self.tally.witness.take().unwrap_or_default()
    }

    /// A unit begins.
    pub(super) fn look_first(&mut self) {
        if let Some(seen) = &mut self.tally.witness {
            seen.units += 1;
            self.look_around();
        }
    }

    /// A chain is entered, or goes on.
    pub(super) fn look_on(&mut self) {
        if self.tally.witness.is_some() && self.written.is_empty() && self.steps < LOOKED_AT {
            self.look_around();
        }
    }

    fn look_around(&mut self) {
        let Some(mut seen) = self.tally.witness.take() else { return };
        seen.looks += 1;
        for g in 0..self.graph.gates.len() as GateId {
            for o in 0..self.graph.gate(g).outputs.len() as u16 {
                if !self.graph.gate(g).outputs[o as usize].exec {
                    self.look_at(g, o, &mut seen);
                }
            }
        }
        self.tally.witness = Some(seen);
    }

    fn look_at(&mut self, g: GateId, o: u16, seen: &mut Witness) {
        let afresh = words(self.afresh(g, o));
        let shown = words(self.outs[g as usize][o as usize].clone());
        let stale = self.dirty[g as usize];
        let trace = stale.then(|| self.trace());
        let read = words(self.read_output(g, o).expect("question 6 leaves no cycle"));
        if let Some(trace) = trace {
            self.restore(trace);
        }
        seen.stale += u64::from(stale);
        seen.shown_otherwise += u64::from(stale && shown != read);
        if read != afresh {
            seen.left_from_before.push(format!("tick {}: gate {g}, output {o}: {read:?}, {afresh:?}", self.tick));
        }
    }

    /// Output `o` of `g` from the outputs of gates that are not pure, the
    /// variables, the tick length and the uptime alone.
    fn afresh(&self, g: GateId, o: u16) -> Option<Value> {
        let at = |i: usize| {
            let input = &self.graph.gate(g).inputs[i];
            input.source.map_or_else(|| input.stored.clone(), |s| self.afresh(s.gate, s.out))
        };
        match self.graph.gate(g).op {
            Op::Select if at(0).is_some_and(|v| v.truthy()) => at(2),
            Op::Select => at(1),
            Op::Reroute => at(0),
            Op::DeltaTime => Some(Value::Float(self.dt)),
            Op::ServerUptime => Some(Value::Float(self.uptime)),
            Op::Var => match &self.state[g as usize] {
                State::Var(v) => v.clone(),
                _ => None,
            },
            op => {
                assert!(!op.is_pure());
                self.outs[g as usize][o as usize].clone()
            }
        }
    }

    /// A record is about to be read: what it must leave as it is, where there
    /// is a witness.
    pub(super) fn before_reading(&mut self) -> Option<Trace> {
        let seen = self.tally.witness.as_mut()?;
        seen.ticks_left_stale += u64::from(self.dirty.contains(&true));
        Some(self.trace())
    }

    fn trace(&self) -> Trace {
        Trace { outs: self.outs.clone(), dirty: self.dirty.clone(), evals: self.total_evals }
    }

    /// Every gate is as stale as it was, and shows what it showed.
    pub(super) fn restore(&mut self, trace: Trace) {
        (self.outs, self.dirty, self.total_evals) = (trace.outs, trace.dirty, trace.evals);
    }
}

/// What reading changes.
pub(super) struct Trace {
    outs: Vec<Vec<Option<Value>>>,
    dirty: Vec<bool>,
    evals: u64,
}
