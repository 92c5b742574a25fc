//! A tick and its log record.

use super::limits::form;
use super::{MAX_STEPS_PER_TICK, Machine};
use crate::SimError;
use crate::graph::GateId;
use crate::value::Value;

impl Machine {
    /// Play the next tick and add its record to `log`. The answer is its
    /// stop: 0, 11 or 12.
    pub fn play_tick(&mut self, log: &mut Vec<i64>) -> u8 {
        self.tally.next_tick();
        let stop = match self.step() {
            Ok(()) => 0,
            Err(e) => self.stop(&e),
        };
        self.write_head(stop, log);
        write_units(&self.tally.begun, log);
        write_units(&self.carried_units(), log);
        if stop == 0 {
            let trace = self.before_reading();
            self.write_outputs(log);
            if let Some(trace) = trace {
                self.restore(trace);
            }
        }
        stop
    }

    fn stop(&self, e: &SimError) -> u8 {
        if self.tally.passed {
            return 12;
        }
        assert!(self.steps > MAX_STEPS_PER_TICK, "gate {:?}: {}", e.gate, e.message);
        11
    }

    fn write_head(&self, stop: u8, log: &mut Vec<i64>) {
        let late = self.tally.late_units;
        let main = self.tally.begun.len() - late;
        log.extend([
            self.tick as i64,
            self.steps as i64,
            late as i64,
            main as i64,
            self.carried.len() as i64,
            i64::from(stop),
            self.tally.changed.get() as i64,
        ]);
    }

    /// Gate and form of each carried unit, in the order carried.
    fn carried_units(&self) -> Vec<(GateId, u16)> {
        self.carried.iter().map(|(gate, act)| (*gate, form(act))).collect()
    }

    /// The source's own list of what is carried: each unit's gate, and its
    /// activation as the source names it.
    pub fn carried(&self) -> Vec<(GateId, String)> {
        self.carried.iter().map(|(gate, act)| (*gate, format!("{act:?}"))).collect()
    }

    /// The steps that each unit of the tick caused, in the order begun: no step is
    /// made but in a unit, and one that was not made, by 11, is counted.
    pub fn steps_of_units(&self) -> Vec<u64> {
        let begun_at = &self.tally.begun_at;
        let over = begun_at.iter().skip(1).chain([&self.steps]);
        begun_at.iter().zip(over).map(|(begun, over)| over - begun).collect()
    }

    /// How many runs of bodies the tick began or would have begun, had the limit
    /// not been passed.
    pub fn runs_of_bodies(&self) -> u64 {
        self.invocations
    }

    /// Kind and content of every output, as reading it gives them; 0 0 for
    /// an exec output.
    fn write_outputs(&mut self, log: &mut Vec<i64>) {
        let outputs: usize = self.graph.gates.iter().map(|g| g.outputs.len()).sum();
        let (mut kind, mut content) = (log.len(), log.len() + outputs);
        log.resize(log.len() + 2 * outputs, 0);
        for g in 0..self.graph.gates.len() as GateId {
            for o in 0..self.graph.gate(g).outputs.len() as u16 {
                if !self.graph.gate(g).outputs[o as usize].exec {
                    let v = self.read_output(g, o).expect("question 6 leaves no cycle");
                    (log[kind], log[content]) = words(v);
                }
                (kind, content) = (kind + 1, content + 1);
            }
        }
    }
}

/// The gates of units, then their forms.
fn write_units(units: &[(GateId, u16)], log: &mut Vec<i64>) {
    log.extend(units.iter().map(|&(gate, _)| i64::from(gate)));
    log.extend(units.iter().map(|&(_, form)| i64::from(form)));
}

/// Kind and content of a value; 0 0 for nothing.
pub(super) fn words(v: Option<Value>) -> (i64, i64) {
    match v {
        None => (0, 0),
        Some(Value::Int(n)) => (1, n),
        Some(Value::Float(f)) => (2, f.to_bits() as i64),
        Some(Value::Bool(b)) => (3, i64::from(b)),
        Some(v) => unreachable!("a {} on an output", v.kind()),
    }
}
