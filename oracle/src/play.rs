//! A run: tick after tick, to the script's end or a stop.

use crate::Answer;
use crate::circuit::Circuit;
use crate::graph::GateId;
use crate::graph_of::graph_of;
use crate::script::Script;
use crate::source::machine::Machine;
use crate::value::Value;
use crate::world::{World, WorldEvent};

/// The machine of a circuit before the script's first tick.
pub fn start(circuit: &Circuit, script: &Script) -> Machine {
    let world = Stimuli::of(circuit, script);
    Machine::at_start(graph_of(circuit), circuit.ranks.clone(), &script.lengths, Box::new(world))
}

/// Play the script, with `log_bytes` lent for the log.
pub fn play(circuit: &Circuit, script: &Script, log_bytes: usize) -> Answer {
    let mut log = Vec::new();
    let mut machine = start(circuit, script);
    let (stop, ticks) = play_into(&mut log, &mut machine, script.lengths.len(), log_bytes);
    Answer::Played { log, stop, ticks }
}

/// Play `ticks` ticks into `log`, for which `log_bytes` are lent. The answer
/// is the stop and the ticks done.
pub fn play_into(log: &mut Vec<i64>, machine: &mut Machine, ticks: usize, log_bytes: usize) -> (u8, u64) {
    for done in 0..ticks as u64 {
        let written = log.len();
        let mut stop = machine.play_tick(log);
        if log.len() > log_bytes / 8 {
            log.truncate(written);
            stop = 13;
        }
        if stop != 0 {
            return (stop, done);
        }
    }
    (0, ticks as u64)
}

/// The world of a run: the stimuli of each tick.
struct Stimuli(Vec<Vec<(GateId, Option<Value>)>>);

impl Stimuli {
    fn of(circuit: &Circuit, script: &Script) -> Self {
        let stimulus = |&(gate, constant): &(usize, usize)| (gate as GateId, circuit.constant(constant));
        Self(script.stimuli.iter().map(|tick| tick.iter().map(stimulus).collect()).collect())
    }
}

impl World for Stimuli {
    fn events(&mut self, tick: u64) -> Vec<WorldEvent> {
        let event = |(gate, v): (GateId, Option<Value>)| WorldEvent {
            outputs: v.into_iter().map(|v| ("Value".to_string(), v)).collect(),
            gate: Some(gate),
            fire: None,
        };
        std::mem::take(&mut self.0[tick as usize - 1]).into_iter().map(event).collect()
    }
}
