//! How large it will get (document 02, K12): the most steps that any one unit can
//! cause, taken as if every gate passed on to all its calls, and the most bytes of
//! a log, both without a run.

use crate::circuit::Circuit;
use crate::graph::Op;
use crate::questions;

/// The most ticks.
const TICKS: u64 = 100_000;
/// The most steps that are told as they are; more are told as one more.
const STEPS: u128 = 50_000_000;
/// The words of a record before its lists.
const HEAD: u64 = 7;
/// The most units of a record, and the most carried.
const UNITS: u64 = 1_024;
const CARRIED: u64 = 256;

/// Both figures.
#[derive(Clone, Copy, Debug, PartialEq, Eq)]
pub struct Figures {
    pub steps: u64,
    pub bytes: u64,
}

/// Ask about the circuit as a call that is lent no areas, then whether it has a
/// Loop or its calls form a ring, and then about the ticks. The answer is both
/// figures, or the number of the first question answered no.
pub fn size(circuit: &[u8], ticks: u64) -> Result<Figures, u8> {
    let circuit = questions::ask_circuit(circuit, None)?;
    if has_loop(&circuit) {
        return Err(23);
    }
    let gates = steps_of_gates(&circuit).ok_or(23)?;
    if ticks > TICKS {
        return Err(24);
    }
    let steps = most_steps(&circuit, &gates);
    let bytes = 8 * ticks * record_words(&circuit);
    Ok(Figures { steps, bytes })
}

fn has_loop(circuit: &Circuit) -> bool {
    circuit.kinds.iter().any(|kind| matches!(kind.op, Op::Loop(_)))
}

/// The steps of entering each gate, unless the calls form a ring.
fn steps_of_gates(circuit: &Circuit) -> Option<Vec<u128>> {
    let gates = circuit.kinds.len();
    let mut walk = Walk { circuit, seen: vec![Seen::Never; gates] };
    (0..gates).map(|gate| walk.enter(gate)).collect()
}

/// A walk along the calls.
struct Walk<'a> {
    circuit: &'a Circuit,
    seen: Vec<Seen>,
}

/// How far the walk has come with a gate.
#[derive(Clone, Copy)]
enum Seen {
    Never,
    /// It is among those behind the gate.
    Behind,
    /// It has come back, with the gate's steps.
    Back(u128),
}

impl Walk<'_> {
    /// The steps of entering a gate: one, and those of each gate that a call of
    /// one of its outputs enters. None where the calls come back to a gate that
    /// the walk is behind.
    fn enter(&mut self, gate: usize) -> Option<u128> {
        match self.seen[gate] {
            Seen::Back(steps) => return Some(steps),
            Seen::Behind => return None,
            Seen::Never => self.seen[gate] = Seen::Behind,
        }
        let mut steps: u128 = 1;
        for output in outputs_of(self.circuit, gate) {
            for to in entered(self.circuit, output) {
                steps = steps.saturating_add(self.enter(to)?);
            }
        }
        self.seen[gate] = Seen::Back(steps);
        Some(steps)
    }
}

/// All outputs of a gate, whatever its kind.
fn outputs_of(circuit: &Circuit, gate: usize) -> impl Iterator<Item = usize> {
    (0..circuit.outputs.len()).filter(move |&output| circuit.outputs[output].gate == gate)
}

/// The gates that the calls of an output enter, one for each call, remote or not.
fn entered(circuit: &Circuit, output: usize) -> impl Iterator<Item = usize> {
    let calls = circuit.calls.iter().filter(move |call| call.from == output);
    calls.map(|call| circuit.inputs[call.to].gate)
}

/// The most of all units, wherever they start.
fn most_steps(circuit: &Circuit, gates: &[u128]) -> u64 {
    let inputs = (0..circuit.inputs.len()).filter(|&input| circuit.inputs[input].port.is_exec());
    let outputs = (0..circuit.outputs.len()).filter(|&output| circuit.outputs[output].port.is_exec());
    let at_inputs = inputs.map(|input| gates[circuit.inputs[input].gate]).max().unwrap_or(0);
    let at_outputs = outputs.map(|output| steps_of_output(circuit, gates, output)).max().unwrap_or(0);
    at_inputs.max(at_outputs).min(STEPS + 1) as u64
}

/// A unit that starts at an output makes its calls, and no step itself.
fn steps_of_output(circuit: &Circuit, gates: &[u128], output: usize) -> u128 {
    entered(circuit, output).fold(0, |sum: u128, gate| sum.saturating_add(gates[gate]))
}

/// The words of a record of the most units, the most carried and all outputs.
fn record_words(circuit: &Circuit) -> u64 {
    HEAD + 2 * UNITS + 2 * CARRIED + 2 * circuit.outputs.len() as u64
}

/// The number that the call answers, and what it leaves of the words that it is
/// lent: the first is the steps, the second the bytes, as far as there is room.
pub fn call(circuit: &[u8], ticks: u64, before: Vec<u64>) -> (u8, Vec<u64>) {
    let mut told = before;
    match size(circuit, ticks) {
        Err(number) => (number, told),
        Ok(Figures { steps, bytes }) => {
            for (word, figure) in told.iter_mut().zip([steps, bytes]) {
                *word = figure;
            }
            (0, told)
        }
    }
}
