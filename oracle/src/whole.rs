//! Whole records of a circuit (document 02, K3): what a finished log has to be,
//! so that what reads it may lean on it.

use crate::circuit::{Circuit, Output, constant};
use crate::words::words;

/// The most records of a log.
const TICKS: i64 = 100_000;
/// The most steps of a tick; a tick stopped by 11 has one more.
const STEPS: i64 = 50_000_000;
/// The most units that a tick begins.
const UNITS: i64 = 1_024;
/// The most units that a tick carries.
const CARRIED: i64 = 256;

/// What is read of a record.
#[derive(Clone, Debug, PartialEq, Eq)]
pub struct Record {
    pub stop: i64,
    /// Kind and content of every output, where the stop is 0.
    pub outputs: Vec<(i64, i64)>,
}

/// The records of a log, if it is whole records of this circuit.
pub fn records(circuit: &Circuit, log: &[u8]) -> Option<Vec<Record>> {
    let words = words(log)?;
    let mut rest = &words[..];
    let mut records: Vec<Record> = Vec::new();
    while !rest.is_empty() {
        if records.last().is_some_and(|before| before.stop != 0) {
            return None;
        }
        let tick = records.len() as i64 + 1;
        records.push(record(circuit, tick, &mut rest)?);
    }
    Some(records)
}

/// Takes the record of this tick from the front.
fn record(circuit: &Circuit, tick: i64, rest: &mut &[i64]) -> Option<Record> {
    let &[shown, steps, late, main, carried, stop, changed] = rest.split_off(..7)? else { return None };
    let good_head = shown == tick
        && tick <= TICKS
        && matches!(stop, 0 | 11 | 12)
        && good_steps(steps, stop)
        && good_counts(late, main, carried)
        && changed >= 0;
    if !good_head {
        return None;
    }
    let mut units = pairs(rest, late + main)?;
    units.extend(pairs(rest, carried)?);
    let shows = if stop == 0 { circuit.outputs.len() } else { 0 };
    let outputs = pairs(rest, shows as i64)?;
    let good = units.iter().all(|&(gate, form)| has_form(circuit, gate, form))
        && circuit.outputs.iter().zip(&outputs).all(|(output, &value)| can_show(output, value));
    good.then_some(Record { stop, outputs })
}

/// Steps to 50,000,000, and one more only with stop 11.
fn good_steps(steps: i64, stop: i64) -> bool {
    let most = if stop == 11 { STEPS + 1 } else { STEPS };
    (0..=most).contains(&steps)
}

/// The late and the main units are those of the tick, together.
fn good_counts(late: i64, main: i64, carried: i64) -> bool {
    let counted = (0..=UNITS).contains(&late) && (0..=UNITS).contains(&main);
    counted && late + main <= UNITS && (0..=CARRIED).contains(&carried)
}

/// Takes two arrays of this length from the front.
fn pairs(rest: &mut &[i64], length: i64) -> Option<Vec<(i64, i64)>> {
    let first = rest.split_off(..length as usize)?;
    let second = rest.split_off(..length as usize)?;
    Some(first.iter().copied().zip(second.iter().copied()).collect())
}

/// Whether this is a gate of the circuit, and a form that it can have: 0 Fire,
/// 1 Event, 2 World, 32 + output, or 16 + pin.
fn has_form(circuit: &Circuit, gate: i64, form: i64) -> bool {
    let Some(kind) = usize::try_from(gate).ok().and_then(|gate| circuit.kinds.get(gate)) else {
        return false;
    };
    match form {
        0 => matches!(kind.number(), 6 | 11 | 13..=17),
        1 => matches!(kind.number(), 26 | 27),
        2 => kind.number() == 28,
        32 | 33 => kind.number() == 9,
        _ => has_driven_pin(circuit, gate, form),
    }
}

/// Whether the form is that of an E of the gate that has a source.
fn has_driven_pin(circuit: &Circuit, gate: i64, form: i64) -> bool {
    let mut own = circuit.inputs.iter().filter(|input| input.gate as i64 == gate);
    own.any(|input| input.port.is_exec() && input.source.is_some() && 16 + input.own as i64 == form)
}

/// Kind and content as a constant or 0 0, and of an exec output always 0 0.
fn can_show(output: &Output, (kind, content): (i64, i64)) -> bool {
    (kind, content) == (0, 0) || !output.port.is_exec() && constant(kind, content).is_some()
}
