//! Circuits of which both figures are asked: those of every family, damaged ones,
//! and ones with many calls, most of them without a ring.

use super::{FAMILIES, Random, damaged, damaged_loops, valid};
use crate::build::*;
use crate::case::Size;

/// The size of a seed.
pub fn size(seed: u64) -> Size {
    let mut r = Random::new(seed ^ 0x512E_0000_0000_0000);
    let circuit = match r.below(10) {
        0 | 1 => valid(seed, r.pick(&FAMILIES)).circuit,
        2 => damaged(seed).case.circuit,
        3 => damaged_loops(seed).case.circuit,
        _ => forking(&mut r).bytes(),
    };
    let mut size = Size::new(format!("random-size-{seed}"), "A random size.", circuit);
    size.ticks = match r.below(10) {
        0 => r.pick(&[100_001, 1 << 17, 1 << 32, (1 << 32) + 1, 1 << 63, u64::MAX]),
        1 => r.pick(&[0, 1, 99_999, 100_000]),
        _ => r.below(100_001) as u64,
    };
    size.told = r.pick(&[0, 1, 2, 2, 3, 3]);
    size
}

/// Gates and many calls, each from a gate to one of a later place, so that there is
/// no ring; now and then one call back.
fn forking(r: &mut Random) -> Circuit {
    let mut c = Circuit::new();
    let many = r.pick(&[1, 2, 3, 4, 6, 8, 12, 20, 40, 64]);
    let kinds = r.pick(&[&ANY[..], &ANY[..], &PLAIN[..], &[REROUTE, REROUTE, WORLD_EVENT][..]]);
    let mut gates: Vec<Gate> = (0..many).map(|_| draw(r, &mut c, kinds)).collect();
    drive(r, &mut c, &gates);
    r.shuffle(&mut gates);
    let most = r.pick(&[many, 2 * many, 4 * many, 256]).min(256);
    let near = r.pick(&[1, 2, 4, 64]);
    for _ in 0..most {
        let from = r.below(gates.len());
        let to = from + 1 + r.below(near);
        call(r, &mut c, &gates, from, to);
    }
    if r.chance(20) {
        let (from, to) = (r.below(gates.len()), r.below(gates.len()));
        call(r, &mut c, &gates, from.max(to), from.min(to));
    }
    c
}

/// Kinds without settings that have to be there; of Queues a few only.
const ANY: [i64; 24] =
    [2, 2, 6, 9, 11, 13, 14, 15, 16, 20, 20, 21, 21, 22, 22, 23, 23, 28, 28, 31, 1, 7, 10, 4];

/// Kinds that are called and call.
const PLAIN: [i64; 6] = [REROUTE, BRANCH, UNION, TOGGLE, CYCLE, WORLD_EVENT];

fn draw(r: &mut Random, c: &mut Circuit, kinds: &[i64]) -> Gate {
    let kind = r.pick(kinds);
    let queues = c.gates.iter().filter(|gate| gate.0 == QUEUE_TICKS).count();
    c.gate(if kind == QUEUE_TICKS && queues > 7 { TOGGLE } else { kind }, 0)
}

/// Some Es that may have a source get one.
fn drive(r: &mut Random, c: &mut Circuit, gates: &[Gate]) {
    for &gate in gates.iter().filter(|gate| ![BUFFER_TICKS_EXEC, BUFFER_SECONDS_EXEC].contains(&gate.kind)) {
        for pin in inputs_of(gate.kind).into_iter().filter_map(|pin| pin.strip_prefix("E:")) {
            let from = r.pick(gates);
            if r.chance(25) && outputs_of(from.kind).into_iter().any(is_value) {
                c.feed(gate.pin(pin), from);
            }
        }
    }
}

/// A call between gates of these places, if there are such gates and they can.
fn call(r: &mut Random, c: &mut Circuit, gates: &[Gate], from: usize, to: usize) {
    let Some((from, to)) = gates.get(from).copied().zip(gates.get(to).copied()) else { return };
    let outs: Vec<&str> = outputs_of(from.kind).into_iter().filter(|out| may_call(out)).collect();
    let pins: Vec<&str> = inputs_of(to.kind).into_iter().filter(|pin| may_be_called(pin)).collect();
    if outs.is_empty() || pins.is_empty() || c.calls.len() > 255 {
        return;
    }
    let out = from.out(r.pick(&outs).trim_end_matches('!'));
    let pin = to.pin(r.pick(&pins).trim_start_matches("E:"));
    if r.chance(20) { c.remote(out, pin) } else { c.call(out, pin) }
}
