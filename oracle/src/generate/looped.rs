//! Valid circuits with Loops, and what a script brings to them.

use super::family::Profile;
use super::valid::{is_pure, order, setting_of};
use super::{Family, Random};
use crate::build::*;

/// Small numbers, so that most Loops make few runs.
const INTS: &[i64] = &[0, 1, 1, 2, 2, 3, 4, -1, -3];

const FLOATS: &[f64] = &[0.0, -0.0, 0.5, 1.5, 2.9, -1.0, 1e300];

/// Circuit and script of a family with Loops and a seed.
pub(super) fn draft(seed: u64, family: Family) -> (Circuit, Script) {
    let mut r = Random::new(seed ^ ((family as u64) << 32));
    let p = family.profile();
    let mut c = Circuit::new();
    let gates = gates(&mut r, &p, &mut c);
    let order = order(&mut r, gates.len());
    nest(&mut r, &mut c, &gates);
    for &g in &gates {
        for pin in inputs_of(g.kind) {
            let pin_number = g.pin(pin.rsplit(':').next().unwrap_or(pin));
            if pin == "S:loop" {
                continue;
            }
            if let Some(with) = feed(&mut r, &p, &gates, &order, g, pin) {
                c.feed(pin_number, with);
            }
        }
    }
    calls(&mut r, &p, &mut c, &gates);
    match family {
        Family::PutOff => {
            for _ in 0..r.between((1, 2)) {
                watch_a_body(&mut r, &p, &mut c, &gates);
            }
        }
        _ => {
            for of in of_kind(&gates, LOOP) {
                break_and_unite(&mut r, &p, &mut c, &gates, of);
            }
        }
    }
    r.shuffle(&mut c.calls);
    let s = script(&mut r, &p, &mut c, &gates);
    (c, s)
}

/// Gates in any order: a World event, a Clock, two Vars, one to four Loops with
/// their entries, and kinds of the profile.
fn gates(r: &mut Random, p: &Profile, c: &mut Circuit) -> Vec<Gate> {
    let mut kinds = vec![WORLD_EVENT, CLOCK, VAR, VAR];
    for _ in 0..r.between((1, 4)) {
        kinds.extend([LOOP, ENTRY]);
    }
    let n = kinds.len() + r.between(p.gates);
    let mut queues = 0;
    while kinds.len() < n {
        let kind = r.pick(&p.kinds);
        queues += usize::from(matches!(kind, QUEUE_TICKS | QUEUE_SECONDS));
        if !matches!(kind, QUEUE_TICKS | QUEUE_SECONDS) || queues <= p.queues {
            kinds.push(kind);
        }
    }
    r.shuffle(&mut kinds);
    kinds.into_iter().map(|kind| c.gate(kind, r.pick(&p.ranks))).collect()
}

/// Of these gates, those of a kind.
fn of_kind(gates: &[Gate], kind: i64) -> Vec<Gate> {
    gates.iter().copied().filter(|g| g.kind == kind).collect()
}

/// Each Loop gets its entry and lies outside or in the body of one before it;
/// of the other gates more than half lie in bodies.
fn nest(r: &mut Random, c: &mut Circuit, gates: &[Gate]) {
    let mut loops = of_kind(gates, LOOP);
    r.shuffle(&mut loops);
    for (k, (&of, entry)) in loops.iter().zip(of_kind(gates, ENTRY)).enumerate() {
        c.feed(entry.pin("loop"), of.number);
        c.put_inside(of, &[entry]);
        if k > 0 && r.chance(55) {
            c.put_inside(loops[r.below(k)], &[of]);
        }
    }
    for &g in gates.iter().filter(|g| !matches!(g.kind, LOOP | ENTRY)) {
        let outside = if matches!(g.kind, WORLD_EVENT | CLOCK) { 80 } else { 40 };
        if !r.chance(outside) {
            c.put_inside(r.pick(&loops), &[g]);
        }
    }
}

/// The number of the body that a gate lies in.
fn body(c: &Circuit, g: Gate) -> i64 {
    c.gates[g.number as usize].1 / RANKS
}

/// What an input is given; `None` for nothing.
fn feed(r: &mut Random, p: &Profile, gates: &[Gate], order: &[usize], g: Gate, pin: &str) -> Option<Feed> {
    if let Some(setting) = pin.strip_prefix("S:") {
        return match setting {
            "initial" => r.chance(75).then(|| value(r).into()),
            _ => setting_of(r, p, gates, g, setting),
        };
    }
    if pin.starts_with("E:") {
        let may = !matches!(g.kind, BUFFER_TICKS_EXEC | BUFFER_SECONDS_EXEC);
        return if may && r.chance(p.driven) { source(r, gates, order, g) } else { None };
    }
    if g.kind == LOOP && pin == "Count" && r.chance(70) {
        return Some(r.pick(&[1, 2, 2, 3, 4]).into());
    }
    if r.chance(if g.kind == CLOCK { 70 } else { 10 }) {
        return None;
    }
    if r.chance(25) { Some(value(r).into()) } else { source(r, gates, order, g) }
}

fn value(r: &mut Random) -> Value {
    match r.below(6) {
        0..=2 => Value::Int(r.pick(INTS)),
        3 => Value::Float(r.pick(FLOATS)),
        _ => Value::Bool(r.chance(60)),
    }
}

/// Any gate, but more often one of these kinds.
fn rather(r: &mut Random, gates: &[Gate], kinds: &[i64]) -> Option<Gate> {
    let these: Vec<Gate> = gates.iter().copied().filter(|g| kinds.contains(&g.kind)).collect();
    match (gates.is_empty(), these.is_empty()) {
        (true, _) => None,
        (_, false) if r.chance(75) => Some(r.pick(&these)),
        _ => Some(r.pick(gates)),
    }
}

/// A value output, for a pure gate none that would close a ring.
fn source(r: &mut Random, gates: &[Gate], order: &[usize], g: Gate) -> Option<Feed> {
    let from = rather(r, gates, &[VAR, VAR, SELECT, ENTRY, LOOP, CYCLE, TOGGLE, WORLD_EVENT])?;
    let place = |g: Gate| order[g.number as usize];
    if is_pure(g) && is_pure(from) && place(from) >= place(g) {
        return None;
    }
    let outs: Vec<usize> =
        (0..outputs_of(from.kind).len()).filter(|&o| is_value(outputs_of(from.kind)[o])).collect();
    if outs.is_empty() { None } else { Some(Output(from.first_output + r.pick(&outs) as i64).into()) }
}

/// Whether no call may enter a gate of this kind.
fn begins(g: Gate) -> bool {
    !inputs_of(g.kind).iter().any(|pin| may_be_called(pin))
}

/// Calls in one body, which climb from level to level, so that chains end; each
/// Loop is entered by something, and each entry calls something.
fn calls(r: &mut Random, p: &Profile, c: &mut Circuit, gates: &[Gate]) {
    let levels: Vec<usize> = gates.iter().map(|_| r.below(4)).collect();
    let level = |g: Gate| levels[g.number as usize];
    let mut made = Vec::new();
    for &from in gates {
        let near: Vec<Gate> = gates
            .iter()
            .copied()
            .filter(|&to| body(c, to) == body(c, from) && !begins(to))
            .filter(|&to| begins(from) || level(to) > level(from))
            .collect();
        for out in outputs_of(from.kind) {
            let calling = if from.kind == ENTRY { 95 } else { p.calling };
            if !may_call(out) || !r.chance(calling) {
                continue;
            }
            for _ in 0..r.between((1, 2)) {
                let Some(to) = rather(r, &near, LIVELY) else { continue };
                made.push((from.out(out.trim_end_matches('!')), called(r, to)));
            }
        }
    }
    for of in of_kind(gates, LOOP) {
        let around: Vec<Gate> = gates.iter().copied().filter(|&g| body(c, g) == body(c, of)).collect();
        let begin = |kind| of_kind(&around, kind);
        let from = [begin(ENTRY), begin(CLOCK), begin(WORLD_EVENT)].concat();
        if !from.is_empty() {
            made.push((r.pick(&from).exit(), of.entry()));
        }
    }
    r.shuffle(&mut made);
    for (from, to) in made.into_iter().take(200) {
        if r.chance(p.remote) { c.remote(from, to) } else { c.call(from, to) }
    }
}

fn entry_of(c: &Circuit, gates: &[Gate], of: Gate) -> Gate {
    let entries = of_kind(gates, ENTRY);
    entries.into_iter().find(|&g| body(c, g) == 1 + of.number).expect("an entry for each Loop")
}

/// In the body of a Loop, perhaps a Break in its second, third or fourth run, and
/// perhaps a Union that is called twice, remotely or not, and may be a unit.
fn break_and_unite(r: &mut Random, p: &Profile, c: &mut Circuit, gates: &[Gate], of: Gate) {
    let entry = entry_of(c, gates, of);
    let near: Vec<Gate> = gates.iter().copied().filter(|&g| body(c, g) == 1 + of.number).collect();
    if r.chance(60) {
        let count = c.cycle(0, r.between((2, 4)) as i64);
        let more = c.branch(0, count);
        let enough = c.break_out(r.pick(&p.ranks));
        c.put_inside(of, &[count, more, enough]);
        c.chain(&[entry, count, more]);
        c.call(more.out("ExecOutB"), enough);
        let next = r.pick(&near);
        if !begins(next) && next.kind != LOOP {
            c.call(enough, next);
        }
    }
    if r.chance(60) {
        let once = c.union(r.pick(&p.ranks));
        let count = c.cycle(0, 1_000);
        c.put_inside(of, &[once, count]);
        for _ in 0..2 {
            if r.chance(30) { c.remote(entry, once) } else { c.call(entry, once) }
        }
        c.call(once, count);
        if r.chance(40) {
            c.feed(once.entry(), of_kind(gates, WORLD_EVENT)[0]);
        }
    }
}

/// A Clock that enters a Loop, whose body writes a Var, and what watches that,
/// directly and behind a Select over another Var; before or after the Loop the
/// Clock may write one of them too.
fn watch_a_body(r: &mut Random, p: &Profile, c: &mut Circuit, gates: &[Gate]) {
    let loops: Vec<Gate> = of_kind(gates, LOOP).into_iter().filter(|&g| body(c, g) == 0).collect();
    let of = r.pick(&loops);
    let entry = entry_of(c, gates, of);
    let clock = c.clock(r.pick(&p.ranks), r.pick(&[0.25, 0.25, 0.5]));
    let vars = [c.var(0), c.var(1)];
    let count = c.cycle(0, 5);
    let inside = c.var_set(0, vars[0], if r.chance(50) { count } else { entry });
    c.put_inside(of, &[count, inside]);
    c.call_all(entry, &[count, inside]);
    let outside = c.var_set(0, vars[usize::from(r.chance(70))], count);
    let either = c.select(vars[1], vars[0], vars[usize::from(r.chance(50))]);
    for _ in 0..r.between((2, 4)) {
        let seen = r.pick(&[vars[0], vars[0], either]);
        let rank = r.pick(&p.ranks);
        match r.below(5) {
            0 | 1 => c.change_detector(rank, seen),
            2 => c.edge_exec(rank, seen),
            _ => {
                let pin = c.toggle(rank);
                c.feed(pin.entry(), seen);
                pin
            }
        };
    }
    c.call_all(clock, r.pick(&[&[of][..], &[of, outside], &[outside, of], &[of]]));
}

/// Gates that a body is rather made of.
const LIVELY: &[i64] = &[VAR_SET, VAR_SET, CYCLE, TOGGLE, LOOP, BRANCH];

fn called(r: &mut Random, g: Gate) -> Input {
    let pins: Vec<&str> = inputs_of(g.kind).into_iter().filter(|pin| may_be_called(pin)).collect();
    let pin = r.pick(&pins);
    g.pin(pin.rsplit(':').next().unwrap_or(pin))
}

fn script(r: &mut Random, p: &Profile, c: &mut Circuit, gates: &[Gate]) -> Script {
    let worlds = of_kind(gates, WORLD_EVENT);
    let names: Vec<i64> = (0..5).map(|_| value(r)).map(|v| c.constant(v)).collect();
    let mut s = Script::new();
    for _ in 0..r.between(p.ticks) {
        s.tick(r.pick(p.lengths));
        for _ in 0..r.pick(&[0, 1, 1, 2]) {
            let name = if r.chance(15) { 0 } else { r.pick(&names) };
            s.give(r.pick(&worlds), name);
        }
    }
    s
}
