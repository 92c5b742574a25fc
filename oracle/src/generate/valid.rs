//! Valid circuits and scripts of a family.

use super::family::Profile;
use super::{Family, Random, looped};
use crate::build::*;
use crate::case::Case;

const INTS: &[i64] =
    &[0, 1, 2, 3, 5, -1, -7, 60, i64::MAX, i64::MIN, 1 << 53, (1 << 53) + 1, 1 << 24, (1 << 24) + 1];

const FLOATS: &[f64] = &[
    0.0,
    -0.0,
    0.1,
    0.25,
    0.3,
    0.5,
    0.7,
    1.0,
    1.5,
    2.5,
    -1.0,
    1e-300,
    5e-324,
    1e300,
    -1e300,
    9.3e18,
    -9.3e18,
    16777216.0,
    16777217.0,
    1.0000000596046448,
    3.4028235677973366e38,
];

const TICKS: &[i64] = &[0, 1, 2, 3, 4, 7, -1, i64::MIN, i64::MAX];

/// The valid case of a family and a seed.
pub fn valid(seed: u64, family: Family) -> Case {
    let (c, s) = match family {
        Family::Loops | Family::PutOff => looped::draft(seed, family),
        _ => draft(seed, family),
    };
    let name = format!("random-{}-{seed}", family.name());
    let mut case = Case::new(name, format!("{}.", family.about()), &c, &s);
    let queues = c.gates.iter().filter(|g| matches!(g.0, QUEUE_TICKS | QUEUE_SECONDS)).count();
    case.lent.delays *= queues.max(1);
    if family == Family::Stops && seed.is_multiple_of(4) {
        case.lent.log = 8 * Random::new(seed).between((0, 400));
    }
    case
}

/// Circuit and script of a family and a seed.
pub fn draft(seed: u64, family: Family) -> (Circuit, Script) {
    let mut r = Random::new(seed ^ ((family as u64) << 32));
    let p = family.profile();
    let mut c = Circuit::new();
    let gates = gates(&mut r, &p, &mut c);
    let order = order(&mut r, gates.len());
    for &g in &gates {
        for pin in inputs_of(g.kind) {
            let pin_number = g.pin(pin.rsplit(':').next().unwrap_or(pin));
            if let Some(with) = feed(&mut r, &p, &gates, &order, g, pin) {
                c.feed(pin_number, with);
            }
        }
    }
    calls(&mut r, &p, &mut c, &gates);
    if family == Family::Stops {
        overfill(&mut r, &mut c, &gates);
    }
    if family == Family::Stale {
        for _ in 0..r.between((1, 3)) {
            leave_stale(&mut r, &mut c, &gates);
        }
    }
    let s = script(&mut r, &p, &mut c, &gates);
    (c, s)
}

/// Gates in any order: World events, a Var, and kinds of the profile.
fn gates(r: &mut Random, p: &Profile, c: &mut Circuit) -> Vec<Gate> {
    let n = r.between(p.gates);
    let mut kinds = vec![WORLD_EVENT, VAR];
    if n > 8 {
        kinds.push(WORLD_EVENT);
    }
    let mut queues = 0;
    while kinds.len() < n {
        let kind = r.pick(&p.kinds);
        if matches!(kind, QUEUE_TICKS | QUEUE_SECONDS) {
            queues += 1;
            if queues > p.queues {
                continue;
            }
        }
        kinds.push(kind);
    }
    r.shuffle(&mut kinds);
    kinds.into_iter().map(|kind| c.gate(kind, r.pick(&p.ranks))).collect()
}

/// A place for each gate: a pure gate reads pure gates of lower places.
pub(super) fn order(r: &mut Random, n: usize) -> Vec<usize> {
    let mut places: Vec<usize> = (0..n).collect();
    r.shuffle(&mut places);
    places
}

pub(super) fn is_pure(g: Gate) -> bool {
    (SELECT..=SERVER_UPTIME).contains(&g.kind)
}

/// What an input is given; `None` for nothing.
fn feed(r: &mut Random, p: &Profile, gates: &[Gate], order: &[usize], g: Gate, pin: &str) -> Option<Feed> {
    if let Some(setting) = pin.strip_prefix("S:") {
        return setting_of(r, p, gates, g, setting);
    }
    if pin.starts_with("E:") {
        let may = !matches!(g.kind, BUFFER_TICKS_EXEC | BUFFER_SECONDS_EXEC);
        return if may && r.chance(p.driven) { source(r, gates, order, g) } else { None };
    }
    let quiet = if g.kind == CLOCK { 60 } else { 10 };
    if r.chance(quiet) {
        return None;
    }
    if r.chance(20) { Some(value(r).into()) } else { source(r, gates, order, g) }
}

pub(super) fn setting_of(
    r: &mut Random,
    p: &Profile,
    gates: &[Gate],
    g: Gate,
    setting: &str,
) -> Option<Feed> {
    let optional = r.chance(75);
    match (setting, g.kind) {
        ("variable", _) => {
            let vars: Vec<i64> = gates.iter().filter(|v| v.kind == VAR).map(|v| v.number).collect();
            Some(r.pick(&vars).into())
        }
        ("channel", _) => Some(r.pick(&[0, 1, 255]).into()),
        ("initial", _) => optional.then(|| value(r).into()),
        (_, BUFFER_TICKS | BUFFER_TICKS_EXEC) => optional.then(|| r.pick(TICKS).into()),
        (_, CLOCK) if r.chance(50) => Some(r.pick(&[0.0, 0.25, 0.5]).into()),
        _ => optional.then(|| r.pick(p.seconds).into()),
    }
}

fn value(r: &mut Random) -> Value {
    match r.below(5) {
        0 | 1 => Value::Int(r.pick(INTS)),
        2 | 3 => Value::Float(r.pick(FLOATS)),
        _ => Value::Bool(r.chance(50)),
    }
}

/// Gates whose outputs change when they are called.
const LIVELY: &[i64] = &[TOGGLE, CYCLE, VAR_SET, VAR_GET, SEND_EVENT, SEND_EVENT_GLOBAL];

/// Any gate, but more often one of these kinds.
fn rather(r: &mut Random, gates: &[Gate], kinds: &[i64]) -> Gate {
    let these: Vec<Gate> = gates.iter().copied().filter(|g| kinds.contains(&g.kind)).collect();
    if these.is_empty() || r.chance(50) { r.pick(gates) } else { r.pick(&these) }
}

/// A value output, for a pure gate none that would close a ring.
fn source(r: &mut Random, gates: &[Gate], order: &[usize], g: Gate) -> Option<Feed> {
    let from = rather(r, gates, &[TOGGLE, CYCLE, VAR, WORLD_EVENT, DELTA_TIME, SELECT]);
    let place = |g: Gate| order[g.number as usize];
    if is_pure(g) && is_pure(from) && place(from) >= place(g) {
        return None;
    }
    let outs: Vec<usize> =
        (0..outputs_of(from.kind).len()).filter(|&o| is_value(outputs_of(from.kind)[o])).collect();
    if outs.is_empty() {
        return None;
    }
    Some(Output(from.first_output + r.pick(&outs) as i64).into())
}

/// Calls that climb from level to level, so that chains end, and calls into
/// gates that end a chain.
fn calls(r: &mut Random, p: &Profile, c: &mut Circuit, gates: &[Gate]) {
    let levels: Vec<usize> = gates.iter().map(|_| r.below(5)).collect();
    let level = |g: Gate| levels[g.number as usize];
    let ends = |g: Gate| {
        matches!(g.kind, BUFFER_TICKS_EXEC | BUFFER_SECONDS_EXEC | STOPWATCH | QUEUE_TICKS | QUEUE_SECONDS)
    };
    let begins = |g: Gate| !inputs_of(g.kind).iter().any(|pin| may_be_called(pin));
    let mut made = Vec::new();
    for &from in gates {
        for out in outputs_of(from.kind) {
            if !may_call(out) || !r.chance(p.calling) {
                continue;
            }
            for _ in 0..r.between((1, 3)) {
                let to = rather(r, gates, LIVELY);
                if begins(to) || !(begins(from) || ends(from) || ends(to) || level(to) > level(from)) {
                    continue;
                }
                let pins: Vec<&str> =
                    inputs_of(to.kind).into_iter().filter(|pin| may_be_called(pin)).collect();
                let pin = r.pick(&pins);
                made.push((
                    from.out(out.trim_end_matches('!')),
                    to.pin(pin.rsplit(':').next().unwrap_or(pin)),
                ));
            }
        }
    }
    r.shuffle(&mut made);
    for (from, to) in made.into_iter().take(200) {
        if r.chance(p.remote) { c.remote(from, to) } else { c.call(from, to) }
    }
}

/// One thing that passes a limit when a World event calls it.
fn overfill(r: &mut Random, c: &mut Circuit, gates: &[Gate]) {
    let worlds: Vec<Gate> = gates.iter().copied().filter(|g| g.kind == WORLD_EVENT).collect();
    let world = r.pick(&worlds);
    let again = c.reroute(NOTHING);
    match r.below(4) {
        0 => {
            c.call_all(again, &[again, again]);
            c.call(world, again);
        }
        1 => {
            c.remote(again, again);
            c.remote(again, again);
            c.call(world, again);
        }
        2 => {
            let later = c.buffer_ticks_exec(r.pick(&[0, 3, 9]), 5);
            for _ in 0..r.between((12, 33)) {
                c.call(world, later);
            }
        }
        _ => {
            let count = c.cycle(0, 1_000_000);
            let changed = c.change_detector(r.pick(&[0, 3, 9]), count);
            c.chain(&[world, count]);
            c.chain(&[changed, count]);
        }
    }
}

/// A row of Selects behind a detector's pulse and a Var, which nothing watches,
/// and a chain that writes the Var and then reads the Selects.
fn leave_stale(r: &mut Random, c: &mut Circuit, gates: &[Gate]) {
    let worlds: Vec<Gate> = gates.iter().copied().filter(|g| g.kind == WORLD_EVENT).collect();
    let (watched, other) = (r.pick(&worlds), r.pick(&worlds));
    let pulse = if r.chance(50) { c.edge(watched.value()) } else { c.change(watched.value()) };
    let var = c.var(1);
    let mut last = c.select(pulse, 5, var);
    for _ in 0..r.below(3) {
        last = if r.chance(50) { c.select(pulse, last, var) } else { c.select(last, var, last) };
    }
    let seen = c.var(NOTHING);
    let write = c.var_set(0, var, r.pick(INTS));
    let read = c.var_set(0, seen, last);
    c.chain(&[other, write, read]);
}

fn script(r: &mut Random, p: &Profile, c: &mut Circuit, gates: &[Gate]) -> Script {
    let worlds: Vec<Gate> = gates.iter().copied().filter(|g| g.kind == WORLD_EVENT).collect();
    let names: Vec<i64> = (0..6).map(|_| value(r)).map(|v| c.constant(v)).collect();
    let mut s = Script::new();
    for _ in 0..r.between(p.ticks) {
        s.tick(r.pick(p.lengths));
        for _ in 0..r.pick(&[0, 0, 1, 1, 1, 2, 3]) {
            let name = if r.chance(15) { 0 } else { r.pick(&names) };
            s.give(r.pick(&worlds), name);
        }
    }
    s
}
