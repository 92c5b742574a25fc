//! Damaged circuits and scripts: one fault or two of known questions.

use super::valid::draft;
use super::{Family, Random, looped};
use crate::Lent;
use crate::build::*;
use crate::case::Case;

/// The questions in the order in which they are asked.
pub const ASKED: [u8; 11] = [1, 2, 3, 4, 5, 19, 6, 7, 8, 9, 10];

/// A damaged case and the questions whose answer is no in it, as they are asked.
pub struct Damaged {
    pub case: Case,
    pub questions: Vec<u8>,
}

fn in_order(questions: &mut Vec<u8>) {
    questions.sort_by_key(|q| ASKED.iter().position(|asked| asked == q));
    questions.dedup();
}

/// A small circuit of the family, with gates of its own for the faults to
/// fall on, so that no fault undoes another.
struct Draft {
    c: Circuit,
    s: Script,
    lent: Lent,
    world: Gate,
    toggle: Gate,
    var: Gate,
    reroute: Gate,
}

/// The damaged case of a seed, without a Loop.
pub fn damaged(seed: u64) -> Damaged {
    let mut r = Random::new(seed ^ 0xDA3A_6ED0_0000_0000);
    let mut d = whole(seed);
    let mut questions = vec![1 + r.below(10) as u8];
    if r.chance(40) {
        questions.push(1 + r.below(10) as u8);
        questions.sort_unstable();
        questions.dedup();
    }
    let drawn = questions.clone();
    for (question, drawn) in questions.iter_mut().zip(&drawn) {
        *question = fault(*drawn, &mut r, &mut d);
    }
    in_order(&mut questions);
    let (mut circuit, mut script) = (d.c.bytes(), d.s.bytes());
    if questions.contains(&1) {
        spoil(&mut r, &mut circuit, &[65, 65, 641, 257]);
    }
    if questions.contains(&8) {
        spoil(&mut r, &mut script, &[100_001, 65_536]);
    }
    let list: Vec<String> = questions.iter().map(u8::to_string).collect();
    let shows = format!("Damaged for question {}.", list.join(" and "));
    let mut case = Case::of_bytes(format!("damaged-{seed}"), shows, circuit, script);
    case.lent = d.lent;
    Damaged { case, questions }
}

fn whole(seed: u64) -> Draft {
    let (mut c, mut s) = draft(seed, Family::Small);
    let world = c.world_event(0);
    let toggle = c.toggle(0);
    let var = c.var(1);
    let reroute = c.reroute(var);
    c.call(world, toggle);
    s.tick(0.25).give(world, 1);
    Draft { c, s, lent: Lent::default(), world, toggle, var, reroute }
}

/// One of the faults of a question; those of 1 and 8 are made on the bytes. The
/// answer is the question that it is a fault of: of those of 3 one is of 19.
fn fault(question: u8, r: &mut Random, d: &mut Draft) -> u8 {
    match question {
        2 => constant(r, d),
        3 => return kind_or_rank(r, d),
        4 => input(r, d),
        5 => call(r, d),
        6 => ring(r, d),
        7 => area(r, d),
        9 => tick(r, d),
        10 => stimulus(r, d),
        _ => (),
    }
    question
}

/// Bytes that are not whole words, not of the length they say, or whose
/// sizes are out of their bounds (`past` is one past each).
fn spoil(r: &mut Random, bytes: &mut Vec<u8>, past: &[i64]) {
    match r.below(5) {
        0 => bytes.truncate(bytes.len() - r.between((1, 16))),
        1 => bytes.extend(vec![0; r.between((1, 16))]),
        2 => bytes.truncate(r.below(8 * past.len())),
        3 => size(bytes, r.below(past.len()), r.pick(&[-1, i64::MIN, i64::MAX, 1 << 32, 1 << 60])),
        _ => {
            let at = r.below(past.len());
            size(bytes, at, past[at]);
        }
    }
}

fn size(bytes: &mut [u8], at: usize, word: i64) {
    bytes[8 * at..8 * at + 8].copy_from_slice(&word.to_le_bytes());
}

fn constant(r: &mut Random, d: &mut Draft) {
    let bad = [
        (0, 0),
        (4, 1),
        (-1, 1),
        (1 + (1 << 32), 1),
        (2, bits(f64::INFINITY)),
        (2, bits(f64::NEG_INFINITY)),
        (2, 0x7FF0_0000_0000_0001),
        (2, -1),
        (3, 2),
        (3, -1),
    ];
    let bad = r.pick(&bad);
    if r.chance(50) {
        d.c.constants.push(bad);
    } else {
        let at = r.below(d.c.constants.len());
        d.c.constants[at] = bad;
    }
}

/// A kind of 29 is wrong by its inputs, but for a gate of four inputs, which is
/// given a kind of 32; a word of 65,536 is a body without a Loop, and asked for
/// by question 19.
fn kind_or_rank(r: &mut Random, d: &mut Draft) -> u8 {
    let at = r.below(d.c.gates.len());
    match r.below(4) {
        0 => {
            let four = d.c.gates[at].0 == STOPWATCH;
            let kind = r.pick(&[0, LOOP, -1, 28 + (1 << 32), i64::MIN]);
            d.c.gates[at].0 = if four && kind == LOOP { 32 } else { kind };
        }
        1 => {
            d.c.gates[at].1 = r.pick(&[-1, RANKS, 1 << 32, i64::MIN]);
            if d.c.gates[at].1 == RANKS {
                return 19;
            }
        }
        2 => d.c.inputs.push((-1, 0)),
        _ => {
            d.c.gates.push((DELTA_TIME, 0));
            d.c.inputs.push((-1, 0));
        }
    }
    3
}

/// A fault on the input of a gate that is there for it.
fn input(r: &mut Random, d: &mut Draft) {
    let past = d.c.outputs() as i64;
    match r.below(6) {
        0 => {
            let gate = d.c.select(NOTHING, NOTHING, NOTHING);
            let source = r.pick(&[-2, past + 1, d.world.exit().0, 1 << 32, i64::MIN]);
            d.c.inputs[gate.first_input as usize + r.below(3)].0 = source;
        }
        1 => {
            let gate = d.c.reroute(NOTHING);
            let constants = d.c.constants.len() as i64;
            d.c.inputs[gate.first_input as usize].1 = r.pick(&[-1, constants + 1, 1 << 32, i64::MIN]);
        }
        2 => {
            let gate = d.c.select(d.world, NOTHING, NOTHING);
            d.c.inputs[gate.first_input as usize].1 = 1;
        }
        3 => {
            let kind = r.pick(&[BUFFER_TICKS_EXEC, BUFFER_SECONDS_EXEC, STOPWATCH, BRANCH, UNION, CYCLE]);
            let gate = d.c.gate(kind, 0);
            d.c.inputs[gate.first_input as usize].1 = 1;
        }
        4 => {
            let kind =
                r.pick(&[VAR, EVENT_CUSTOM, EVENT_CUSTOM_GLOBAL, BUFFER_TICKS_EXEC, BUFFER_SECONDS_EXEC]);
            let gate = d.c.gate(kind, 0);
            d.c.inputs[gate.first_input as usize] = (d.world.value().0, 0);
        }
        _ => setting(r, d),
    }
}

fn setting(r: &mut Random, d: &mut Draft) {
    let (ticks, seconds) = (Feed::from(3), Feed::from(0.5));
    let rows = [
        (BUFFER_TICKS, "wait", seconds),
        (BUFFER_TICKS_EXEC, "zero", seconds),
        (BUFFER_SECONDS, "zero", ticks),
        (BUFFER_SECONDS_EXEC, "wait", true.into()),
        (CLOCK, "interval", ticks),
        (VAR_GET, "variable", NOTHING),
        (VAR_GET, "variable", d.toggle.number.into()),
        (VAR_SET, "variable", seconds),
        (VAR_SET, "variable", (-1).into()),
        (SEND_EVENT, "channel", NOTHING),
        (SEND_EVENT_GLOBAL, "channel", 256.into()),
        (EVENT_CUSTOM, "channel", (-1).into()),
        (EVENT_CUSTOM_GLOBAL, "channel", false.into()),
    ];
    let (kind, pin, with) = r.pick(&rows);
    let gate = d.c.gate(kind, 0);
    d.c.feed(gate.pin(pin), with);
}

fn call(r: &mut Random, d: &mut Draft) {
    let from = d.world.exit().0;
    let to = 2 * d.toggle.entry().0;
    let past = d.c.outputs() as i64 + 50;
    let inputs = d.c.inputs.len() as i64;
    let bad = [
        (-1, to),
        (past, to),
        (d.var.value().0, to),
        (d.world.value().0, to),
        (from, -1),
        (from, -2),
        (from, 2 * inputs),
        (from, 2 * inputs + 1),
        (from, 2 * d.var.first_input),
        (from, i64::MIN),
    ];
    let bad = r.pick(&bad);
    let at = r.below(d.c.calls.len() + 1);
    d.c.calls.insert(at, bad);
}

fn ring(r: &mut Random, d: &mut Draft) {
    match r.below(3) {
        0 => d.c.feed(d.reroute.pin("RER_Input"), d.reroute),
        1 => {
            let select = d.c.select(NOTHING, 1, d.reroute);
            d.c.feed(d.reroute.pin("RER_Input"), select);
        }
        _ => {
            let a = d.c.reroute(d.reroute);
            let b = d.c.select(a, NOTHING, NOTHING);
            d.c.feed(d.reroute.pin("RER_Input"), b);
        }
    }
}

fn area(r: &mut Random, d: &mut Draft) {
    match r.below(4) {
        0 => d.lent.values = r.pick(&[0, 8, 65_535]),
        1 => d.lent.units = r.pick(&[0, 65_528, 65_535]),
        2 => d.lent.delays = r.pick(&[0, 65_535]),
        _ => {
            for k in 0..9 {
                d.c.gate(QUEUE_TICKS + k % 2, 0);
            }
            d.lent.delays = 9 * 65_536;
        }
    }
}

fn tick(r: &mut Random, d: &mut Draft) {
    let at = r.below(d.s.ticks.len());
    let bad = [
        bits(3600.0) + 1,
        bits(-5e-324),
        bits(-1.0),
        bits(f64::INFINITY),
        -1,
        0x7FF0_0000_0000_0001,
        i64::MAX,
    ];
    match r.below(3) {
        0 => d.s.ticks[at].0 = r.pick(&bad),
        1 => d.s.ticks[at].1 += r.pick(&[1, -1, 65, 1 << 32]),
        _ => {
            d.s.ticks[at].1 = -1;
            d.s.tick(0.25);
        }
    }
}

fn stimulus(r: &mut Random, d: &mut Draft) {
    let at = r.below(d.s.stimuli.len());
    let constants = d.c.constants.len() as i64;
    if r.chance(50) {
        d.s.stimuli[at].0 = r.pick(&[-1, 64, 1 << 32, d.toggle.number, d.var.number]);
    } else {
        d.s.stimuli[at].1 = r.pick(&[-1, constants + 1, 1 << 32]);
    }
}

/// A circuit with Loops, and gates of its own for the faults to fall on: a World
/// event and a Toggle outside, a Loop with its entry, and a Toggle in its body.
struct Looped {
    c: Circuit,
    world: Gate,
    outside: Gate,
    repeat: Gate,
    entry: Gate,
    inside: Gate,
    reroute: Gate,
}

/// The damaged case of a seed with Loops, for one or two of questions 3, 4, 5, 19
/// and 6.
pub fn damaged_loops(seed: u64) -> Damaged {
    let mut r = Random::new(seed ^ 0x1003_6ED0_0000_0000);
    let (c, mut s) = looped::draft(seed, Family::Loops);
    let mut d = with_own_gates(c);
    s.tick(0.25).fire(d.world);
    let mut questions = vec![r.pick(&[3, 4, 5, 19, 19, 19])];
    if r.chance(40) {
        questions.push(r.pick(&[4, 5, 19, 6]));
    }
    in_order(&mut questions);
    for &question in &questions {
        match question {
            3 => kind_or_body(&mut r, &mut d),
            4 => setting_of_entry(&mut r, &mut d),
            5 => call_of_loop(&mut r, &mut d),
            19 => body(&mut r, &mut d),
            _ => d.c.feed(d.reroute.pin("RER_Input"), d.reroute),
        }
    }
    let list: Vec<String> = questions.iter().map(u8::to_string).collect();
    let shows = format!("With Loops, damaged for question {}.", list.join(" and "));
    let case = Case::new(format!("damaged-loops-{seed}"), shows, &d.c, &s);
    Damaged { case, questions }
}

fn with_own_gates(mut c: Circuit) -> Looped {
    let world = c.world_event(0);
    let outside = c.toggle(0);
    let repeat = c.repeat(0, 2, 0, 1);
    let entry = c.body(repeat);
    let inside = c.toggle(0);
    let reroute = c.reroute(NOTHING);
    c.put_inside(repeat, &[inside]);
    c.call_all(world, &[outside, repeat]);
    c.call(entry, inside);
    Looped { c, world, outside, repeat, entry, inside, reroute }
}

fn kind_or_body(r: &mut Random, d: &mut Looped) {
    let at = r.below(d.c.gates.len());
    match r.below(3) {
        0 => d.c.gates[at].0 = r.pick(&[0, 32, -1, LOOP + (1 << 32)]),
        1 => d.c.gates[at].1 = r.pick(&[-1, -RANKS, 65 * RANKS, RANKS + (1 << 32), i64::MIN]),
        _ => d.c.inputs.push((-1, 0)),
    }
}

fn setting_of_entry(r: &mut Random, d: &mut Looped) {
    let number = d.repeat.number;
    let past = d.c.gates.len() as i64 + 64;
    let with: [Feed; 7] = [
        NOTHING,
        (number as f64).into(),
        true.into(),
        (-1).into(),
        d.outside.number.into(),
        past.into(),
        (number + (1 << 32)).into(),
    ];
    d.c.feed(d.entry.pin("loop"), r.pick(&with));
}

fn call_of_loop(r: &mut Random, d: &mut Looped) {
    let (from, to) = (d.world.exit().0, 2 * d.repeat.entry().0);
    let bad = [
        (d.repeat.value().0, to),
        (d.entry.value().0, to),
        (from, 2 * d.repeat.pin("Count").0),
        (from, 2 * d.repeat.pin("Step").0 + 1),
        (from, 2 * d.entry.pin("loop").0),
        (from, -2),
    ];
    let at = r.below(d.c.calls.len() + 1);
    d.c.calls.insert(at, r.pick(&bad));
}

fn body(r: &mut Random, d: &mut Looped) {
    match r.below(9) {
        0 => d.c.call(d.world, d.inside),
        1 => d.c.remote(d.inside, d.outside),
        2 => {
            d.c.repeat(0, 1, 0, 1);
        }
        3 => {
            d.c.body(d.repeat);
        }
        4 => d.c.gates[d.entry.number as usize].1 = 0,
        5 => d.c.gates[d.reroute.number as usize].1 = RANKS * (1 + d.outside.number),
        6 => d.c.gates[d.reroute.number as usize].1 = RANKS * (1 + d.c.gates.len() as i64).min(64),
        7 => {
            let own = d.c.repeat(0, 1, 0, 1);
            d.c.body(own);
            d.c.put_inside(own, &[own]);
        }
        _ => {
            let pair = [0; 2].map(|_| d.c.repeat(0, 1, 0, 1));
            for (k, own) in pair.into_iter().enumerate() {
                d.c.body(own);
                d.c.put_inside(own, &[pair[1 - k]]);
            }
        }
    }
}
