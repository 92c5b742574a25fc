//! Each question at each of its bounds, and two faults at once. A case named
//! `qN-yes-..` passes all questions, one named `qN-no-..` is refused as N.

use super::Case;
use crate::Lent;
use crate::build::*;
use crate::generate::ASKED;

pub fn cases() -> Vec<Case> {
    let mut cases = Vec::new();
    cases.extend(question_1());
    cases.extend(question_2());
    cases.extend(question_3());
    cases.extend(question_4_wires());
    cases.extend(question_4_settings());
    cases.extend(question_5());
    cases.extend(question_6());
    cases.extend(question_7());
    cases.extend(question_8());
    cases.extend(question_9());
    cases.extend(question_10());
    cases.extend(pairs());
    cases
}

/// A circuit, its script and what is lent, before one edit.
#[derive(Clone)]
struct Draft {
    c: Circuit,
    s: Script,
    lent: Lent,
    world: Gate,
    toggle: Gate,
    select: Gate,
    reroute: Gate,
    var: Gate,
}

fn draft() -> Draft {
    let mut c = Circuit::new();
    let world = c.world_event(3);
    let toggle = c.toggle(1);
    let var = c.var(7);
    let select = c.select(world, 2.5, var);
    let reroute = c.reroute(select);
    c.constant(true);
    c.call(world, toggle);
    let mut s = Script::new();
    s.tick(0.25).give(world, 1).tick(0.5);
    Draft { c, s, lent: Lent::default(), world, toggle, select, reroute, var }
}

/// The case of an edited draft.
fn edited(name: String, edit: impl FnOnce(&mut Draft)) -> Case {
    let mut d = draft();
    edit(&mut d);
    let mut case = Case::new(name, "", &d.c, &d.s);
    case.lent = d.lent;
    case
}

fn yes(question: u8, what: &str, edit: impl FnOnce(&mut Draft)) -> Case {
    let mut case = edited(format!("q{question}-yes-{}", dashed(what)), edit);
    case.shows = format!("Question {question}, yes: {what}.");
    case
}

fn no(question: u8, what: &str, edit: impl FnOnce(&mut Draft)) -> Case {
    let mut case = edited(format!("q{question}-no-{}", dashed(what)), edit);
    case.shows = format!("Question {question}, no: {what}.");
    case
}

/// `no`, by an edit of the bytes of circuit and script.
fn no_bytes(question: u8, what: &str, edit: impl FnOnce(&mut Vec<u8>, &mut Vec<u8>)) -> Case {
    let mut case = no(question, what, |_| ());
    edit(&mut case.circuit, &mut case.script);
    case
}

fn dashed(what: &str) -> String {
    let kept = what.chars().filter(|c| c.is_ascii_alphanumeric() || " -^+".contains(*c));
    kept.collect::<String>().to_lowercase().split_whitespace().collect::<Vec<_>>().join("-")
}

fn question_1() -> Vec<Case> {
    let mut cases = vec![
        no_bytes(1, "no bytes", |c, _| c.clear()),
        no_bytes(1, "one byte", |c, _| c.truncate(1)),
        no_bytes(1, "three words", |c, _| c.truncate(24)),
        no_bytes(1, "31 bytes", |c, _| c.truncate(31)),
        no_bytes(1, "four words alone", |c, _| c.truncate(32)),
        no_bytes(1, "a byte more", |c, _| c.push(0)),
        no_bytes(1, "a byte less", |c, _| c.truncate(c.len() - 1)),
        no_bytes(1, "a word more", |c, _| c.extend([0; 8])),
        no_bytes(1, "a word less", |c, _| c.truncate(c.len() - 8)),
        no_bytes(1, "two words more", |c, _| c.extend([0; 16])),
        no_bytes(1, "G 0", |c, _| *c = bytes_of(&[0, 0, 0, 0])),
        no_bytes(1, "G -1 and K 1", |c, _| *c = bytes_of(&[-1, 1, 0, 0])),
        no_bytes(1, "K -1 and G 2", |c, _| *c = bytes_of(&[2, -1, 0, 0, 3, 0])),
        no_bytes(1, "I -1 and G 2", |c, _| *c = bytes_of(&[2, 0, -1, 0, 3, 0])),
        no_bytes(1, "C -1 and G 2", |c, _| *c = bytes_of(&[2, 0, 0, -1, 3, 0])),
        no_bytes(1, "G 1 + 2^60 length wraps", |c, _| *c = bytes_of(&[1 + (1 << 60), 0, 0, 0, 3, 0])),
        no_bytes(1, "G 1 + 2^32", |c, _| *c = bytes_of(&[1 + (1 << 32), 0, 0, 0, 3, 0])),
        no_bytes(1, "C 2^63 least", |c, _| *c = bytes_of(&[1, 0, 0, i64::MIN, 3, 0])),
    ];
    cases.push(no(1, "G 65", |d| d.c = gates(65)));
    cases.push(no(1, "K 65", |d| d.c = constants(65)));
    cases.push(no(1, "I 641", |d| d.c.inputs.resize(641, (-1, 0))));
    cases.push(no(1, "C 257", |d| d.c.calls = vec![d.c.calls[0]; 257]));
    cases.push(yes(1, "one gate alone", |d| {
        d.c = gates(1);
        d.s = Script::new();
    }));
    cases.push(yes(1, "G 64", |d| {
        d.c = gates(64);
        d.s.stimuli[0].1 = 0;
    }));
    cases.push(yes(1, "K 64", |d| d.c = constants(64)));
    cases.push(yes(1, "C 256", |d| d.c.calls = vec![d.c.calls[0]; 256]));
    cases
}

/// World events and nothing else.
fn gates(n: usize) -> Circuit {
    let mut c = Circuit::new();
    for _ in 0..n {
        c.world_event(0);
    }
    c
}

/// A World event and constants.
fn constants(n: i64) -> Circuit {
    let mut c = gates(1);
    for k in 0..n {
        c.constant(k);
    }
    c
}

fn question_2() -> Vec<Case> {
    let constant = |kind: i64, content: i64| move |d: &mut Draft| d.c.constants.push((kind, content));
    let float = |b: u64| constant(2, b as i64);
    vec![
        no(2, "kind 0", constant(0, 0)),
        no(2, "kind 4", constant(4, 0)),
        no(2, "kind -1", constant(-1, 0)),
        no(2, "kind 1 + 2^32", constant(1 + (1 << 32), 0)),
        no(2, "the first constant", |d| d.c.constants[0].0 = 4),
        no(2, "infinity", constant(2, bits(f64::INFINITY))),
        no(2, "minus infinity", constant(2, bits(f64::NEG_INFINITY))),
        no(2, "not a number", float(0x7FF8_0000_0000_0000)),
        no(2, "not a number least", float(0x7FF0_0000_0000_0001)),
        no(2, "not a number negative", float(0xFFFF_FFFF_FFFF_FFFF)),
        no(2, "Bool 2", constant(3, 2)),
        no(2, "Bool -1", constant(3, -1)),
        no(2, "Bool 2^32", constant(3, 1 << 32)),
        yes(2, "largest Float", constant(2, bits(f64::MAX))),
        yes(2, "least Float", constant(2, bits(f64::MIN))),
        yes(2, "least part", float(1)),
        yes(2, "minus zero", constant(2, bits(-0.0))),
        yes(2, "Bool 0", constant(3, 0)),
        yes(2, "Bool 1", constant(3, 1)),
        yes(2, "Int least", constant(1, i64::MIN)),
        yes(2, "Int like infinity", constant(1, bits(f64::INFINITY))),
    ]
}

/// Words of 65,536 and more are asked about in the group of Loops.
fn question_3() -> Vec<Case> {
    let kind = |kind: i64| move |d: &mut Draft| d.c.gates[0].0 = kind;
    let rank = |rank: i64| move |d: &mut Draft| d.c.gates[4].1 = rank;
    vec![
        no(3, "kind 0", kind(0)),
        no(3, "kind 32", kind(32)),
        no(3, "kind -1", kind(-1)),
        no(3, "kind 28 + 2^32", kind(28 + (1 << 32))),
        no(3, "the last kind", |d| d.c.gates[4].0 = 32),
        no(3, "rank -1", rank(-1)),
        no(3, "rank 2^32", rank(1 << 32)),
        no(3, "an input more", |d| d.c.inputs.push((-1, 0))),
        no(3, "an input less", |d| {
            d.c.inputs.pop();
        }),
        no(3, "no inputs", |d| d.c.inputs.clear()),
        no(3, "a kind with more inputs", |d| d.c.gates[1].0 = VAR_SET),
        yes(3, "rank 65535", rank(65_535)),
        yes(3, "rank 0", rank(0)),
        yes(3, "a gate without inputs at the end", |d| {
            d.c.delta_time();
        }),
    ]
}

fn question_4_wires() -> Vec<Case> {
    let source = |to: i64| move |d: &mut Draft| d.c.inputs[d.reroute.pin("RER_Input").0 as usize].0 = to;
    let stored =
        |name: i64| move |d: &mut Draft| d.c.inputs[d.reroute.pin("RER_Input").0 as usize] = (-1, name);
    let mut cases = vec![
        no(4, "source -2", source(-2)),
        no(4, "source past the outputs", |d| source(d.c.outputs() as i64)(d)),
        no(4, "source 2^32", source(1 << 32)),
        no(4, "source least", source(i64::MIN)),
        no(4, "source an exec output", |d| source(d.world.exit().0)(d)),
        yes(4, "source -1", source(-1)),
        yes(4, "source of a later gate", |d| {
            let late = d.c.server_uptime();
            d.c.feed(d.reroute.pin("RER_Input"), late);
        }),
        yes(4, "source RER_Output", |d| {
            let more = d.c.reroute(d.reroute);
            d.c.change_detector(0, more);
        }),
        no(4, "stored -1", stored(-1)),
        no(4, "stored past the constants", |d| stored(d.c.constants.len() as i64 + 1)(d)),
        no(4, "stored 1 + 2^32", stored(1 + (1 << 32))),
        yes(4, "stored the last constant", |d| stored(d.c.constants.len() as i64)(d)),
        no(4, "source and stored", |d| d.c.inputs[d.select.pin("InputB").0 as usize].1 = 1),
        no(4, "source and stored on the first input", |d| {
            d.c.inputs[d.toggle.pin("Exec").0 as usize] = (1, 1)
        }),
    ];
    for kind in SELECT..=BREAK {
        for (k, pin) in inputs_of(kind).into_iter().enumerate() {
            let what =
                format!("on {} {}", kind_name(kind), pin.trim_start_matches("E:").trim_start_matches("S:"));
            let edit = move |d: &mut Draft, with: fn(&Draft) -> (i64, i64)| {
                let at = with_settings(d, kind).first_input as usize + k;
                d.c.inputs[at] = with(d);
            };
            let source = |d: &mut Draft| edit(d, |d| (d.world.value().0, 0));
            let stored = |d: &mut Draft| edit(d, |_| (-1, 1));
            let exec_input = matches!(kind, BUFFER_TICKS_EXEC | BUFFER_SECONDS_EXEC) && k == 0;
            if pin.starts_with("S:") || exec_input {
                cases.push(no(4, &format!("source {what}"), source));
            } else {
                cases.push(yes(4, &format!("source {what}"), source));
            }
            if pin.starts_with("E:") {
                cases.push(no(4, &format!("constant {what}"), stored));
            } else if !pin.starts_with("S:") {
                cases.push(yes(4, &format!("constant {what}"), stored));
            }
        }
    }
    cases
}

/// A gate of this kind with the settings it must have.
fn with_settings(d: &mut Draft, kind: i64) -> Gate {
    let gate = d.c.gate(kind, 0);
    for pin in inputs_of(kind) {
        match pin {
            "S:variable" => d.c.feed(gate.pin("variable"), d.var.number),
            "S:channel" => d.c.feed(gate.pin("channel"), 0),
            "S:loop" => {
                let repeat = d.c.repeat(0, NOTHING, NOTHING, NOTHING);
                d.c.feed(gate.pin("loop"), repeat.number);
                d.c.put_inside(repeat, &[gate]);
            }
            _ => (),
        }
    }
    if kind == LOOP {
        d.c.body(gate);
    }
    gate
}

fn question_4_settings() -> Vec<Case> {
    let set = |kind: i64, pin: &'static str, with: Feed| {
        move |d: &mut Draft| {
            let gate = with_settings(d, kind);
            d.c.feed(gate.pin(pin), with);
        }
    };
    let mut cases = Vec::new();
    for with in [NOTHING, 5.into(), 2.5.into(), true.into()] {
        cases.push(yes(4, &format!("initial {}", shown(with)), set(VAR, "initial", with)));
    }
    for kind in BUFFER_TICKS..=BUFFER_SECONDS_EXEC {
        let seconds = kind >= BUFFER_SECONDS;
        for pin in ["wait", "zero"] {
            for with in [NOTHING, Feed::from(-5), Feed::from(0.5), Feed::from(true)] {
                let what = format!("{} {pin} {}", kind_name(kind), shown(with));
                let fits = match with {
                    Feed::Nothing => true,
                    Feed::Stored(Value::Int(_)) => !seconds,
                    Feed::Stored(Value::Float(_)) => seconds,
                    _ => false,
                };
                let case = if fits {
                    yes(4, &what, set(kind, pin, with))
                } else {
                    no(4, &what, set(kind, pin, with))
                };
                cases.push(case.tells(if pin == "zero" { &[46] } else { &[] }));
            }
        }
    }
    for (with, fits) in [(NOTHING, true), (0.5.into(), true), (1.into(), false), (true.into(), false)] {
        let what = format!("Clock interval {}", shown(with));
        let edit = set(CLOCK, "interval", with);
        cases.push(if fits { yes(4, &what, edit) } else { no(4, &what, edit) });
    }
    for kind in [VAR_GET, VAR_SET] {
        let rows: [(Feed, bool); 8] = [
            (2.into(), true),
            (NOTHING, false),
            (0.into(), false),
            ((-1).into(), false),
            (6.into(), false),
            ((2 + (1 << 32)).into(), false),
            (2.0.into(), false),
            (true.into(), false),
        ];
        for (with, fits) in rows {
            let what = format!("{} variable {}", kind_name(kind), shown(with));
            let edit = set(kind, "variable", with);
            cases.push(if fits { yes(4, &what, edit) } else { no(4, &what, edit) });
        }
    }
    for kind in SEND_EVENT..=EVENT_CUSTOM_GLOBAL {
        let rows: [(Feed, bool); 8] = [
            (0.into(), true),
            (255.into(), true),
            (256.into(), false),
            ((-1).into(), false),
            ((1 << 32).into(), false),
            (NOTHING, false),
            (1.0.into(), false),
            (true.into(), false),
        ];
        for (with, fits) in rows {
            let what = format!("{} channel {}", kind_name(kind), shown(with));
            let edit = set(kind, "channel", with);
            cases.push(if fits { yes(4, &what, edit) } else { no(4, &what, edit) });
        }
    }
    cases
}

fn shown(with: Feed) -> String {
    match with {
        Feed::Nothing => "nothing".into(),
        Feed::Stored(Value::Int(n)) => format!("Int {n}"),
        Feed::Stored(Value::Float(_)) => "a Float".into(),
        Feed::Stored(Value::Bool(_)) => "a Bool".into(),
        Feed::From(_) => "a source".into(),
    }
}

fn question_5() -> Vec<Case> {
    let from = |from: i64| move |d: &mut Draft| d.c.calls[0].0 = from;
    let to = |to: i64| move |d: &mut Draft| d.c.calls[0].1 = to;
    let mut cases = vec![
        no(5, "from -1", from(-1)),
        no(5, "from past the outputs", |d| from(d.c.outputs() as i64)(d)),
        no(5, "from 2^32", from(1 << 32)),
        no(5, "to -1", to(-1)).tells(&[44]),
        no(5, "to -2", to(-2)).tells(&[44]),
        no(5, "to past the inputs", |d| to(2 * d.c.inputs.len() as i64)(d)),
        no(5, "to past the inputs remote", |d| to(2 * d.c.inputs.len() as i64 + 1)(d)),
        no(5, "to 2^33", to(1 << 33)),
        no(5, "to least", to(i64::MIN)),
        no(5, "the last call", |d| d.c.calls.push((-1, 0))),
        yes(5, "no calls", |d| d.c.calls.clear()),
        yes(5, "the same call twice", |d| d.c.calls.push(d.c.calls[0])),
        yes(5, "remote", |d| d.c.calls[0].1 += 1),
        yes(5, "a pin with a source", |d| d.c.feed(d.toggle.pin("Exec"), d.world)).tells(&[8]),
    ];
    for kind in SELECT..=BREAK {
        for (k, out) in outputs_of(kind).into_iter().enumerate() {
            let what = format!("from {} {}", kind_name(kind), out.trim_end_matches('!'));
            let edit = move |d: &mut Draft| {
                let gate = with_settings(d, kind);
                let body = d.c.gates[gate.number as usize].1 / RANKS;
                d.c.gates[d.toggle.number as usize].1 += RANKS * body;
                d.c.calls[0].0 = gate.first_output + k as i64;
            };
            cases.push(if may_call(out) { yes(5, &what, edit) } else { no(5, &what, edit) });
        }
        for (k, pin) in inputs_of(kind).into_iter().enumerate() {
            let what =
                format!("to {} {}", kind_name(kind), pin.trim_start_matches("E:").trim_start_matches("S:"));
            let edit = move |d: &mut Draft| {
                let at = with_settings(d, kind).first_input + k as i64;
                d.c.calls[0].1 = 2 * at;
            };
            cases.push(if may_be_called(pin) { yes(5, &what, edit) } else { no(5, &what, edit) });
        }
    }
    cases
}

fn question_6() -> Vec<Case> {
    vec![
        no(6, "a Reroute of itself", |d| d.c.feed(d.reroute.pin("RER_Input"), d.reroute)),
        no(6, "a Select by itself", |d| d.c.feed(d.select.pin("bSelectB"), d.select)),
        no(6, "a ring of two", |d| d.c.feed(d.select.pin("InputA"), d.reroute)),
        no(6, "a ring of three on a side never chosen", |d| {
            let third = d.c.reroute(d.reroute);
            d.c.feed(d.select.pin("bSelectB"), false);
            d.c.feed(d.select.pin("InputB"), third);
        }),
        no(6, "a ring of 60", |d| {
            d.c = gates(1);
            let first = d.c.reroute(NOTHING);
            let mut last = first;
            for _ in 0..59 {
                last = d.c.reroute(last);
            }
            d.c.feed(first.pin("RER_Input"), last);
        }),
        yes(6, "a row of 60 downwards", |d| {
            d.c = gates(1);
            d.s.stimuli[0].1 = 0;
            let row: Vec<Gate> = (0..60).map(|_| d.c.reroute(NOTHING)).collect();
            for pair in row.windows(2) {
                d.c.feed(pair[0].pin("RER_Input"), pair[1]);
            }
            let world = d.world;
            d.c.feed(row[59].pin("RER_Input"), world);
        }),
        yes(6, "a ring through a Var", |d| {
            let set = d.c.var_set(0, d.var, d.reroute);
            d.c.call(d.world, set);
        }),
        yes(6, "a ring through a buffer", |d| {
            let buffer = d.c.buffer_ticks(d.reroute, 1, NOTHING);
            d.c.feed(d.select.pin("bSelectB"), buffer);
        }),
        yes(6, "a ring through an Edge", |d| {
            let edge = d.c.edge(d.reroute);
            d.c.feed(d.select.pin("bSelectB"), edge);
        }),
        yes(6, "a ring of calls", |d| {
            let union = d.c.union(0);
            d.c.chain(&[d.world, union, d.reroute, union]);
        })
        .tells(&[28]),
    ]
}

fn queues(n: i64) -> Circuit {
    let mut c = gates(1);
    for k in 0..n {
        c.gate(QUEUE_TICKS + k % 2, 0);
    }
    c
}

fn question_7() -> Vec<Case> {
    let with = |n: i64, delays: usize| {
        move |d: &mut Draft| {
            d.c = queues(n);
            d.s.stimuli[0].1 = 0;
            d.lent.delays = delays;
        }
    };
    const AREA: usize = 65_536;
    vec![
        no(7, "values 65535", |d| d.lent.values = AREA - 1),
        no(7, "units 65535", |d| d.lent.units = AREA - 1),
        no(7, "delays 65535", |d| d.lent.delays = AREA - 1),
        no(7, "no values", |d| d.lent.values = 0),
        no(7, "no areas", |d| d.lent = Lent { log: AREA, values: 0, units: 0, delays: 0 }),
        no(7, "one Queue delays 65535", with(1, AREA - 1)),
        no(7, "two Queues delays 65536", with(2, AREA)),
        no(7, "two Queues delays 131071", with(2, 2 * AREA - 1)),
        no(7, "eight Queues delays 524287", with(8, 8 * AREA - 1)),
        no(7, "nine Queues", with(9, 9 * AREA)),
        no(7, "nine Queues delays for eight", with(9, 8 * AREA)),
        yes(7, "no Queue", with(0, AREA)),
        yes(7, "one Queue", with(1, AREA)),
        yes(7, "two Queues", with(2, 2 * AREA)),
        yes(7, "eight Queues", with(8, 8 * AREA)),
        yes(7, "more lent than asked", |d| {
            d.lent = Lent { log: AREA + 3, values: AREA + 5, units: 3 * AREA, delays: AREA + 8 }
        }),
    ]
}

fn question_8() -> Vec<Case> {
    vec![
        no_bytes(8, "no bytes", |_, s| s.clear()),
        no_bytes(8, "one word", |_, s| s.truncate(8)),
        no_bytes(8, "15 bytes", |_, s| s.truncate(15)),
        no_bytes(8, "a byte more", |_, s| s.push(0)),
        no_bytes(8, "a byte less", |_, s| s.truncate(s.len() - 1)),
        no_bytes(8, "a word more", |_, s| s.extend([0; 8])),
        no_bytes(8, "a word less", |_, s| s.truncate(s.len() - 8)),
        no_bytes(8, "T -1 and S 1", |_, s| *s = bytes_of(&[-1, 1])),
        no_bytes(8, "S -1 and T 1", |_, s| *s = bytes_of(&[1, -1])),
        no_bytes(8, "T 2^60 length wraps", |_, s| *s = bytes_of(&[1 << 60, 0])),
        no_bytes(8, "T 2^32", |_, s| *s = bytes_of(&[1 << 32, 0])),
        no(8, "T 100001", |d| {
            d.s = Script::new();
            d.s.ticks(100_001, 0.0);
        }),
        no(8, "S 65536", |d| {
            d.s = Script::new();
            for _ in 0..1024 {
                d.s.tick(0.0);
                for _ in 0..64 {
                    d.s.fire(d.world);
                }
            }
        }),
        yes(8, "two words alone", |d| d.s = Script::new()),
    ]
}

fn question_9() -> Vec<Case> {
    let length = |bits: i64| move |d: &mut Draft| d.s.ticks[1].0 = bits;
    let counts = |a: i64, b: i64| {
        move |d: &mut Draft| {
            d.s.ticks[0].1 = a;
            d.s.ticks[1].1 = b;
        }
    };
    let hour = bits(3600.0);
    vec![
        no(9, "above 3600", length(hour + 1)),
        no(9, "3601", length(bits(3601.0))),
        no(9, "infinite", length(bits(f64::INFINITY))),
        no(9, "minus infinite", length(bits(f64::NEG_INFINITY))),
        no(9, "not a number", length(0x7FF8_0000_0000_0000)),
        no(9, "not a number negative", length(-1)),
        no(9, "least below zero", length(bits(-5e-324))),
        no(9, "-1", length(bits(-1.0))),
        no(9, "the first tick", |d| d.s.ticks[0].0 = bits(-1.0)),
        yes(9, "3600", length(hour)),
        yes(9, "minus zero", length(bits(-0.0))),
        yes(9, "least", length(1)),
        yes(9, "below 3600", length(hour - 1)),
        no(9, "count 65", |d| {
            d.s.ticks[0].1 = 65;
            d.s.stimuli = vec![d.s.stimuli[0]; 65];
        }),
        yes(9, "count 64", |d| {
            d.s.ticks[0].1 = 64;
            d.s.stimuli = vec![d.s.stimuli[0]; 64];
        }),
        no(9, "counts 2 and -1", counts(2, -1)),
        no(9, "counts -1 and 2", counts(-1, 2)),
        no(9, "count 1 + 2^32", counts(1 + (1 << 32), 0)),
        no(9, "counts below S", counts(0, 0)),
        no(9, "counts above S", counts(1, 1)),
        no(9, "no tick for a stimulus", |d| d.s.ticks.clear()).tells(&[45]),
        yes(9, "the stimulus in the second tick", counts(0, 1)),
    ]
}

fn question_10() -> Vec<Case> {
    let gate = |gate: i64| move |d: &mut Draft| d.s.stimuli[0].0 = gate;
    let name = |name: i64| move |d: &mut Draft| d.s.stimuli[0].1 = name;
    vec![
        no(10, "gate -1", gate(-1)),
        no(10, "gate past the gates", gate(5)),
        no(10, "gate 2^32", gate(1 << 32)),
        no(10, "a Toggle", gate(1)),
        no(10, "an Event", |d| {
            let event = with_settings(d, EVENT_CUSTOM_GLOBAL);
            d.s.stimuli[0].0 = event.number;
        }),
        no(10, "constant -1", name(-1)),
        no(10, "constant past the constants", |d| name(d.c.constants.len() as i64 + 1)(d)),
        no(10, "constant 2^32", name(1 << 32)),
        no(10, "the last stimulus", |d| {
            d.s.tick(0.0).give(d.toggle, 0);
        }),
        yes(10, "constant 0", name(0)),
        yes(10, "the last constant", |d| name(d.c.constants.len() as i64)(d)),
    ]
}

/// One fault of each question, none of which touches another's; that of 19 is a
/// call out of the body of a Loop that is there for it.
fn fault(question: u8, d: &mut Draft) {
    match question {
        2 => d.c.constants.push((4, 0)),
        3 => d.c.gates[2].1 = -1,
        4 => d.c.inputs[d.select.pin("InputA").0 as usize].1 = 99,
        5 => d.c.calls[0].1 = -1,
        6 => d.c.feed(d.reroute.pin("RER_Input"), d.reroute),
        7 => d.lent.units = 0,
        9 => d.s.ticks[1].0 = bits(-1.0),
        10 => d.s.stimuli[0].0 = d.var.number,
        19 => {
            let entry = with_settings(d, ENTRY);
            d.c.call(entry, d.toggle);
        }
        _ => (),
    }
}

/// Two faults: the number of the question asked first is the answer.
fn pairs() -> Vec<Case> {
    let mut cases = Vec::new();
    for (k, &low) in ASKED.iter().enumerate() {
        for &high in &ASKED[k + 1..] {
            let mut case = edited(format!("q{low}-no-and-{high}"), |d| {
                fault(low, d);
                fault(high, d);
            });
            if low == 1 {
                case.circuit.push(0);
            }
            if low == 8 || high == 8 {
                case.script.extend([0; 8]);
            }
            case.shows = format!("Questions {low} and {high}, both no.");
            cases.push(case);
        }
    }
    cases.push(bad_constant_and_kind());
    cases
}

/// As the pair of questions 2 and 3, by a kind in place of a rank.
fn bad_constant_and_kind() -> Case {
    let mut case = edited("q2-no-and-3-by-a-kind".into(), |d| {
        fault(2, d);
        d.c.gates[2].0 = 32;
    });
    case.shows = "Questions 2 and 3, both no, the latter by a gate of kind 32.".into();
    case
}
