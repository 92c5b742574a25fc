//! Questions 3, 4, 5 and 19 about Loops, entries, Breaks and bodies. A case named
//! `qN-yes-..` passes all questions, one named `qN-no-..` is refused as N.

use super::super::Case;
use super::repeat;
use crate::build::*;

pub fn cases() -> Vec<Case> {
    let mut cases = question_3();
    cases.extend(question_4());
    cases.extend(question_5());
    cases.extend(question_19_calls());
    cases.extend(question_19_entries());
    cases.extend(question_19_rings());
    cases.extend(pairs());
    cases
}

/// A World event that enters a Loop, in whose body there is another; a Toggle in
/// each body and one outside.
#[derive(Clone)]
struct Draft {
    c: Circuit,
    world: Gate,
    outer: Gate,
    in_outer: Gate,
    inner: Gate,
    in_inner: Gate,
    /// Outside, in the outer body, in the inner body.
    toggles: [Gate; 3],
    reroute: Gate,
}

fn draft() -> Draft {
    let mut c = Circuit::new();
    let world = c.world_event(3);
    let (outer, in_outer) = repeat(&mut c, 2);
    let (inner, in_inner) = repeat(&mut c, 2);
    let toggles = [0; 3].map(|_| c.toggle(1));
    let reroute = c.reroute(world);
    c.put_inside(outer, &[inner, toggles[1]]);
    c.put_inside(inner, &[toggles[2]]);
    c.call_all(world, &[toggles[0], outer]);
    c.call_all(in_outer, &[toggles[1], inner]);
    c.call(in_inner, toggles[2]);
    Draft { c, world, outer, in_outer, inner, in_inner, toggles, reroute }
}

fn asked(question: u8, answer: &str, what: &str, edit: impl FnOnce(&mut Draft)) -> Case {
    let mut d = draft();
    edit(&mut d);
    let mut s = Script::new();
    s.tick(0.25).fire(d.world);
    let dashed = what.to_lowercase().replace(' ', "-").replace('\'', "");
    let name = format!("q{question}-{answer}-loops-{dashed}");
    let shows = format!("Question {question}, {answer}: {what}.");
    Case::new(name, shows, &d.c, &s).tells(if question == 19 { &[74] } else { &[] })
}

fn yes(question: u8, what: &str, edit: impl FnOnce(&mut Draft)) -> Case {
    asked(question, "yes", what, edit)
}

fn no(question: u8, what: &str, edit: impl FnOnce(&mut Draft)) -> Case {
    asked(question, "no", what, edit)
}

/// The word of a gate's rank.
fn word(c: &mut Circuit, gate: Gate) -> &mut i64 {
    &mut c.gates[gate.number as usize].1
}

/// Says which Loop an entry is of.
fn set(c: &mut Circuit, entry: Gate, to: impl Into<Feed>) {
    c.feed(entry.pin("loop"), to);
}

fn question_3() -> Vec<Case> {
    let outside = |to: i64| move |d: &mut Draft| *word(&mut d.c, d.toggles[0]) = to;
    vec![
        yes(3, "kinds 29 30 and 31", |d| {
            d.c.break_out(0);
        }),
        no(3, "kind 32", |d| d.c.gates[d.toggles[0].number as usize].0 = 32),
        no(3, "a word of body 65", outside(65 * RANKS)),
        no(3, "a word of 2^32 and more", outside((1 << 32) + RANKS)),
        no(3, "a word of -1", outside(-1)),
        no(3, "a word of -65536", outside(-RANKS)),
        no(3, "a word of -65535", outside(1 - RANKS)),
        no(3, "the least word", outside(i64::MIN)),
        no(3, "the largest word", outside(i64::MAX)),
        yes(3, "rank 65535 in a body", |d| *word(&mut d.c, d.toggles[1]) += RANKS - 2),
        yes(3, "body 64", |d| {
            d.c = Circuit::new();
            d.world = d.c.world_event(0);
            let inside = d.c.reroute(d.world);
            let entry = d.c.gate(ENTRY, 0);
            while d.c.gates.len() < 63 {
                d.c.delta_time();
            }
            let last = d.c.repeat(0, 1, 0, 1);
            set(&mut d.c, entry, last.number);
            d.c.put_inside(last, &[entry, inside]);
            *word(&mut d.c, inside) += RANKS - 1;
        }),
        no(3, "an input too few for a Loop", |d| {
            d.c.inputs.remove(d.outer.pin("Step").0 as usize);
        }),
        no(3, "an input too many for an entry", |d| d.c.inputs.push((-1, 0))),
    ]
}

fn question_4() -> Vec<Case> {
    let to = |to: Feed| move |d: &mut Draft| set(&mut d.c, d.in_inner, to);
    let mut cases = vec![
        no(4, "an entry of nothing", to(NOTHING)),
        no(4, "an entry of a Float", |d| set(&mut d.c, d.in_inner, d.inner.number as f64)),
        no(4, "an entry of a Bool", to(true.into())),
        no(4, "an entry of -1", to((-1).into())),
        no(4, "an entry of a Toggle", |d| set(&mut d.c, d.in_inner, d.toggles[2].number)),
        no(4, "an entry of an entry", |d| set(&mut d.c, d.in_inner, d.in_outer.number)),
        no(4, "an entry past the gates", |d| {
            let past = d.c.gates.len() as i64;
            set(&mut d.c, d.in_inner, past);
        }),
        no(4, "an entry of 2^32 and more", |d| set(&mut d.c, d.in_inner, d.inner.number + (1 << 32))),
        no(4, "an entry with a source", |d| set(&mut d.c, d.in_inner, d.world)),
        no(4, "a constant on a Loop's pin", |d| d.c.inputs[d.inner.entry().0 as usize].1 = 1),
        no(4, "a source of Completed", |d| d.c.feed(d.reroute.pin("RER_Input"), d.outer.exit())),
        no(4, "a source of Body", |d| d.c.feed(d.reroute.pin("RER_Input"), d.in_outer.exit())),
        yes(4, "sources across bodies", |d| {
            d.c.feed(d.reroute.pin("RER_Input"), d.in_inner);
            d.c.feed(d.inner.pin("Count"), d.in_outer);
            d.c.feed(d.inner.pin("FirstIndex"), d.world);
            d.c.feed(d.inner.pin("Exec"), d.toggles[0]);
        }),
    ];
    cases.extend(["Count", "FirstIndex", "Step"].map(|pin| {
        no(4, &format!("source and constant on {pin}"), move |d| {
            d.c.inputs[d.inner.pin(pin).0 as usize] = (d.world.value().0, 1);
        })
    }));
    cases
}

fn question_5() -> Vec<Case> {
    let from = |from: fn(&Draft) -> Output| move |d: &mut Draft| d.c.calls[0].0 = from(d).0;
    let to = |to: fn(&Draft) -> Input| move |d: &mut Draft| d.c.calls[0].1 = 2 * to(d).0;
    vec![
        yes(5, "from Completed", from(|d| d.outer.exit())),
        no(5, "from IterationsExecuted", from(|d| d.outer.value())),
        no(5, "from bAborted", from(|d| d.outer.out("bAborted"))),
        no(5, "from bRunning", from(|d| d.outer.out("bRunning"))),
        no(5, "from Index", from(|d| d.in_outer.value())),
        no(5, "to Count", to(|d| d.outer.pin("Count"))),
        no(5, "to FirstIndex", to(|d| d.outer.pin("FirstIndex"))),
        no(5, "to Step", to(|d| d.outer.pin("Step"))),
        no(5, "to an entry", to(|d| d.in_outer.pin("loop"))),
        yes(5, "to and from a Break", |d| {
            let enough = d.c.break_out(0);
            d.c.chain(&[d.world, enough, d.toggles[0]]);
        }),
    ]
}

fn question_19_calls() -> Vec<Case> {
    let call = |ends: fn(&Draft) -> (Gate, Gate), remote: i64| {
        move |d: &mut Draft| {
            let (from, to) = ends(d);
            d.c.calls.push((from.exit().0, 2 * to.entry().0 + remote));
        }
    };
    vec![
        yes(19, "nested bodies", |_| ()),
        no(19, "a call into a body", call(|d| (d.world, d.toggles[1]), 0)),
        no(19, "a call into an inner body", call(|d| (d.in_outer, d.toggles[2]), 0)),
        no(19, "a call out of a body", call(|d| (d.toggles[1], d.toggles[0]), 0)),
        no(19, "a call out of an inner body", call(|d| (d.toggles[2], d.toggles[1]), 0)),
        no(19, "a call of Completed into its own body", call(|d| (d.outer, d.toggles[1]), 0)),
        no(19, "a call of Body out of it", call(|d| (d.in_outer, d.toggles[0]), 0)),
        no(19, "a call into its own Loop", call(|d| (d.toggles[1], d.outer), 0)),
        no(19, "a remote call into a body", call(|d| (d.world, d.toggles[1]), 1)),
        no(19, "a remote call out of a body", call(|d| (d.toggles[2], d.toggles[0]), 1)),
        no(19, "a call between bodies side by side", |d| {
            let (other, _) = repeat(&mut d.c, 1);
            let inside = d.c.toggle(0);
            d.c.put_inside(other, &[inside]);
            d.c.call(d.toggles[1], inside);
        }),
        no(19, "a call of a Reroute out of a body", |d| {
            d.c.put_inside(d.outer, &[d.reroute]);
            d.c.call(d.reroute, d.toggles[0]);
        }),
        no(19, "the first call", |d| *word(&mut d.c, d.toggles[0]) += RANKS * (1 + d.outer.number)),
        yes(19, "all calls remote", |d| d.c.calls.iter_mut().for_each(|call| call.1 += 1)),
    ]
}

fn question_19_entries() -> Vec<Case> {
    let body = |gate: fn(&Draft) -> Gate, body: i64| {
        move |d: &mut Draft| {
            let gate = gate(d);
            *word(&mut d.c, gate) = RANKS * body;
        }
    };
    let mut cases = vec![
        no(19, "a body of no Loop", |d| body(|d| d.reroute, 1 + d.toggles[0].number)(d)),
        no(19, "a body of an entry", |d| body(|d| d.reroute, 1 + d.in_outer.number)(d)),
        no(19, "a body past the gates", |d| body(|d| d.reroute, 1 + d.c.gates.len() as i64)(d)),
        no(19, "body 64 of few gates", body(|d| d.reroute, 64)),
        no(19, "body 1 of a World event", body(|d| d.reroute, 1)),
        no(19, "a word of 65536", |d| {
            d.c = Circuit::new();
            d.world = d.c.world_event(0);
            d.c.reroute(NOTHING);
            d.c.gates[1].1 = RANKS;
        }),
        no(19, "a Loop without an entry", |d| {
            d.c.repeat(0, 1, 0, 1);
        }),
        no(19, "a Loop alone", |d| {
            d.c = Circuit::new();
            d.world = d.c.world_event(0);
            d.c.repeat(0, 1, 0, 1);
        }),
        no(19, "two entries", |d| {
            d.c.body(d.inner);
        }),
        no(19, "two entries and one outside", |d| {
            let second = d.c.body(d.inner);
            *word(&mut d.c, second) = 0;
        }),
        no(19, "an entry outside", |d| {
            d.c.calls.clear();
            *word(&mut d.c, d.in_outer) = 0;
        }),
        no(19, "an entry in the body around", |d| {
            d.c.calls.clear();
            d.c.put_inside(d.outer, &[d.in_inner]);
        }),
        no(19, "an entry in an inner body", |d| {
            d.c.calls.clear();
            d.c.put_inside(d.inner, &[d.in_outer]);
        }),
        no(19, "entries that change places", |d| {
            d.c.calls.clear();
            set(&mut d.c, d.in_outer, d.inner.number);
            set(&mut d.c, d.in_inner, d.outer.number);
        }),
        no(19, "both entries of one Loop", |d| set(&mut d.c, d.in_inner, d.outer.number)),
    ];
    cases.push(yes(19, "an entry without calls", |d| d.c.calls.clear()));
    cases.push(yes(19, "an entry before its Loop", |d| {
        let entry = d.c.gate(ENTRY, 0);
        let after = d.c.repeat(0, 1, 0, 1);
        set(&mut d.c, entry, after.number);
        d.c.put_inside(after, &[entry]);
    }));
    cases
}

fn question_19_rings() -> Vec<Case> {
    let mut most = yes(19, "32 Loops and nothing else", |d| {
        d.c = Circuit::new();
        for _ in 0..32 {
            repeat(&mut d.c, 1);
        }
    });
    most.script = bytes_of(&[1, 0, 0, 0]);
    vec![
        most,
        no(19, "a Loop in its own body", |d| {
            let (own, _) = repeat(&mut d.c, 1);
            d.c.put_inside(own, &[own]);
        }),
        no(19, "two Loops in one another", |d| {
            let [(a, _), (b, _)] = [1, 1].map(|n| repeat(&mut d.c, n));
            d.c.put_inside(a, &[b]);
            d.c.put_inside(b, &[a]);
        }),
        no(19, "a ring of three Loops and one inside", |d| {
            let loops = [1; 4].map(|n| repeat(&mut d.c, n).0);
            for k in 0..3 {
                d.c.put_inside(loops[k], &[loops[(k + 1) % 3]]);
            }
            d.c.put_inside(loops[0], &[loops[3]]);
        }),
        no(19, "a ring of 31 Loops", |d| {
            nested_loops(d, 31);
            d.c.calls.remove(0);
            d.c.put_inside(Gate { number: 61, ..d.outer }, &[Gate { number: 1, ..d.outer }]);
        }),
        yes(19, "31 Loops in one another", |d| nested_loops(d, 31)),
        yes(19, "31 Loops in one another upwards", |d| {
            nested_loops(d, 31);
            for k in 0..31 {
                *word(&mut d.c, Gate { number: 1 + 2 * k, ..d.outer }) =
                    if k == 30 { 0 } else { RANKS * (4 + 2 * k) };
            }
            d.c.calls.clear();
        }),
    ]
}

/// A World event, and so many Loops, each in the body of the one before and
/// entered from it: the numbers of the Loops are 1, 3, 5 and so on.
fn nested_loops(d: &mut Draft, n: usize) {
    d.c = Circuit::new();
    d.world = d.c.world_event(0);
    let mut around: Option<(Gate, Gate)> = None;
    for _ in 0..n {
        let (next, in_next) = repeat(&mut d.c, 1);
        match around {
            Some((of, body)) => {
                d.c.put_inside(of, &[next]);
                d.c.call(body, next);
            }
            None => d.c.call(d.world, next),
        }
        around = Some((next, in_next));
    }
}

/// Two faults: `first` is asked before `second` and gives the number.
fn both(first: u8, second: u8, edit: impl FnOnce(&mut Draft)) -> Case {
    let mut case = no(first, &format!("and {second}"), edit);
    case.shows = format!("Questions {first} and {second}, both no.");
    case
}

/// A fault of question 19 with one of another question.
fn pairs() -> Vec<Case> {
    let astray = |d: &mut Draft| d.c.call(d.world, d.toggles[1]);
    let mut cases = vec![
        both(3, 19, move |d| {
            astray(d);
            d.c.gates[d.reroute.number as usize].0 = 32;
        }),
        both(4, 19, move |d| {
            astray(d);
            set(&mut d.c, d.in_inner, NOTHING);
        }),
        both(5, 19, move |d| {
            astray(d);
            d.c.calls.push((-1, 0));
        }),
        no(5, "a call from -1 and a Loop without an entry", |d| {
            d.c.repeat(0, 1, 0, 1);
            d.c.calls.push((-1, 0));
        }),
        both(19, 6, move |d| {
            astray(d);
            d.c.feed(d.reroute.pin("RER_Input"), d.reroute);
        }),
        both(19, 7, move |d| {
            astray(d);
            for _ in 0..9 {
                d.c.queue_ticks(0, NOTHING, NOTHING);
            }
        }),
        no(19, "a ring of bodies and one of pure gates", |d| {
            d.c.feed(d.reroute.pin("RER_Input"), d.reroute);
            let (own, _) = repeat(&mut d.c, 1);
            d.c.put_inside(own, &[own]);
        }),
        no(6, "a ring of pure gates in a body", |d| {
            d.c.put_inside(d.outer, &[d.reroute]);
            d.c.feed(d.reroute.pin("RER_Input"), d.reroute);
        }),
    ];
    let mut spoilt = both(19, 8, astray);
    spoilt.script.push(0);
    let mut longer = both(1, 19, astray);
    longer.circuit.push(0);
    let mut untimely = both(19, 9, astray);
    untimely.script = bytes_of(&[1, 0, bits(-1.0), 0]);
    cases.extend([spoilt, longer, untimely]);
    cases
}
