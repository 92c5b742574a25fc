//! The forms that a gate can have, by its kind and by which of its Es have a
//! source. Gate 0 is a Var, gate 1 the one that is looked at, gate 2 a World that
//! calls all its Es; a Loop has its entry, and an entry its Loop, as gate 3.

use super::{NAMED, Report, spelled, two};
use crate::build::{
    BUFFER_SECONDS_EXEC, BUFFER_TICKS_EXEC, Circuit, ENTRY, Gate, Input, LOOP, NOTHING, bytes_of, inputs_of,
    may_be_called,
};
use crate::hours::Named;

pub fn reports() -> Vec<Report> {
    let mut reports = Vec::new();
    for kind in 1..=31 {
        for form in FORMS {
            let shows = format!("A unit of kind {kind} in form {form}, with all Es driven.");
            reports.push(of(format!("form-{form}-of-kind-{kind}"), shows, &gate(kind, &ALL), form));
        }
    }
    for (kind, forms) in OTHERS {
        for &form in forms {
            let name = spelled(form);
            let shows = format!("A unit of kind {kind} in form {name}, which is none.");
            reports.push(of(format!("form-{name}-of-kind-{kind}"), shows, &gate(kind, &ALL), form));
        }
    }
    for kind in CALLED {
        let shows = format!("A unit of kind {kind} in form 16, with no E that is driven: they are called.");
        reports.push(of(format!("form-16-of-kind-{kind}-called"), shows, &gate(kind, &[]), 16));
    }
    for (kind, pins) in [(15, 3), (23, 2)] {
        for driven in 0..pins {
            for pin in 0..pins {
                let shows = format!("A unit of kind {kind} in form {}, with E {driven} driven.", 16 + pin);
                let name = format!("form-{}-of-kind-{kind}-driven-{driven}", 16 + pin);
                reports.push(of(name, shows, &gate(kind, &[driven]), 16 + pin as i64));
            }
        }
    }
    reports.push(of_gate_2());
    reports
}

/// The forms that a gate of one kind or another has.
const FORMS: [i64; 8] = [0, 1, 2, 16, 17, 18, 32, 33];

/// Forms that no gate has.
const OTHERS: [(i64, &[i64]); 4] = [
    (9, &[31, 34, 35, 48, -32, two(32) + 32, two(63) + 32]),
    (15, &[-1, 3, 15, 19, 20, 31, 34, 48, 256, -16, two(32), two(32) + 16, two(63), two(63) + 16]),
    (26, &[-1, 3, two(32) + 1]),
    (28, &[-1, 3, two(32) + 2, two(63) + 2]),
];

/// Kinds with an E.
const CALLED: [i64; 14] = [15, 16, 17, 18, 19, 20, 21, 22, 23, 24, 25, 29, 31, 2];

/// More pins than any gate has.
const ALL: [usize; 10] = [0, 1, 2, 3, 4, 5, 6, 7, 8, 9];

/// A record, stopped by 12, with one late unit of gate 1.
fn of(name: String, shows: String, circuit: &Circuit, form: i64) -> Report {
    let log = bytes_of(&[1, 0, 1, 0, 0, 12, 0, 1, form]);
    Report::new(format!("report-{name}"), shows, circuit.bytes(), log, VAR)
}

/// The Var of gate 0.
const VAR: Named = Named { driver: 0, activity: 0, ..NAMED };

/// The circuit of a kind, with these inputs driven.
pub(super) fn gate(kind: i64, driven: &[usize]) -> Circuit {
    let mut c = Circuit::new();
    let var = c.var(NOTHING);
    let gate = c.gate(kind, 0);
    let world = c.world_event(0);
    for (own, pin) in inputs_of(kind).into_iter().enumerate() {
        let input = Input(gate.first_input + own as i64);
        feed(&mut c, gate, pin, input, driven.contains(&own).then_some(var));
        if may_be_called(pin) {
            c.call(world, input);
        }
    }
    match kind {
        LOOP => drop(c.body(gate)),
        ENTRY => {
            let of = c.repeat(0, NOTHING, NOTHING, NOTHING);
            c.put_inside(of, &[gate]);
        }
        _ => (),
    }
    c
}

/// A setting is given what it needs, and any other input what drives it, if it
/// may have a source.
fn feed(c: &mut Circuit, gate: Gate, pin: &str, input: Input, driven: Option<Gate>) {
    let buffer = matches!(gate.kind, BUFFER_TICKS_EXEC | BUFFER_SECONDS_EXEC);
    match (pin, driven) {
        ("S:variable" | "S:channel", _) => c.feed(input, 0),
        ("S:loop", _) => c.feed(input, 3),
        ("E:Input", _) if buffer => (),
        (pin, Some(var)) if !pin.starts_with("S:") => c.feed(input, var),
        _ => (),
    }
}

/// Gate 1 has its E driven and gate 2 has not.
fn of_gate_2() -> Report {
    let mut c = Circuit::new();
    let var = c.var(NOTHING);
    let toggle = c.toggle(0);
    c.feed(toggle.entry(), var);
    c.toggle(0);
    let log = bytes_of(&[1, 0, 1, 0, 0, 12, 0, 2, 16]);
    let shows = "A unit of Toggle 2 in form 16, where Toggle 1 has its E driven, and 2 has not.";
    Report::new("report-form-16-of-gate-2", shows, c.bytes(), log, VAR)
}
