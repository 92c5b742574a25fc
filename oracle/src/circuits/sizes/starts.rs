//! Where a unit may start: at every E and every exec output, and nowhere else.

use super::{alike, row, set_up, size};
use crate::build::*;
use crate::case::Size;

pub fn sizes() -> Vec<Size> {
    let mut sizes: Vec<Size> = (1..=28).chain([BREAK]).map(alone).collect();
    for kind in [CHANGE_DETECTOR, EDGE_EXEC, CLOCK, EVENT_CUSTOM, EVENT_CUSTOM_GLOBAL, WORLD_EVENT] {
        for out in outputs_of(kind).into_iter().filter(|out| may_call(out)) {
            sizes.push(at_output(kind, out.trim_end_matches('!')));
        }
    }
    sizes.extend([BUFFER_TICKS_EXEC, BUFFER_SECONDS_EXEC].map(at_buffer));
    sizes.extend(at_pins());
    sizes.extend(at_several());
    sizes.extend(reroutes());
    sizes
}

/// A gate by itself, and with a Var where it has to name one.
fn alone(kind: i64) -> Size {
    let mut c = Circuit::new();
    set_up(&mut c, kind);
    size(format!("alone-{kind}"), format!("A gate of kind {kind}, without sources and calls."), &c)
}

/// An exec output calls two Reroutes in a row, so that there is no E.
fn at_output(kind: i64, out: &str) -> Size {
    let mut c = Circuit::new();
    let gate = set_up(&mut c, kind);
    let reroutes = row(&mut c, REROUTE, 2);
    c.call(gate.out(out), reroutes[0]);
    let shows = format!("{out} of kind {kind} calls two Reroutes in a row.");
    size(format!("at-{out}-of-{kind}"), shows, &c)
}

/// A buffer of calls is entered, and then makes its calls: one more than its
/// output alone.
fn at_buffer(kind: i64) -> Size {
    let mut c = Circuit::new();
    let [buffer] = alike(&mut c, kind);
    let reroutes: [Gate; 2] = alike(&mut c, REROUTE);
    c.call_all(buffer, &reroutes);
    let shows =
        format!("A unit may start at Input of kind {kind}, which is an E; its Output calls two Reroutes.");
    size(format!("at-Input-of-{kind}"), shows, &c)
}

/// Es that are driven, called or neither.
fn at_pins() -> Vec<Size> {
    let mut driven = Circuit::new();
    let var = driven.var(1);
    let toggles = row(&mut driven, TOGGLE, 2);
    driven.feed(toggles[0].entry(), var);

    let mut neither = Circuit::new();
    neither.world_event(0);
    row(&mut neither, UNION, 3);

    let mut both = Circuit::new();
    let var = both.var(1);
    let world = both.world_event(0);
    let toggles = row(&mut both, TOGGLE, 2);
    both.feed(toggles[0].entry(), var);
    both.call(world, toggles[0]);

    let mut last = Circuit::new();
    let [stopwatch] = alike(&mut last, STOPWATCH);
    let [reroute] = alike(&mut last, REROUTE);
    last.call(stopwatch, reroute);
    vec![
        size("at-a-driven-pin", "A Toggle whose Exec has a source calls another.", &driven),
        size("at-a-lone-pin", "Three Unions in a row, of which nothing calls or drives the first.", &neither),
        size("at-a-driven-and-called-pin", "A Toggle that is driven and called calls another.", &both),
        size("at-three-pins", "A Stopwatch, whose three pins all enter it, calls a Reroute.", &last),
    ]
}

/// The calls of one start are added up, those of several are not.
fn at_several() -> Vec<Size> {
    let worlds = |calls: [usize; 2]| {
        let mut c = Circuit::new();
        let worlds: [Gate; 2] = alike(&mut c, WORLD_EVENT);
        let [reroute] = alike(&mut c, REROUTE);
        for (world, many) in worlds.into_iter().zip(calls) {
            c.call_all(world, &vec![reroute; many]);
        }
        c
    };
    let mut sides = Circuit::new();
    let [edges] = alike(&mut sides, EDGE_EXEC);
    let [reroute] = alike(&mut sides, REROUTE);
    sides.call_all(edges.out("OnRisingEdge"), &[reroute; 2]);
    sides.call_all(edges.out("OnFallingEdge"), &[reroute; 3]);

    let mut together = Circuit::new();
    let world = together.world_event(0);
    let toggles: [Gate; 3] = alike(&mut together, TOGGLE);
    together.call_all(world, &toggles);
    vec![
        size("at-the-first-world", "Two Worlds call a Reroute, thrice and twice.", &worlds([3, 2])),
        size("at-the-second-world", "Two Worlds call a Reroute, twice and thrice.", &worlds([2, 3])),
        size("at-one-edge", "One edge calls a Reroute twice, the other thrice.", &sides),
        size("together", "A World calls three Toggles.", &together),
        pin_or_output("at-a-pin-above", 4),
        pin_or_output("at-an-output-above", 6),
    ]
}

/// A World of so many steps beside an E of five.
fn pin_or_output(name: &str, calls: usize) -> Size {
    let mut c = Circuit::new();
    let world = c.world_event(0);
    let [reroute] = alike(&mut c, REROUTE);
    row(&mut c, TOGGLE, 5);
    c.call_all(world, &vec![reroute; calls]);
    size(name, format!("A World has {calls} steps, the first of five Toggles in a row has five."), &c)
}

fn reroutes() -> Vec<Size> {
    let mut step = Circuit::new();
    let world = step.world_event(0);
    let [reroute] = alike(&mut step, REROUTE);
    let [toggle] = alike(&mut step, TOGGLE);
    step.chain(&[world, reroute, toggle]);

    let mut no_start = Circuit::new();
    let [reroute] = alike(&mut no_start, REROUTE);
    let [toggle] = alike(&mut no_start, TOGGLE);
    no_start.call(reroute, toggle);

    let mut output = Circuit::new();
    let [reroute] = alike(&mut output, REROUTE);
    let toggles: [Gate; 3] = alike(&mut output, TOGGLE);
    output.call_all(reroute, &toggles);

    let mut alone = Circuit::new();
    row(&mut alone, REROUTE, 3);

    let mut driven = Circuit::new();
    let var = driven.var(1);
    let reroute = driven.reroute(var);
    let [next] = alike(&mut driven, REROUTE);
    driven.call(reroute, next);
    vec![
        size("reroute-is-a-step", "A World calls a Reroute, which calls a Toggle.", &step),
        size("reroute-is-no-start", "A Reroute that nothing calls calls a Toggle.", &no_start),
        size("reroute-no-start-at-its-output", "A Reroute that nothing calls calls three Toggles.", &output),
        size("reroutes-alone", "Three Reroutes in a row: no E, and no exec output.", &alone),
        size("reroute-driven", "A Reroute that reads a Var calls another.", &driven),
    ]
}
