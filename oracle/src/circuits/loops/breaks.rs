//! Breaks.

use super::super::Case;
use super::repeat;
use crate::build::{Circuit, Gate, Script};

pub fn cases() -> Vec<Case> {
    vec![
        goes_on(),
        inner(),
        outer(),
        before_an_inner_loop(),
        before_an_empty_loop(),
        by_an_inner_completed(),
        in_both(),
        outside(),
        by_a_fork(),
        by_a_unit(),
    ]
}

/// A World event that fires once, in the first tick.
fn fired(name: &str, shows: &str, c: &Circuit, world: Gate) -> Case {
    let mut s = Script::new();
    s.tick(0.25).fire(world);
    Case::new(name, shows, c, &s).tells(&[64])
}

fn goes_on() -> Case {
    let mut c = Circuit::new();
    let world = c.world_event(0);
    let (repeat, body) = repeat(&mut c, 5);
    let enough = c.break_out(0);
    let (x, y) = (c.toggle(0), c.toggle(0));
    let after = c.toggle(0);
    c.put_inside(repeat, &[enough, x, y]);
    c.chain(&[world, repeat, after]);
    c.call_all(body, &[enough, y, enough]);
    c.call(enough, x);
    let shows = "After a Break the run goes on, first with the Break's ExecOut; it counts, and is the last; Completed is fired.";
    fired("break-goes-on", shows, &c, world)
}

/// A World event, a Loop of `count` runs and in its body one of three, whose
/// body counts; their entries, and the counter.
struct Nested {
    c: Circuit,
    world: Gate,
    outer: Gate,
    in_outer: Gate,
    inner: Gate,
    in_inner: Gate,
}

fn nested(runs: i64) -> Nested {
    let mut c = Circuit::new();
    let world = c.world_event(0);
    let (outer, in_outer) = repeat(&mut c, 2);
    let (inner, in_inner) = repeat(&mut c, runs);
    let count = c.cycle(0, 100);
    c.put_inside(outer, &[inner]);
    c.put_inside(inner, &[count]);
    c.call(world, outer);
    c.call(in_inner, count);
    Nested { c, world, outer, in_outer, inner, in_inner }
}

fn inner() -> Case {
    let Nested { mut c, world, in_outer, inner, in_inner, .. } = nested(3);
    let enough = c.break_out(0);
    c.put_inside(inner, &[enough]);
    c.call(in_outer, inner);
    c.call(in_inner, enough);
    fired("break-inner", "A Break in an inner body ends the inner Loop alone: 1 run, twice.", &c, world)
}

fn outer() -> Case {
    let Nested { mut c, world, outer, in_outer, inner, .. } = nested(3);
    let enough = c.break_out(0);
    c.put_inside(outer, &[enough]);
    c.call_all(in_outer, &[inner, enough]);
    fired("break-outer", "A Break behind an inner Loop ends the outer one: 3 runs, once.", &c, world)
}

fn before_an_inner_loop() -> Case {
    let Nested { mut c, world, outer, in_outer, inner, .. } = nested(3);
    let enough = c.break_out(0);
    c.put_inside(outer, &[enough]);
    c.call_all(in_outer, &[enough, inner]);
    let shows = "A Break before an inner Loop does not end that, and survives it: 3 runs, once.";
    fired("break-before-an-inner-loop", shows, &c, world)
}

fn before_an_empty_loop() -> Case {
    let Nested { mut c, world, outer, in_outer, inner, .. } = nested(0);
    let enough = c.break_out(0);
    c.put_inside(outer, &[enough]);
    c.call_all(in_outer, &[enough, inner]);
    let shows = "A Break before an inner Loop that makes no run survives it: once.";
    fired("break-before-an-empty-loop", shows, &c, world)
}

fn by_an_inner_completed() -> Case {
    let Nested { mut c, world, outer, in_outer, inner, .. } = nested(3);
    let enough = c.break_out(0);
    c.put_inside(outer, &[enough]);
    c.call(in_outer, inner);
    c.call(inner, enough);
    let shows = "A Break that an inner Completed calls is the outer Loop's: 3 runs, once.";
    fired("break-by-an-inner-completed", shows, &c, world)
}

fn in_both() -> Case {
    let Nested { mut c, world, outer, in_outer, inner, in_inner } = nested(3);
    let (of_outer, of_inner) = (c.break_out(0), c.break_out(0));
    c.put_inside(outer, &[of_outer]);
    c.put_inside(inner, &[of_inner]);
    c.call_all(in_outer, &[of_outer, inner]);
    c.call(in_inner, of_inner);
    fired("break-in-both", "A Break in both bodies: 1 run, once.", &c, world)
}

/// Three runs, which count.
fn three_runs() -> (Circuit, Gate, Gate, Gate) {
    let mut c = Circuit::new();
    let world = c.world_event(1);
    let (repeat, body) = repeat(&mut c, 3);
    let count = c.cycle(0, 100);
    c.put_inside(repeat, &[count]);
    c.call(body, count);
    (c, world, repeat, body)
}

fn outside() -> Case {
    let (mut c, world, repeat, _) = three_runs();
    let enough = c.break_out(0);
    let after = c.toggle(0);
    c.call_all(world, &[enough, repeat, enough]);
    c.call(enough, after);
    let mut s = Script::new();
    s.tick(0.25).fire(world).tick(0.25).fire(world);
    let shows = "A Break outside any Loop passes on and ends none, before or after it, or in the next tick.";
    Case::new("break-outside", shows, &c, &s).tells(&[64])
}

fn by_a_fork() -> Case {
    let (mut c, world, repeat, body) = three_runs();
    let enough = c.break_out(0);
    c.put_inside(repeat, &[enough]);
    c.call(world, repeat);
    c.remote(body, enough);
    let mut s = Script::new();
    s.tick(0.25).fire(world).tick(0.25).fire(world);
    let shows = "A Break called remotely runs outside its body, when the Loop is over: 3 runs, and 3.";
    Case::new("break-by-a-fork", shows, &c, &s).tells(&[64, 66])
}

fn by_a_unit() -> Case {
    let (mut c, world, repeat, _) = three_runs();
    let enough = c.break_out(0);
    let other = c.world_event(0);
    c.put_inside(repeat, &[enough]);
    c.feed(enough.pin("Exec"), other);
    c.call(world, repeat);
    let one = c.constant(1);
    let mut s = Script::new();
    s.tick(0.25).fire(world).give(other, one);
    let shows = "A Break of a body that runs as a unit of its own, before the Loop: 3 runs.";
    Case::new("break-by-a-unit", shows, &c, &s).tells(&[64])
}
