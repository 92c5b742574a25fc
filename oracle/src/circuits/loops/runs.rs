//! What a Loop reads, runs and shows.

use super::super::Case;
use super::{place, repeat};
use crate::build::{Circuit, Feed, Gate, NOTHING, Script};

pub fn cases() -> Vec<Case> {
    let mut cases = vec![counts(), inputs(), wraps(), largest_count()];
    cases.extend([equal_index("loop-step-0", 0, "once"), equal_index("loop-step-1", 1, "in each run")]);
    cases.push(equal_outputs());
    cases.extend(["Count", "FirstIndex", "Step"].map(reads));
    cases.extend([reads_once(), shows_the_last(), order_of_checks(), in_its_chain(), empty_body()]);
    cases.extend([by_its_pin(), at_the_start(), twice_in_a_chain(), again_by_its_completed()]);
    cases.extend([nested(), counted_by_an_index(), three_deep(), ranks_of_bodies(), units_of_bodies()]);
    cases.extend([watchers_in_a_body(), times_in_a_body(), global_send_in_a_body()]);
    cases
}

fn counts() -> Case {
    let mut c = Circuit::new();
    let world = c.world_event(0);
    let repeat = c.repeat(0, 3, 10, 5);
    let body = c.body(repeat);
    let seen = c.queue_ticks(0, body, 1);
    let after = c.toggle(0);
    c.put_inside(repeat, &[seen]);
    c.chain(&[world, repeat, after]);
    c.call(body, seen);
    let mut s = Script::new();
    s.tick(0.25).tick(0.25).fire(world).ticks(3, 0.25);
    let shows = "Three runs with 10, 15 and 20, then Completed; before the first, nothing is shown.";
    Case::new("loop-counts", shows, &c, &s).tells(&[63])
}

fn inputs() -> Case {
    let mut c = Circuit::new();
    let world = c.world_event(0);
    let rows: [[Feed; 3]; 12] = [
        [NOTHING, 5.into(), 1.into()],
        [2.9.into(), NOTHING, NOTHING],
        [true.into(), true.into(), true.into()],
        [(-3).into(), 7.into(), 7.into()],
        [3.into(), (-2.9).into(), 0.5.into()],
        [3.into(), 2.9.into(), (-2.9).into()],
        [false.into(), 1.into(), 1.into()],
        [0.99.into(), 3.into(), 3.into()],
        [2.into(), (-1e300).into(), 1.5.into()],
        [2.into(), 9.3e18.into(), 1.into()],
        [(-0.5).into(), 1.into(), 1.into()],
        [2.into(), false.into(), true.into()],
    ];
    for [count, first, step] in rows {
        let repeat = c.repeat(0, count, first, step);
        c.body(repeat);
        c.call(world, repeat);
    }
    let mut s = Script::new();
    s.tick(0.25).fire(world);
    let shows = "Count, FirstIndex and Step of nothing are 0, 0 and 1; a Float loses its fraction, a Bool is 0 or 1, a Count below 1 makes no run.";
    Case::new("loop-inputs", shows, &c, &s).tells(&[60])
}

/// A World event enters a Loop, whose body keeps each Index in a Queue.
fn index_of(c: &mut Circuit, world: Gate, [count, first, step]: [i64; 3]) {
    let repeat = c.repeat(0, count, first, step);
    let body = c.body(repeat);
    let seen = c.queue_ticks(0, body, 1);
    c.put_inside(repeat, &[seen]);
    c.call(world, repeat);
    c.call(body, seen);
}

fn wraps() -> Case {
    let mut c = Circuit::new();
    let world = c.world_event(0);
    index_of(&mut c, world, [4, i64::MAX - 1, 1]);
    index_of(&mut c, world, [4, 0, 1 << 62]);
    index_of(&mut c, world, [4, 5, i64::MIN]);
    index_of(&mut c, world, [4, i64::MIN, -1]);
    let mut s = Script::new();
    s.tick(0.25).fire(world).ticks(4, 0.25);
    let shows = "Index wraps at 64 bits: past 2^63 - 1, by 2^62, by -2^63 and below -2^63.";
    Case::new("loop-index-wraps", shows, &c, &s).tells(&[61]).delays(4 << 16)
}

fn largest_count() -> Case {
    let mut c = Circuit::new();
    let world = c.world_event(0);
    let (repeat, body) = repeat(&mut c, i64::MAX);
    let count = c.cycle(0, 3);
    let more = c.branch(0, count);
    let enough = c.break_out(0);
    c.put_inside(repeat, &[count, more, enough]);
    c.call(world, repeat);
    c.chain(&[body, count, more]);
    c.call(more.out("ExecOutB"), enough);
    let mut s = Script::new();
    s.tick(0.25).fire(world);
    let shows = "A Count of 2^63 - 1, with a Break in the third run: 3.";
    Case::new("loop-largest-count", shows, &c, &s).tells(&[60, 64])
}

/// Each run counts up a variable and keeps what a Select shows of it, which
/// Index makes stale where it changes.
fn equal_index(name: &str, step: i64, when: &str) -> Case {
    let mut c = Circuit::new();
    let world = c.world_event(0);
    let (var, result) = (c.var(0), c.var(NOTHING));
    let repeat = c.repeat(0, 2, 4, step);
    let body = c.body(repeat);
    let stale = c.select(body, var, var);
    let count = c.cycle(0, 100);
    let set = c.var_set(0, var, count);
    let set_result = c.var_set(0, result, stale);
    c.put_inside(repeat, &[count, set, set_result]);
    c.call(world, repeat);
    c.call_all(body, &[count, set, set_result]);
    let mut s = Script::new();
    s.tick(0.25).fire(world);
    let shows = format!("A Step of {step} changes Index {when}, so that a Select over it is stale {when}.");
    Case::new(name, shows, &c, &s).tells(&[62])
}

/// Behind Completed, the same over the Loop's three outputs, in two ticks.
fn equal_outputs() -> Case {
    let mut c = Circuit::new();
    let world = c.world_event(0);
    let var = c.var(0);
    let results = [0; 3].map(|_| c.var(NOTHING));
    let (repeat, _) = repeat(&mut c, 2);
    let count = c.cycle(0, 100);
    let set = c.var_set(0, var, count);
    c.call(world, repeat);
    c.call_all(repeat, &[count, set]);
    for (result, out) in results.into_iter().zip(["IterationsExecuted", "bAborted", "bRunning"]) {
        let stale = c.select(repeat.out(out), var, var);
        let set_result = c.var_set(0, result, stale);
        c.call(repeat, set_result);
    }
    let mut s = Script::new();
    s.tick(0.25).fire(world).tick(0.25).fire(world);
    let shows = "A Loop's outputs that stay as they are make no Select stale: 1 and 1, not 1 and 2.";
    Case::new("loop-outputs-equal", shows, &c, &s).tells(&[62])
}

/// A Loop with a stale Select on one of its inputs is entered before a VarSet
/// behind the Select.
fn reads(pin: &str) -> Case {
    let mut c = Circuit::new();
    let world = c.world_event(1);
    let (var, result) = (c.var(1), c.var(NOTHING));
    let stale = c.select(world, var, var);
    let set = c.var_set(0, var, 9);
    let set_result = c.var_set(0, result, stale);
    let (repeat, _) = repeat(&mut c, 0);
    c.feed(repeat.pin(pin), stale);
    c.call_all(world, &[repeat, set, set_result]);
    let five = c.constant(5);
    let mut s = Script::new();
    s.tick(0.25).give(world, five);
    let name = format!("reads-loop-{}", pin.to_lowercase());
    let runs = if pin == "Count" { "" } else { " though it makes no run" };
    let shows =
        format!("A Loop reads its {pin}{runs}: what a VarSet behind it shows through a stale Select.");
    Case::new(name, shows, &c, &s).tells(&[42, 60])
}

fn reads_once() -> Case {
    let mut c = Circuit::new();
    let world = c.world_event(0);
    let vars = [3, 10, 5].map(|n| c.var(n));
    let repeat = c.repeat(0, vars[0], vars[1], vars[2]);
    let body = c.body(repeat);
    let seen = c.queue_ticks(0, body, 1);
    c.put_inside(repeat, &[seen]);
    c.call(world, repeat);
    for (var, n) in vars.into_iter().zip([1, 100, 7]) {
        let set = c.var_set(0, var, n);
        c.put_inside(repeat, &[set]);
        c.call(body, set);
    }
    c.call(body, seen);
    let mut s = Script::new();
    s.tick(0.25).fire(world).ticks(2, 0.25).tick(0.25).fire(world).tick(0.25);
    let shows = "Count, FirstIndex and Step are read once, before the first run: 10, 15, 20; then 100.";
    Case::new("loop-reads-once", shows, &c, &s).tells(&[60])
}

/// The body keeps what its own Loop shows, and Index.
fn shows_the_last() -> Case {
    let mut c = Circuit::new();
    let world = c.world_event(0);
    let repeat = c.repeat(0, world, NOTHING, NOTHING);
    let body = c.body(repeat);
    let seen = c.queue_ticks(0, repeat, 1);
    c.feed(seen.pin("DataIn2"), repeat.out("bAborted"));
    c.feed(seen.pin("DataIn3"), repeat.out("bRunning"));
    c.feed(seen.pin("DataIn4"), body);
    c.put_inside(repeat, &[seen]);
    c.call(world, repeat);
    c.call(body, seen);
    let (one, two) = (c.constant(1), c.constant(2));
    let mut s = Script::new();
    s.tick(0.25).give(world, two).tick(0.25).give(world, one).ticks(2, 0.25);
    let shows = "While a Loop runs it shows what its last call left: nothing, then 2, false and false.";
    Case::new("loop-shows-the-last", shows, &c, &s).tells(&[63])
}

fn order_of_checks() -> Case {
    let mut c = Circuit::new();
    let world = c.world_event(0);
    let (repeat, body) = repeat(&mut c, 3);
    for out in ["bRunning", "bAborted", "IterationsExecuted"] {
        c.change_detector(1, repeat.out(out));
    }
    c.change_detector(1, body);
    c.call(world, repeat);
    let mut s = Script::new();
    s.first_checks(1, 0.25).tick(0.25).fire(world);
    let shows = "Index is marked first and seen once, then IterationsExecuted, bAborted and bRunning: gates begin 0, 6, 5, 4, 3.";
    Case::new("loop-order-of-checks", shows, &c, &s).tells(&[63])
}

/// Places: 1 before the Loop, 2 in its body, 3 behind Completed, 4 after it.
fn in_its_chain() -> Case {
    let mut c = Circuit::new();
    let world = c.world_event(0);
    let last = c.var(NOTHING);
    let [one, two, three, four] = [1, 2, 3, 4].map(|k| place(&mut c, last, k));
    let (repeat, body) = repeat(&mut c, 2);
    c.put_inside(repeat, &two);
    c.call_all(world, &[one[0], repeat, four[0]]);
    c.call(body, two[0]);
    c.call(repeat, three[0]);
    let mut s = Script::new();
    s.tick(0.25).fire(world);
    let shows = "The chain around a Loop waits for its runs and for what Completed calls: 1, 2, 2, 3, 4.";
    Case::new("loop-in-its-chain", shows, &c, &s).tells(&[63])
}

fn empty_body() -> Case {
    let mut c = Circuit::new();
    let world = c.world_event(0);
    let (repeat, _) = repeat(&mut c, 5);
    c.call(world, repeat);
    let mut s = Script::new();
    s.tick(0.25).fire(world);
    let shows = "A body without calls: five runs, and one step, the Loop's.";
    Case::new("loop-empty-body", shows, &c, &s).tells(&[63])
}

fn by_its_pin() -> Case {
    let mut c = Circuit::new();
    let world = c.world_event(0);
    let repeat = c.repeat(3, 2, 0, 1);
    let body = c.body(repeat);
    let inside = c.cycle(0, 100);
    let enough = c.break_out(2);
    let after = c.toggle(0);
    c.put_inside(repeat, &[inside]);
    c.feed(repeat.pin("Exec"), world);
    c.feed(enough.pin("Exec"), world);
    c.call(body, inside);
    c.call(enough, after);
    let one = c.constant(1);
    let mut s = Script::new();
    s.tick(0.25).give(world, one);
    let shows = "A Loop and a Break begin as units by their pins, of form 16; the Break ends nothing.";
    Case::new("loop-by-its-pin", shows, &c, &s).tells(&[63, 64])
}

fn at_the_start() -> Case {
    let mut c = Circuit::new();
    let on = c.var(true);
    let var = c.var(0);
    let repeat = c.repeat(4, 2, 5, 1);
    let body = c.body(repeat);
    let set = c.var_set(0, var, body);
    c.put_inside(repeat, &[set]);
    c.feed(repeat.pin("Exec"), on);
    c.change_detector(6, var);
    c.call(body, set);
    let mut s = Script::new();
    s.ticks(2, 0.25);
    let shows = "A Loop whose pin reads true at the start runs in tick 1's main pass; what its body wrote is seen in tick 2.";
    Case::new("loop-at-the-start", shows, &c, &s).tells(&[48, 70])
}

fn twice_in_a_chain() -> Case {
    let mut c = Circuit::new();
    let world = c.world_event(0);
    index_of(&mut c, world, [2, 7, 1]);
    c.calls.push(c.calls[0]);
    let mut s = Script::new();
    s.tick(0.25).fire(world).ticks(4, 0.25);
    let shows = "A Loop called twice begins anew: 7, 8, 7, 8.";
    Case::new("loop-twice-in-a-chain", shows, &c, &s).tells(&[63])
}

fn again_by_its_completed() -> Case {
    let mut c = Circuit::new();
    let world = c.world_event(0);
    let (repeat, body) = repeat(&mut c, 3);
    let count = c.cycle(0, 100);
    let once = c.union(0);
    c.put_inside(repeat, &[count]);
    c.chain(&[world, repeat, once, repeat]);
    c.call(body, count);
    let mut s = Script::new();
    s.tick(0.25).fire(world);
    let shows = "Completed may call its own Loop: three runs, and three more.";
    Case::new("loop-again-by-its-completed", shows, &c, &s).tells(&[63])
}

/// The inner Loop begins at the outer Index and counts by 10.
fn nested() -> Case {
    let mut c = Circuit::new();
    let world = c.world_event(0);
    let (outer, outer_body) = repeat(&mut c, 3);
    let inner = c.repeat(0, 2, outer_body, 10);
    let inner_body = c.body(inner);
    let seen = c.queue_ticks(0, inner_body, 1);
    let count = c.cycle(0, 100);
    c.feed(seen.pin("DataIn2"), outer_body);
    c.put_inside(outer, &[inner, count]);
    c.put_inside(inner, &[seen]);
    c.call(world, outer);
    c.call(outer_body, inner);
    c.call(inner_body, seen);
    c.call(inner, count);
    let mut s = Script::new();
    s.tick(0.25).fire(world).ticks(6, 0.25);
    let shows =
        "A Loop in a body, over the outer Index: 0, 10, 1, 11, 2, 12; its Completed calls in the outer body.";
    Case::new("loop-nested", shows, &c, &s).tells(&[60, 63])
}

fn counted_by_an_index() -> Case {
    let mut c = Circuit::new();
    let world = c.world_event(0);
    let (outer, outer_body) = repeat(&mut c, 4);
    let inner = c.repeat(0, outer_body, NOTHING, NOTHING);
    let inner_body = c.body(inner);
    let count = c.cycle(0, 100);
    c.put_inside(outer, &[inner]);
    c.put_inside(inner, &[count]);
    c.call(world, outer);
    c.call(outer_body, inner);
    c.call(inner_body, count);
    let mut s = Script::new();
    s.tick(0.25).fire(world);
    let shows = "An inner Loop reads its Count anew in each run of the outer one: 0 + 1 + 2 + 3 runs.";
    Case::new("loop-counted-by-an-index", shows, &c, &s).tells(&[60])
}

/// The innermost Loop has the lowest number, the outermost the highest.
fn three_deep() -> Case {
    let mut c = Circuit::new();
    let world = c.world_event(0);
    let [(third, in_third), (second, in_second), (first, in_first)] = [4, 3, 2].map(|n| repeat(&mut c, n));
    let counts = [0; 3].map(|_| c.cycle(0, 100));
    c.put_inside(first, &[second, counts[0]]);
    c.put_inside(second, &[third, counts[1]]);
    c.put_inside(third, &[counts[2]]);
    c.call(world, first);
    c.call_all(in_first, &[counts[0], second]);
    c.call_all(in_second, &[third, counts[1]]);
    c.call(in_third, counts[2]);
    let mut s = Script::new();
    s.tick(0.25).fire(world);
    let shows = "Three Loops in one another: 2, 6 and 24 runs.";
    Case::new("loop-three-deep", shows, &c, &s).tells(&[63])
}

/// A Clock of rank 5 in a body flips a Toggle there; its watchers lie in two
/// bodies and outside.
fn ranks_of_bodies() -> Case {
    let mut c = Circuit::new();
    let (a, _) = repeat(&mut c, 1);
    let (b, _) = repeat(&mut c, 1);
    let clock = c.clock(5, 0.25);
    let flipped = c.toggle(0);
    let watchers = [7, 6, 4, 5, 6, 9].map(|rank| c.change_detector(rank, flipped));
    c.put_inside(b, &[clock, flipped, watchers[0], watchers[2]]);
    c.put_inside(a, &[watchers[1], watchers[3]]);
    c.call(clock, flipped);
    let mut s = Script::new();
    s.first_checks(1, 0.0).tick(0.25).tick(0.0);
    let shows = "Units go by rank, whatever their bodies: 8, 9, 7, 10, 6, 11, then 4, 7, 10, 6, 11 with 8 and 9 carried, which begin 8, 9.";
    Case::new("ranks-of-bodies", shows, &c, &s).tells(&[59])
}

/// A World event, an event, an exec buffer and a Queue lie in a body, and run
/// as units without its Loop.
fn units_of_bodies() -> Case {
    let mut c = Circuit::new();
    let (repeat, body) = repeat(&mut c, 2);
    let world = c.world_event(2);
    let send = c.send_event(0, 3, world);
    let event = c.event_custom(1, 3);
    let later = c.buffer_ticks_exec(3, 1);
    let queue = c.queue_ticks(1, world, 1);
    let count = c.cycle(0, 100);
    c.put_inside(repeat, &[world, send, event, later, queue, count]);
    c.call_all(world, &[send, later, queue]);
    for from in [body, event, later, queue] {
        c.call(from, count);
    }
    let seven = c.constant(7);
    let mut s = Script::new();
    s.tick(0.25).give(world, seven).ticks(2, 0.25);
    let shows = "Gates of a body begin as units like any others: the Queue of rank 1, the buffer of rank 3, the event last.";
    Case::new("units-of-bodies", shows, &c, &s).tells(&[59])
}

/// Twice the Index goes 5, 3, 1.
fn watchers_in_a_body() -> Case {
    let mut c = Circuit::new();
    let world = c.world_event(0);
    let repeat = c.repeat(0, 3, 5, -2);
    let body = c.body(repeat);
    let through = c.select(true, NOTHING, body);
    let behind = c.change_detector(1, through);
    let pulses = [c.edge(body), c.change(body)];
    let edge = c.edge_exec(1, body);
    let held = c.buffer_ticks(body, 1, NOTHING);
    c.put_inside(repeat, &[&[through, behind, edge, held][..], &pulses].concat());
    c.call(world, repeat);
    let mut s = Script::new();
    s.first_checks(2, 0.25).tick(0.25).fire(world).tick(0.25).fire(world).tick(0.25);
    let shows = "Watchers in the body see the last Index alone, when the unit settles: 1, a rise; after 5, 3 and 1 again it is unchanged.";
    Case::new("watchers-in-a-body", shows, &c, &s).tells(&[63])
}

/// Each run restarts the Stopwatch and keeps both times in a Queue.
fn times_in_a_body() -> Case {
    let mut c = Circuit::new();
    let world = c.world_event(0);
    let (repeat, body) = repeat(&mut c, 2);
    let (time, uptime) = (c.delta_time(), c.server_uptime());
    let watch = c.stopwatch(0, 0.5);
    let held = c.buffer_seconds(body, 0.25, NOTHING);
    let seen = c.queue_ticks(0, time, 1);
    let after = c.toggle(0);
    c.feed(seen.pin("DataIn2"), uptime);
    c.put_inside(repeat, &[time, uptime, watch, held, seen, after]);
    c.call(world, repeat);
    c.call_all(body, &[watch, seen]);
    c.call(watch, after);
    let mut s = Script::new();
    s.first_checks(1, 0.5).tick(0.25).fire(world).tick(0.125).tick(0.5);
    let shows = "Times, a Stopwatch and a buffer of seconds that lie in a body go with the ticks, whether it runs or not.";
    Case::new("times-in-a-body", shows, &c, &s)
}

fn global_send_in_a_body() -> Case {
    let mut c = Circuit::new();
    let world = c.world_event(0);
    let (repeat, body) = repeat(&mut c, 2);
    let send = c.send_global(0, 9, body);
    let event = c.event_global(0, 9);
    let count = c.cycle(0, 100);
    c.put_inside(repeat, &[send, event, count]);
    c.call(world, repeat);
    c.call(body, send);
    c.call(event, count);
    let mut s = Script::new();
    s.tick(0.25).fire(world).tick(0.25);
    let shows =
        "A global send of the first run reaches an event in the same body, which begins as a unit: 0.";
    Case::new("global-send-in-a-body", shows, &c, &s)
}
