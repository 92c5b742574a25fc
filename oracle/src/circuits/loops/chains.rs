//! Unions, forks, the chain stack, and what else a body calls.

use super::super::Case;
use super::{place, repeat};
use crate::build::{Circuit, Gate, NOTHING, Script};

pub fn cases() -> Vec<Case> {
    let mut cases = vec![union_in_a_body(), union_around(), union_in_forks()];
    cases.extend([union_as_a_unit(), union_after_a_unit()]);
    cases.extend([fork_order(), forks_as_found(), forks_see_the_last_index(), forks_of_nested_bodies()]);
    cases.extend([0, 1].map(stack));
    cases.extend([0, 1].map(stack_of_nested_bodies));
    cases.extend([0, 1].map(forks));
    cases.extend([0, 1].map(fires));
    cases.extend([runaway(), send(), waits()]);
    cases
}

/// The case for a limit's edge, or with `past` for one more.
fn edge(name: &str, limit: usize, past: usize, what: &str, c: &Circuit, world: Gate) -> Case {
    let shows = match past {
        0 => format!("{limit} {what}: passes."),
        _ => format!("{} {what}: stops with 12.", limit + past),
    };
    let mut s = Script::new();
    s.tick(0.25).fire(world);
    Case::new(format!("{name}-{}", limit + past), shows, c, &s).tells(&[67])
}

fn union_in_a_body() -> Case {
    let mut c = Circuit::new();
    let world = c.world_event(0);
    let (repeat, body) = repeat(&mut c, 3);
    let once = c.union(0);
    let count = c.cycle(0, 100);
    c.put_inside(repeat, &[once, count]);
    c.call(world, repeat);
    c.call_all(body, &[once, once]);
    c.call(once, count);
    let mut s = Script::new();
    s.tick(0.25).fire(world).tick(0.25).fire(world);
    let shows = "A Union in a body passes once in each run: 3, and 6.";
    Case::new("union-in-a-body", shows, &c, &s).tells(&[65])
}

fn union_around() -> Case {
    let mut c = Circuit::new();
    let world = c.world_event(0);
    let (outer, in_outer) = repeat(&mut c, 2);
    let (inner, in_inner) = repeat(&mut c, 2);
    let unions = [0; 2].map(|_| c.union(0));
    let counts = [0; 2].map(|_| c.cycle(0, 100));
    c.put_inside(outer, &[inner, unions[0], counts[0]]);
    c.put_inside(inner, &[unions[1], counts[1]]);
    c.call(world, outer);
    c.call_all(in_outer, &[unions[0], inner, unions[0]]);
    c.call_all(in_inner, &[unions[1], unions[1]]);
    c.chain(&[unions[0], counts[0]]);
    c.chain(&[unions[1], counts[1]]);
    let mut s = Script::new();
    s.tick(0.25).fire(world);
    let shows =
        "The runs around an inner one keep their Unions: 2 of the outer body's, 4 of the inner body's.";
    Case::new("union-around-a-loop", shows, &c, &s).tells(&[65])
}

fn union_in_forks() -> Case {
    let mut c = Circuit::new();
    let world = c.world_event(0);
    let (repeat, body) = repeat(&mut c, 3);
    let once = c.union(0);
    let count = c.cycle(0, 100);
    c.put_inside(repeat, &[once, count]);
    c.call(world, repeat);
    c.call(body, once);
    c.remote(body, once);
    c.call(once, count);
    let mut s = Script::new();
    s.tick(0.25).fire(world).tick(0.25).fire(world);
    let shows = "A Union that passed in three runs passes once more where forks reach it: 4, and 8.";
    Case::new("union-in-forks", shows, &c, &s).tells(&[65, 66])
}

fn union_as_a_unit() -> Case {
    let mut c = Circuit::new();
    let world = c.world_event(0);
    let other = c.world_event(0);
    let (repeat, body) = repeat(&mut c, 3);
    let once = c.union(1);
    let count = c.cycle(0, 100);
    c.put_inside(repeat, &[once, count]);
    c.feed(once.pin("Exec"), other);
    c.call(world, repeat);
    c.call(body, once);
    c.call(once, count);
    let (one, two) = (c.constant(1), c.constant(2));
    let mut s = Script::new();
    s.tick(0.25).fire(world).give(other, one).give(other, two);
    let shows = "A Union of a body that begins as a unit, twice, passes once a tick, beside the runs: 3 + 1.";
    Case::new("union-as-a-unit", shows, &c, &s).tells(&[65])
}

fn union_after_a_unit() -> Case {
    let mut c = Circuit::new();
    let world = c.world_event(2);
    let other = c.world_event(0);
    let (repeat, body) = repeat(&mut c, 3);
    let once = c.union(1);
    let count = c.cycle(0, 100);
    c.put_inside(repeat, &[once, count]);
    c.feed(once.pin("Exec"), other);
    c.call(world, repeat);
    c.call(body, once);
    c.remote(body, once);
    c.call(once, count);
    let one = c.constant(1);
    let mut s = Script::new();
    s.tick(0.25).fire(world).give(other, one);
    let shows =
        "A Union that passed as a unit passes in each run afterwards, but not where forks reach it: 1 + 3.";
    Case::new("union-after-a-unit", shows, &c, &s).tells(&[65])
}

/// Places: 1 by a fork of the World event, 2 in the body, 3 after the Loop, 4
/// by a fork of the body.
fn fork_order() -> Case {
    let mut c = Circuit::new();
    let world = c.world_event(0);
    let last = c.var(NOTHING);
    let [one, two, three, four] = [1, 2, 3, 4].map(|k| place(&mut c, last, k));
    let (repeat, body) = repeat(&mut c, 1);
    c.put_inside(repeat, &[two, four].concat());
    c.remote(world, one[0]);
    c.call_all(world, &[repeat, three[0]]);
    c.remote(body, four[0]);
    c.call(body, two[0]);
    let mut s = Script::new();
    s.tick(0.25).fire(world);
    let shows = "A fork of a body runs when the unit's whole chain has ended, as found: places 2, 3, 1, 4.";
    Case::new("fork-of-a-body", shows, &c, &s).tells(&[66])
}

/// Places: 1 by a fork of the World event, 2 by one of the body, 3 by one of a
/// Toggle after the Loop.
fn forks_as_found() -> Case {
    let mut c = Circuit::new();
    let world = c.world_event(0);
    let last = c.var(NOTHING);
    let [one, two, three] = [1, 2, 3].map(|k| place(&mut c, last, k));
    let (repeat, body) = repeat(&mut c, 1);
    let after = c.toggle(0);
    c.put_inside(repeat, &two);
    c.remote(world, one[0]);
    c.call_all(world, &[repeat, after]);
    c.remote(body, two[0]);
    c.remote(after, three[0]);
    let mut s = Script::new();
    s.tick(0.25).fire(world);
    let shows = "Forks found before a Loop, in its body and after it run in this order: places 1, 2, 3.";
    Case::new("forks-as-found", shows, &c, &s).tells(&[66])
}

fn forks_see_the_last_index() -> Case {
    let mut c = Circuit::new();
    let world = c.world_event(0);
    let (repeat, body) = repeat(&mut c, 3);
    let now = c.queue_ticks(0, body, 1);
    let later = c.queue_ticks(0, body, 1);
    c.put_inside(repeat, &[now, later]);
    c.call(world, repeat);
    c.remote(body, later);
    c.call(body, now);
    let mut s = Script::new();
    s.tick(0.25).fire(world).ticks(3, 0.25);
    let shows = "The forks of three runs see the last Index: 2, 2, 2; the runs 0, 1, 2.";
    Case::new("forks-see-the-last-index", shows, &c, &s).tells(&[66]).delays(2 << 16)
}

/// An inner Loop entered by a fork of the outer body: its runs are inside, and
/// what its body forks goes to the back.
fn forks_of_nested_bodies() -> Case {
    let mut c = Circuit::new();
    let world = c.world_event(0);
    let last = c.var(NOTHING);
    let [one, two, three] = [1, 2, 3].map(|k| place(&mut c, last, k));
    let (outer, in_outer) = repeat(&mut c, 1);
    let (inner, in_inner) = repeat(&mut c, 1);
    c.put_inside(outer, &[&[inner][..], &one].concat());
    c.put_inside(inner, &[two, three].concat());
    c.call(world, outer);
    c.remote(in_outer, inner);
    c.remote(in_outer, one[0]);
    c.remote(in_inner, three[0]);
    c.call(in_inner, two[0]);
    let mut s = Script::new();
    s.tick(0.25).fire(world);
    let shows = "A fork enters an inner Loop, whose own fork goes to the back: places 2, 1, 3.";
    Case::new("forks-of-nested-bodies", shows, &c, &s).tells(&[66])
}

/// A Cycle of `turns` that calls itself through a Branch until it shows 0, and
/// each time leaves five calls on the chain stack; then it calls `then`.
fn leave_calls(c: &mut Circuit, world: Gate, turns: i64, then: Gate) {
    let turn = c.cycle(0, turns);
    let more = c.branch(0, turn);
    let left = c.toggle(0);
    c.chain(&[world, turn, more]);
    for _ in 0..5 {
        c.call(turn, left);
    }
    c.call(more, turn);
    c.call(more.out("ExecOutB"), then);
}

fn stack(past: usize) -> Case {
    let mut c = Circuit::new();
    let world = c.world_event(0);
    let (repeat, body) = repeat(&mut c, 2);
    leave_calls(&mut c, world, 51, repeat);
    let inside = c.toggle(0);
    c.put_inside(repeat, &[inside]);
    for _ in 0..1 + past {
        c.call(body, inside);
    }
    edge("loop-stack", 256, past, "calls on the chain stack, 255 of them around the Loop", &c, world)
}

fn stack_of_nested_bodies(past: usize) -> Case {
    let mut c = Circuit::new();
    let world = c.world_event(0);
    let (outer, in_outer) = repeat(&mut c, 1);
    let (inner, in_inner) = repeat(&mut c, 1);
    leave_calls(&mut c, world, 40, outer);
    let middle = c.toggle(0);
    let inside = c.toggle(0);
    c.put_inside(outer, &[inner, middle]);
    c.put_inside(inner, &[inside]);
    c.call(in_outer, inner);
    for _ in 0..50 {
        c.call(in_outer, middle);
    }
    for _ in 0..6 + past {
        c.call(in_inner, inside);
    }
    let what = "calls on the chain stack, 200 around a Loop, 50 in its body, the rest in an inner body";
    edge("loop-stack-nested", 256, past, what, &c, world)
}

fn forks(past: usize) -> Case {
    let mut c = Circuit::new();
    let world = c.world_event(0);
    let (repeat, body) = repeat(&mut c, 256 + past as i64);
    let (forked, inside) = (c.toggle(0), c.toggle(0));
    c.put_inside(repeat, &[forked, inside]);
    c.call(world, repeat);
    c.remote(body, forked);
    c.call(body, inside);
    edge("loop-forks", 256, past, "forks, one of each run", &c, world)
}

fn fires(past: usize) -> Case {
    let mut c = Circuit::new();
    let world = c.world_event(0);
    let (repeat, body) = repeat(&mut c, 32 + past as i64);
    let later = c.buffer_ticks_exec(0, 2);
    c.put_inside(repeat, &[later]);
    c.call(world, repeat);
    c.call(body, later);
    edge("loop-fires", 32, past, "fires of a buffer, one of each run", &c, world)
}

fn runaway() -> Case {
    let mut c = Circuit::new();
    let world = c.world_event(0);
    let (outer, in_outer) = repeat(&mut c, 2);
    let (inner, in_inner) = repeat(&mut c, 2);
    let ring = c.reroute(NOTHING);
    c.put_inside(outer, &[inner]);
    c.put_inside(inner, &[ring]);
    c.call(world, outer);
    c.call(in_outer, inner);
    c.chain(&[in_inner, ring, ring]);
    let mut s = Script::new();
    s.tick(0.25).fire(world).tick(0.25);
    let shows = "The 50,000,001st step stops with 11 in an inner body too.";
    Case::new("loop-runaway", shows, &c, &s).tells(&[63])
}

fn send() -> Case {
    let mut c = Circuit::new();
    let world = c.world_event(0);
    let (repeat, body) = repeat(&mut c, 3);
    let send = c.send_event(0, 9, body);
    c.event_custom(0, 9);
    c.put_inside(repeat, &[send]);
    c.call(world, repeat);
    c.call(body, send);
    let mut s = Script::new();
    s.tick(0.25).fire(world).tick(0.25);
    let shows = "A send in a body is sent in the first run and ignored in the others: 0.";
    Case::new("send-in-a-body", shows, &c, &s).tells(&[26])
}

fn waits() -> Case {
    let mut c = Circuit::new();
    let world = c.world_event(0);
    let (repeat, body) = repeat(&mut c, 3);
    let later = c.buffer_seconds_exec(0, 0.1);
    let queue = c.queue_seconds(0, body, 0.3);
    c.put_inside(repeat, &[later, queue]);
    c.call(world, repeat);
    c.call_all(body, &[later, queue]);
    let mut s = Script::new();
    s.tick(0.25).fire(world).tick(0.25);
    let shows = "Waits in a body count as often as they start: 3 of 0.1 and 3 of 0.3.";
    Case::new("waits-in-a-body", shows, &c, &s).tells(&[56])
}
