//! Nothing is left from one script to the next: the first leaves something that
//! the second would show, and a third that is the first again.

use super::answers::stopping;
use super::{class, fed, of, quiet};
use crate::build::{Circuit, Gate, NOTHING, Script};
use crate::case::Class;

pub fn classes() -> Vec<Class> {
    let mut classes: Vec<Class> = FED.into_iter().map(left_by_a_stimulus).collect();
    classes.extend([clock(), pulse(), uptime(), carried(), by_a_stop(), in_a_body()]);
    classes
}

/// A class of this script, then quiet ticks, then the script again.
fn left(name: &str, what: &str, c: &Circuit, first: Vec<u8>, ticks: usize) -> Class {
    let shows = format!("{what}: the next script sees nothing of it.");
    class(format!("left-{name}"), shows, c, of(&[first.clone(), quiet(ticks), first]))
}

/// What a World event leaves, the ticks after which it would be seen, and the
/// gates behind the event.
type Left = (&'static str, &'static str, usize, fn(&mut Circuit, Gate));

const FED: [Left; 8] = [
    ("toggle", "A Toggle that is true", 1, |c, world| {
        let toggle = c.toggle(0);
        c.call(world, toggle);
    }),
    ("cycle", "A Cycle that has counted", 1, |c, world| {
        let count = c.cycle(0, 3);
        c.call(world, count);
    }),
    ("var", "A Var that was set", 1, |c, world| {
        let var = c.var(1);
        let set = c.var_set(0, var, 5);
        c.call(world, set);
    }),
    ("queue", "A record in a Queue", 2, |c, world| {
        let queue = c.queue_ticks(0, 5, 2);
        c.call(world, queue);
    }),
    ("buffer", "A value on its way in a buffer", 4, |c, world| {
        c.buffer_ticks(world, 2, NOTHING);
    }),
    ("fires", "A fire of a buffer", 2, |c, world| {
        let buffer = c.buffer_ticks_exec(0, 2);
        let toggle = c.toggle(0);
        c.chain(&[world, buffer, toggle]);
    }),
    ("stopwatch", "A Stopwatch that runs", 1, |c, world| {
        let stopwatch = c.stopwatch(0, NOTHING);
        c.call(world, stopwatch);
    }),
    ("event", "An event that was sent", 1, |c, world| {
        let send = c.send_event(0, 0, 5);
        c.event_custom(0, 0);
        c.call(world, send);
    }),
];

/// A tick with a stimulus of 7 for the World event, gate 0.
fn left_by_a_stimulus((name, what, ticks, behind): Left) -> Class {
    let mut c = Circuit::new();
    c.constant(7);
    let world = c.world_event(0);
    behind(&mut c, world);
    left(name, what, &c, fed(world, 1), ticks)
}

/// Half of the Clock's interval is over.
fn clock() -> Class {
    let mut c = Circuit::new();
    c.clock(0, 0.5);
    left("clock", "Half of a Clock's interval", &c, quiet(1), 1)
}

/// Each script has its own pulse, in its ticks 1 and 2.
fn pulse() -> Class {
    let mut c = Circuit::new();
    let world = c.world_event(0);
    c.change(world);
    left("pulse", "The pulse of a first check", &c, quiet(1), 3)
}

fn uptime() -> Class {
    let mut c = Circuit::new();
    c.server_uptime();
    left("uptime", "The uptime", &c, quiet(2), 2)
}

/// A main pass of rank 4 that raises rank 4.
fn carried() -> Class {
    let mut c = Circuit::new();
    let clock = c.clock(4, 1.0);
    let toggle = c.toggle(0);
    c.call(clock, toggle);
    c.change_detector(4, toggle);
    let first = Script::new().tick(0.0).tick(1.0).bytes();
    left("carried", "A carried unit", &c, first, 1)
}

/// A chain that is stopped by 12, with a stimulus waiting behind it.
fn by_a_stop() -> Class {
    let (c, [flip, twelve, _]) = stopping();
    let first = Script::new().tick(0.25).give(flip, 1).fire(twelve).give(flip, 1).bytes();
    left("by-a-stop", "A full chain stack, and a unit that waits behind it", &c, first, 1)
}

/// A body that is stopped by 12 in its first run.
fn in_a_body() -> Class {
    let mut c = Circuit::new();
    let world = c.world_event(0);
    let repeat = c.repeat(0, 3, 0, 1);
    let entry = c.body(repeat);
    let ring = c.reroute(NOTHING);
    c.put_inside(repeat, &[ring]);
    c.call(world, repeat);
    c.call(entry, ring);
    c.call_all(ring, &[ring, ring]);
    let first = Script::new().tick(0.25).fire(world).bytes();
    left("in-a-body", "A Loop that is stopped in its body", &c, first, 1)
}
