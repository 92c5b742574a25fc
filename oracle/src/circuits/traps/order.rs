//! Which unit begins when: the late pass, the main pass and what is carried.

use super::Case;
use crate::build::{Circuit, Gate, NOTHING, Script};

pub fn cases() -> Vec<Case> {
    vec![
        order_in_a_late_rank(),
        clocks_before_the_rest(),
        start_settle_is_main(),
        time_sources_ascending(),
        late_pass_has_no_cursor(),
        late_unit_raises_itself(),
        endless_in_the_late_pass(),
        endless_by_carrying(),
        carried_once(),
        carried_by_what_was_carried(),
        ranks_fall_in_the_late_pass(),
        oldest_of_a_rank(),
        events_after_all(),
        raised_in_the_main_pass(),
        stopped_while_carrying(),
        stopped_before_the_main_pass(),
        late_full_at_the_opening(),
    ]
}

fn order_in_a_late_rank() -> Case {
    let mut c = Circuit::new();
    let watch = c.stopwatch(0, 0.5);
    let queue = c.queue_ticks(0, NOTHING, 1);
    let later = c.buffer_ticks_exec(0, 1);
    let world = c.world_event(0);
    let toggle = c.toggle(0);
    let clock = c.clock(1, 0.5);
    c.change_detector(0, toggle);
    let start = c.world_event(0);
    let event = c.event_custom(0, 0);
    let send = c.send_event(0, 0, 1);
    c.call(start, watch);
    c.call_all(world, &[queue, later, send]);
    c.call(clock, toggle);
    c.call(event, toggle);
    let mut s = Script::new();
    s.first_checks(1, 0.0)
        .tick(0.25)
        .fire(start)
        .tick(0.25)
        .fire(world)
        .tick(0.25)
        .fire(world)
        .fire(start)
        .tick(0.25);
    let shows = "In one late rank: carried, stimuli, Queues and buffers by gate, Stopwatches, then what the pass raises; the event last.";
    Case::new("order-in-a-late-rank", shows, &c, &s).tells(&[20, 27])
}

fn clocks_before_the_rest() -> Case {
    let mut c = Circuit::new();
    let delta = c.delta_time();
    c.change_detector(3, delta);
    c.edge_exec(3, delta);
    c.clock(3, 0.0);
    c.clock(2, 0.0);
    c.change_detector(2, delta);
    let mut s = Script::new();
    s.tick(0.25).tick(0.5).tick(0.5).tick(0.25);
    let shows = "In one rank of the main pass Clocks come before what the opening's settling raises.";
    Case::new("clocks-before-the-rest", shows, &c, &s).tells(&[20])
}

fn start_settle_is_main() -> Case {
    let mut c = Circuit::new();
    let uptime = c.server_uptime();
    let changed = c.change_detector(0, uptime);
    let toggle = c.toggle(0);
    let pin = c.toggle(0);
    c.feed(pin.pin("Exec"), uptime);
    c.call(changed, toggle);
    let mut s = Script::new();
    s.tick(0.0).tick(0.25).tick(0.0).tick(0.25);
    let shows = "What the opening's settling raises waits for the main pass, whatever its rank, and is never carried.";
    Case::new("start-settle-is-main", shows, &c, &s).tells(&[23])
}

fn time_sources_ascending() -> Case {
    let mut c = Circuit::new();
    let uptime = c.server_uptime();
    let delta = c.delta_time();
    c.change_detector(0, delta);
    c.change_detector(0, uptime);
    let mut s = Script::new();
    s.tick(0.25).tick(0.5);
    let shows =
        "Time sources are made stale by gate: in tick 2 the watcher of gate 0 begins first, 3, then 2.";
    Case::new("time-sources-ascending", shows, &c, &s).tells(&[19])
}

fn late_pass_has_no_cursor() -> Case {
    let mut c = Circuit::new();
    let world = c.world_event(5);
    let toggle = c.toggle(0);
    for rank in [9, 5, 0] {
        c.change_detector(rank, toggle);
    }
    c.call(world, toggle);
    let mut s = Script::new();
    s.first_checks(1, 0.25).tick(0.25).fire(world).fire(world);
    let shows = "In the late pass nothing is carried: ranks 0, 5 and 9 raised by rank 5 all begin in it.";
    Case::new("late-pass-has-no-cursor", shows, &c, &s).tells(&[24])
}

/// A ChangeDetector that counts up a Cycle of 5 until it shows 0.
fn late_unit_raises_itself() -> Case {
    let mut c = Circuit::new();
    let world = c.world_event(0);
    let count = c.cycle(0, 5);
    let again = c.change_detector(3, count);
    let more = c.branch(0, count);
    c.call(world, count);
    c.chain(&[again, more, count]);
    let mut s = Script::new();
    s.first_checks(1, 0.25).tick(0.25).fire(world).tick(0.25).tick(0.25).fire(world);
    let shows = "A late unit may raise itself again in its tick.";
    Case::new("late-unit-raises-itself", shows, &c, &s).tells(&[24])
}

/// What counts up a Cycle whose change counts it up again; nothing, at the
/// first check, does not.
fn endless(begin: impl Fn(&mut Circuit) -> Gate) -> (Circuit, Gate) {
    let mut c = Circuit::new();
    let first = begin(&mut c);
    let count = c.cycle(0, 1_000_000);
    let again = c.change_detector(3, count);
    let more = c.branch(0, count);
    c.call(first, count);
    c.chain(&[again, more, count]);
    (c, first)
}

fn endless_in_the_late_pass() -> Case {
    let (c, world) = endless(|c| c.world_event(0));
    let mut s = Script::new();
    s.tick(0.25).fire(world).tick(0.25);
    let shows = "An endless loop of values in the late pass ends with the 1,025th unit: 12, not 11.";
    Case::new("endless-in-the-late-pass", shows, &c, &s).tells(&[24, 34, 43])
}

fn endless_by_carrying() -> Case {
    let (c, _) = endless(|c| c.clock(3, 0.5));
    let mut s = Script::new();
    s.ticks(3, 0.25);
    let shows =
        "Raised by its own rank in the main pass it is carried once, and endless in the next late pass.";
    Case::new("endless-by-carrying", shows, &c, &s).tells(&[24, 43])
}

fn carried_once() -> Case {
    let mut c = Circuit::new();
    let clock = c.clock(4, 1.0);
    let toggle = c.toggle(0);
    let low = c.change_detector(2, toggle);
    let count = c.cycle(0, 100);
    c.call(clock, toggle);
    c.call(low, count);
    c.edge_exec(4, toggle);
    let driven = c.toggle(3);
    c.feed(driven.pin("Exec"), toggle);
    let mut s = Script::new();
    s.ticks(9, 0.25);
    let shows = "A carried unit begins once, in the next tick's late pass: kinds 6, 9 and a pin.";
    Case::new("carried-once", shows, &c, &s).tells(&[40])
}

fn carried_by_what_was_carried() -> Case {
    let mut c = Circuit::new();
    let clock = c.clock(4, 0.5);
    let a = c.toggle(0);
    let b = c.toggle(0);
    let on_a = c.change_detector(4, a);
    c.change_detector(0, b);
    c.change_detector(9, b);
    c.call(clock, a);
    c.call(on_a, b);
    let mut s = Script::new();
    s.first_checks(2, 0.0).ticks(6, 0.25);
    let shows = "What a carried unit raises stays in that late pass.";
    Case::new("carried-by-what-was-carried", shows, &c, &s).tells(&[24])
}

fn ranks_fall_in_the_late_pass() -> Case {
    let mut c = Circuit::new();
    let high = c.world_event(9);
    let mid = c.world_event(5);
    let toggle = c.toggle(0);
    c.change_detector(1, toggle);
    c.call(high, toggle);
    c.call(mid, toggle);
    let mut s = Script::new();
    s.first_checks(1, 0.25).tick(0.25).fire(high).fire(mid).fire(high).fire(mid);
    let shows = "Lowest rank waiting first: 5, 1, 5, 1, 9, 1, 9, 1.";
    Case::new("ranks-fall-in-the-late-pass", shows, &c, &s).tells(&[24])
}

fn oldest_of_a_rank() -> Case {
    let mut c = Circuit::new();
    let clock = c.clock(1, 0.25);
    let toggle = c.toggle(0);
    let count = c.cycle(0, 100);
    c.change_detector(7, count);
    c.change_detector(7, toggle);
    let second = c.clock(2, 0.25);
    c.change_detector(7, toggle);
    c.call_all(clock, &[toggle, count]);
    c.call(second, count);
    let mut s = Script::new();
    s.first_checks(1, 0.0).ticks(2, 0.25);
    let shows =
        "In one rank of the main pass the first raised begins first, and a gate raised twice begins twice.";
    Case::new("oldest-of-a-rank", shows, &c, &s).tells(&[20])
}

fn events_after_all() -> Case {
    let mut c = Circuit::new();
    let world = c.world_event(3);
    let a = c.send_event(0, 1, 10);
    let b = c.send_global(0, 1, 20);
    let high = c.event_custom(8, 1);
    let low = c.event_global(0, 1);
    let toggle = c.toggle(0);
    c.change_detector(9, toggle);
    c.call_all(world, &[a, b]);
    c.call(high, toggle);
    c.call(low, toggle);
    let mut s = Script::new();
    s.first_checks(1, 0.25).tick(0.25).fire(world).tick(0.25).fire(world).tick(0.25);
    let shows =
        "Events run only while no ranked unit waits, each followed by all it sets off, in the order sent.";
    Case::new("events-after-all", shows, &c, &s).tells(&[27])
}

fn raised_in_the_main_pass() -> Case {
    let mut c = Circuit::new();
    let clock = c.clock(2, 0.25);
    let toggle = c.toggle(0);
    let count = c.cycle(0, 100);
    let mid = c.change_detector(5, toggle);
    c.change_detector(9, count);
    c.change_detector(5, count);
    c.change_detector(4, count);
    c.call(clock, toggle);
    c.call(mid, count);
    let mut s = Script::new();
    s.first_checks(2, 0.0).ticks(3, 0.25);
    let shows = "The cursor is the rank begun last: rank 5 raises 9 for this tick and carries 5 and 4.";
    Case::new("raised-in-the-main-pass", shows, &c, &s).tells(&[24])
}

/// A Clock whose chain never ends, behind one that carries two units.
fn stopped_while_carrying() -> Case {
    let mut c = Circuit::new();
    let clock = c.clock(4, 0.25);
    let toggle = c.toggle(0);
    c.change_detector(1, toggle);
    c.change_detector(2, toggle);
    let bad = c.clock(5, 0.25);
    let ring = c.reroute(NOTHING);
    c.call(clock, toggle);
    c.call(bad, ring);
    c.call_all(ring, &[ring, ring]);
    let mut s = Script::new();
    s.first_checks(1, 0.0).tick(0.25);
    let shows = "A tick stopped in its main pass records what it has carried so far.";
    Case::new("stopped-while-carrying", shows, &c, &s).tells(&[32])
}

fn stopped_before_the_main_pass() -> Case {
    let mut c = Circuit::new();
    let clock = c.clock(4, 0.25);
    let toggle = c.toggle(0);
    let changed = c.change_detector(1, toggle);
    let flipped = c.branch(0, toggle);
    let ring = c.reroute(NOTHING);
    c.call(clock, toggle);
    c.chain(&[changed, flipped, ring]);
    c.call_all(ring, &[ring, ring]);
    let mut s = Script::new();
    s.first_checks(1, 0.0).ticks(2, 0.25);
    let shows = "A tick stopped in its late pass records none carried: those carried in have moved.";
    Case::new("stopped-before-the-main-pass", shows, &c, &s).tells(&[32])
}

/// Eight Clocks flip a Toggle that 32 ChangeDetectors of a lower rank watch.
fn late_full_at_the_opening() -> Case {
    let mut c = Circuit::new();
    let toggle = c.toggle(0);
    for _ in 0..8 {
        let clock = c.clock(1, 0.5);
        c.call(clock, toggle);
    }
    for _ in 0..32 {
        c.change_detector(0, toggle);
    }
    let world = c.world_event(0);
    let mut s = Script::new();
    s.ticks(3, 0.25).fire(world);
    let shows = "256 carried and one stimulus: stopped before any unit, `3 0 0 0 0 12`.";
    Case::new("late-full-at-the-opening", shows, &c, &s).tells(&[33])
}
