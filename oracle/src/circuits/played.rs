//! Document 01's played examples.

use super::Case;
use crate::build::{Circuit, Gate, NOTHING, Script};

pub fn cases() -> Vec<Case> {
    let mut cases = vec![
        toggle(),
        no_ticks(),
        rank_4_raises("rank-4-raises-4", "Main pass, rank 4 raises rank 4: carried.", 4),
        rank_4_raises("rank-4-raises-5", "Main pass, rank 4 raises rank 5: this tick.", 5),
        pulse(),
        clock(),
        cycle("cycle-up", "Exec", "Cycle, Count 3, from nothing: up gives 1."),
        cycle("cycle-down", "ExecDown", "Cycle, Count 3, from nothing: down gives 2."),
    ];
    cases.extend(narrowings());
    cases.extend([queue_257(), steps("steps-50000000", 0), steps("steps-50000001", 1)]);
    cases.extend([carry_below(), events_last(), clock_excess(), one_record_a_tick(), pulse_two_ticks()]);
    cases
}

fn toggle() -> Case {
    let circuit = [2, 1, 1, 1, 1, 7, 28, 22, 0, 1, -1, 0, 0, 0];
    let script = [1, 1, 4598175219545276416, 1, 0, 1];
    Case::of_words("toggle", "A stimulus of 7 toggles a Toggle.", &circuit, &script)
}

fn no_ticks() -> Case {
    let circuit = [2, 1, 1, 1, 1, 7, 28, 22, 0, 1, -1, 0, 0, 0];
    Case::of_words("no-ticks", "T = 0: an empty log.", &circuit, &[0, 0])
}

/// A Clock of rank 4 flips a Toggle that a ChangeDetector watches.
fn rank_4_raises(name: &str, shows: &str, rank: i64) -> Case {
    let mut c = Circuit::new();
    let clock = c.clock(4, 1.0);
    let toggle = c.toggle(0);
    c.change_detector(rank, toggle);
    c.call(clock, toggle);
    let mut s = Script::new();
    s.first_checks(1, 0.0).tick(1.0).tick(0.25);
    Case::new(name, shows, &c, &s).tells(&[24])
}

fn pulse() -> Case {
    let mut c = Circuit::new();
    let world = c.world_event(0);
    c.edge(world);
    let one = c.constant(1);
    let mut s = Script::new();
    s.ticks(5, 0.25).give(world, one).ticks(3, 0.25);
    let shows = "A pulse raised in tick 5 is true in records 5 and 6, false in 7.";
    Case::new("pulse", shows, &c, &s).tells(&[12])
}

fn clock() -> Case {
    let mut c = Circuit::new();
    c.clock(0, 1.0);
    let mut s = Script::new();
    s.ticks(9, 0.25);
    Case::new("clock", "Interval 1.0, ticks of 0.25: fires in ticks 4 and 8.", &c, &s)
}

fn cycle(name: &str, pin: &str, shows: &str) -> Case {
    let mut c = Circuit::new();
    let world = c.world_event(0);
    let cycle = c.cycle(0, 3);
    c.call(world, cycle.pin(pin));
    let mut s = Script::new();
    s.tick(0.25).fire(world);
    Case::new(name, shows, &c, &s).tells(&[31])
}

/// A wait that narrows to what one tick length reaches and the one below
/// does not. (That 2^128 - 2^103 becomes infinite no tick length can tell:
/// the wait is never over either way.)
fn narrowings() -> Vec<Case> {
    let tenth = f64::from(f32::from_bits(0x3DCC_CCCD));
    let below_tenth = f64::from(f32::from_bits(0x3DCC_CCCC));
    let p = |e: i32| 2f64.powi(e);
    let rows = [
        ("narrow-tenth", "0.1 narrows to 3DCCCCCD", 0.1, tenth, below_tenth),
        ("narrow-half-down", "1 + 2^-24 narrows to 1", 1.0 + p(-24), 1.0, 1.0 - p(-24)),
        (
            "narrow-half-up",
            "1 + 3 * 2^-24 narrows to 1 + 2^-22",
            1.0 + 3.0 * p(-24),
            1.0 + p(-22),
            1.0 + p(-23),
        ),
        ("narrow-half-of-least", "2^-150 narrows to 0", p(-150), 0.0, 0.0),
        (
            "narrow-over-half-of-least",
            "a little more than 2^-150 narrows to 2^-149",
            p(-150) + p(-202),
            p(-149),
            0.0,
        ),
        ("narrow-least-and-half", "3 * 2^-150 narrows to 2^-148", 3.0 * p(-150), p(-148), p(-149)),
        ("narrow-up-to-2", "2 - 2^-25 narrows to 2", 2.0 - p(-25), 2.0, 2.0 - p(-23)),
        ("narrow-least", "2^-149 stays, and is not reached by 0", p(-149), p(-149), 0.0),
        ("narrow-over", "2^128 - 2^103 is never reached", p(128) - p(103), 3600.0, 3600.0),
        ("narrow-tick-tenth", "a tick of 0.1 counts 3DCCCCCD", tenth, 0.1, below_tenth),
        ("narrow-tick-half-down", "a tick of 1 + 2^-24 counts 1", 1.0 + p(-23), 1.0 + p(-23), 1.0 + p(-24)),
        ("narrow-tick-half-of-least", "a tick of 2^-150 counts 0", p(-149), p(-149), p(-150)),
    ];
    rows.into_iter()
        .map(|(name, shows, wait, reaching, short)| narrowing(name, shows, wait, reaching, short))
        .collect()
}

/// Tick 1 starts the wait, tick 2 is short of it; tick 3 starts another,
/// tick 4 reaches it.
fn narrowing(name: &str, shows: &str, wait: f64, reaching: f64, short: f64) -> Case {
    let mut c = Circuit::new();
    let world = c.world_event(0);
    let later = c.buffer_seconds_exec(1, wait);
    let count = c.cycle(2, 100);
    let queue = c.queue_seconds(3, NOTHING, wait);
    c.call_all(world, &[later, queue]);
    c.call(later, count);
    let mut s = Script::new();
    s.tick(0.0).fire(world).tick(short).tick(0.0).fire(world).tick(reaching);
    Case::new(name, format!("{shows}: which ticks make the wait over."), &c, &s).tells(&[16])
}

/// A tree of Reroutes calls the Queue 256 times, each time after a count up;
/// then once more.
fn queue_257() -> Case {
    let mut c = Circuit::new();
    let world = c.world_event(0);
    let count = c.cycle(1, 1000);
    let queue = c.queue_ticks(2, count, 1);
    c.call(count, queue);
    let top = doublings(&mut c, count, 8);
    c.call_all(world, &[top, count]);
    let mut s = Script::new();
    s.tick(0.25).fire(world).ticks(258, 0.25);
    let shows = "256 records are kept, the 257th is dropped: the Queue hands out 1 to 256, one a tick.";
    Case::new("queue-257", shows, &c, &s).tells(&[18]).log(200_000)
}

/// `n` Reroutes over `leaf`; a call of the last makes 2^n calls of the leaf.
pub(super) fn doublings(c: &mut Circuit, leaf: Gate, n: usize) -> Gate {
    let mut below = leaf;
    for _ in 0..n {
        let above = c.reroute(NOTHING);
        c.call_all(above, &[below, below]);
        below = above;
    }
    below
}

/// Reroutes R1 to R25, each calling the one below twice, so that a call of
/// R(i) costs 2^i - 1 steps; the calls of World add up to 50,000,000.
fn steps(name: &str, more: usize) -> Case {
    let mut c = Circuit::new();
    let world = c.world_event(0);
    let mut r = vec![c.reroute(NOTHING)];
    for i in 1..25 {
        let above = c.reroute(NOTHING);
        c.call_all(above, &[r[i - 1], r[i - 1]]);
        r.push(above);
    }
    for i in [25, 23, 22, 21, 20, 19, 17, 15, 14, 13, 12, 7, 3, 2, 1, 1] {
        c.call(world, r[i - 1]);
    }
    for _ in 0..more {
        c.call(world, r[0]);
    }
    let mut s = Script::new();
    s.tick(0.25).fire(world).tick(0.5);
    let shows = if more == 0 { "50,000,000 steps pass." } else { "The 50,000,001st step stops with 11." };
    Case::new(name, shows, &c, &s).tells(&[29])
}

fn carry_below() -> Case {
    let mut c = Circuit::new();
    let clock = c.clock(4, 0.25);
    let toggle = c.toggle(0);
    for rank in [3, 4, 5] {
        c.change_detector(rank, toggle);
    }
    c.call(clock, toggle);
    let mut s = Script::new();
    s.first_checks(1, 0.0).ticks(3, 0.25);
    let shows = "Wrong: carrying only ranks below the cursor. Ranks 3 and 4 are carried, 5 is not.";
    Case::new("wrong-carry-below", shows, &c, &s).tells(&[20])
}

/// The event's gate has the lowest rank, and yet it comes last.
fn events_last() -> Case {
    let mut c = Circuit::new();
    let world = c.world_event(9);
    let send = c.send_event(1, 0, world);
    c.event_custom(0, 0);
    let later = c.buffer_ticks_exec(5, 1);
    c.call_all(world, &[send, later]);
    let seven = c.constant(7);
    let mut s = Script::new();
    s.tick(0.25).give(world, seven).tick(0.25).give(world, seven).tick(0.25);
    let shows =
        "Wrong: sorting events among ranked late units. The event of rank 0 begins after ranks 5 and 9.";
    Case::new("wrong-events-sorted", shows, &c, &s).tells(&[27])
}

fn clock_excess() -> Case {
    let mut c = Circuit::new();
    c.clock(0, 1.0);
    let mut s = Script::new();
    s.ticks(10, 0.375);
    let shows = "Wrong: keeping a Clock's excess. Ticks of 0.375 fire in 3, 6 and 9; with the excess kept, in 3, 6 and 8.";
    Case::new("wrong-clock-excess", shows, &c, &s).tells(&[21])
}

fn one_record_a_tick() -> Case {
    let mut c = Circuit::new();
    let world = c.world_event(0);
    let queue = c.queue_ticks(1, world, 1);
    c.call(world, queue);
    let (one, two, three) = (c.constant(1), c.constant(2), c.constant(3));
    let mut s = Script::new();
    s.tick(0.25).give(world, one).give(world, two).give(world, three).ticks(4, 0.25);
    let shows = "Wrong: handing out all due records. Three records due at once come out one a tick.";
    Case::new("wrong-all-due-records", shows, &c, &s).tells(&[18])
}

fn pulse_two_ticks() -> Case {
    let mut c = Circuit::new();
    let world = c.world_event(0);
    let change = c.change(world);
    let count = c.cycle(1, 100);
    let seen = c.branch(0, change);
    let clock = c.clock(1, 0.0);
    c.call(clock, seen);
    c.call(seen, count);
    let one = c.constant(1);
    let mut s = Script::new();
    s.tick(0.25).give(world, one).ticks(4, 0.25);
    let shows = "Wrong: dropping a pulse after one tick. A handler of the next tick still sees it.";
    Case::new("wrong-pulse-one-tick", shows, &c, &s).tells(&[12])
}
