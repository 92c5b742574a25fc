//! Buffers, Queues, Clocks and Stopwatches.

use super::Case;
use crate::build::{Circuit, Feed, Gate, NOTHING, Script, Value};

pub fn cases() -> Vec<Case> {
    let mut cases = vec![
        truthy_takes_the_wait(),
        zero_waits(),
        latest_only(),
        queued_by_its_own_rule(),
        lands_though_equal(),
        exec_never_zero(),
        fires_together(),
        tick_waits(),
        second_waits(),
        sums_in_f32(),
        sums_in_f64(),
        sum_that_stalls(),
        queue_waits("queue-waits-in-ticks", false),
        queue_waits("queue-waits-in-seconds", true),
        short_behind_long(),
        queue_counts_on(),
        released_before_settling(),
        own_data(),
        clock_reads_last_delta(),
        clock_sees_this_tick(),
        limits_in_gate_order(),
        limit_reads_last_uptime(),
        clock_before_stopwatch(),
    ];
    cases.extend([clock_inputs(), clock_disabled(), stopwatch_pins(), stopwatch_limits(), all_delays_full()]);
    cases
}

/// A World event whose value feeds what follows.
fn with_world() -> (Circuit, Gate, Script) {
    let mut c = Circuit::new();
    let world = c.world_event(0);
    (c, world, Script::new())
}

fn truthy_takes_the_wait() -> Case {
    let (mut c, world, mut s) = with_world();
    c.buffer_ticks(world, 3, 1);
    let (two, one) = (c.constant(2), c.constant(1));
    s.first_checks(2, 0.25).tick(0.25).give(world, two).ticks(4, 0.25);
    s.tick(0.25).give(world, one).ticks(4, 0.25);
    let shows = "Int 2 to Int 1 falls, but 1 is truthy: the wait counts, not the zero wait.";
    Case::new("truthy-takes-the-wait", shows, &c, &s).tells(&[14])
}

fn zero_waits() -> Case {
    let (mut c, world, mut s) = with_world();
    for zero in [Feed::from(-0.0), Feed::from(0.0), Feed::from(0.5), Feed::from(-0.5), NOTHING] {
        c.buffer_seconds(world, 1.0, zero);
    }
    for zero in [Feed::from(0), Feed::from(2), Feed::from(-2), NOTHING] {
        c.buffer_ticks(world, 4, zero);
    }
    let (one, no) = (c.constant(1), c.constant(false));
    s.first_checks(5, 0.25).tick(0.25).give(world, one).ticks(5, 0.25);
    s.tick(0.25).give(world, no).ticks(5, 0.25);
    let shows = "A zero wait of 0 and of -0.0 is one; a negative one and nothing are none.";
    Case::new("zero-waits", shows, &c, &s).tells(&[14])
}

fn latest_only() -> Case {
    let (mut c, world, mut s) = with_world();
    c.buffer_ticks(world, 3, NOTHING);
    c.buffer_seconds(world, 0.75, NOTHING);
    s.first_checks(4, 0.25);
    for n in 1..=9 {
        let name = c.constant(n);
        s.tick(0.25).give(world, name);
    }
    s.ticks(6, 0.25);
    let shows = "In flight a buffer remembers only the last later input, which then waits in full.";
    Case::new("latest-only", shows, &c, &s).tells(&[14])
}

fn queued_by_its_own_rule() -> Case {
    let (mut c, world, mut s) = with_world();
    c.buffer_ticks(world, 3, 1);
    let (five, zero) = (c.constant(5), c.constant(0));
    s.first_checks(2, 0.25).tick(0.25).give(world, five).tick(0.25).give(world, zero).ticks(3, 0.25);
    s.tick(0.25).give(world, zero).tick(0.25).give(world, five).ticks(6, 0.25);
    let shows = "The remembered input waits by its own truthiness, first counted the tick after the landing.";
    Case::new("queued-by-its-own-rule", shows, &c, &s).tells(&[14])
}

fn lands_though_equal() -> Case {
    let (mut c, world, mut s) = with_world();
    c.buffer_ticks(world, 3, NOTHING);
    let (one, two, three) = (c.constant(1), c.constant(2), c.constant(3));
    s.first_checks(4, 0.25)
        .tick(0.25)
        .give(world, one)
        .tick(0.25)
        .give(world, two)
        .tick(0.25)
        .give(world, one);
    s.tick(0.25).tick(0.25).give(world, three).ticks(6, 0.25);
    let shows =
        "A remembered input equal to the one just landed flies all the same: 3 lands in tick 14, not 12.";
    Case::new("lands-though-equal", shows, &c, &s).tells(&[14])
}

fn exec_never_zero() -> Case {
    let (mut c, world, mut s) = with_world();
    let ticks = c.buffer_ticks_exec(1, 3);
    c.feed(ticks.pin("zero"), 1);
    let seconds = c.buffer_seconds_exec(2, 0.75);
    c.feed(seconds.pin("zero"), 0.25);
    c.call_all(world, &[ticks, seconds]);
    let no = c.constant(false);
    s.tick(0.25).give(world, no).ticks(4, 0.25);
    let shows = "The zero wait of kinds 11 and 13 is never used.";
    Case::new("exec-never-zero", shows, &c, &s).tells(&[15, 46])
}

fn fires_together() -> Case {
    let (mut c, world, mut s) = with_world();
    let ticks = c.buffer_ticks_exec(1, 2);
    let seconds = c.buffer_seconds_exec(1, 0.5);
    let count = c.cycle(0, 100);
    c.call_all(world, &[ticks, seconds]);
    c.call(ticks, count);
    c.call(seconds, count);
    s.tick(0.25).fire(world).fire(world).fire(world).tick(0.25).fire(world).ticks(4, 0.25);
    s.tick(0.25).fire(world).tick(0.125).fire(world).tick(10.0).tick(0.25);
    let shows = "Several fires due at once are several units.";
    Case::new("fires-together", shows, &c, &s).tells(&[15])
}

fn tick_waits() -> Case {
    let (mut c, world, mut s) = with_world();
    let waits =
        [NOTHING, 0.into(), 1.into(), 2.into(), 3.into(), (-5).into(), i64::MIN.into(), i64::MAX.into()];
    for wait in waits {
        c.buffer_ticks(world, wait, NOTHING);
        let later = c.buffer_ticks_exec(1, wait);
        c.call(world, later);
    }
    let one = c.constant(1);
    s.first_checks(4, 0.0).tick(0.0).give(world, one).ticks(4, 0.0);
    let shows = "Waits of nothing, 0, 1 and less land one tick later, 2 two ticks later.";
    Case::new("tick-waits", shows, &c, &s).tells(&[16])
}

fn second_waits() -> Case {
    let (mut c, world, mut s) = with_world();
    let waits = [
        NOTHING,
        0.0.into(),
        (-0.0).into(),
        (-1.0).into(),
        (-1e300).into(),
        1e300.into(),
        1e-300.into(),
        0.25.into(),
        (1.0 / 3.0).into(),
    ];
    for wait in waits {
        c.buffer_seconds(world, wait, NOTHING);
        let later = c.buffer_seconds_exec(1, wait);
        c.call(world, later);
    }
    let one = c.constant(1);
    s.first_checks(2, 0.5).tick(0.0).give(world, one).tick(0.0).tick(0.25).tick(0.0).tick(0.25).tick(3600.0);
    let shows =
        "Waits of 0.0 and less are over in the next tick, even one of no length; one beyond f32 never.";
    Case::new("second-waits", shows, &c, &s).tells(&[16])
}

fn sums_in_f32() -> Case {
    let (mut c, world, mut s) = with_world();
    let later = c.buffer_seconds_exec(1, 1.0);
    let queue = c.queue_seconds(2, NOTHING, 1.0);
    c.buffer_seconds(world, 1.0, NOTHING);
    c.call_all(world, &[later, queue]);
    let one = c.constant(1);
    s.first_checks(2, 1.0).tick(0.1).give(world, one).ticks(12, 0.1);
    let shows = "Seconds count in f32: ten ticks of 0.1 make 1.0.";
    Case::new("sums-in-f32", shows, &c, &s).tells(&[16])
}

fn sums_in_f64() -> Case {
    let (mut c, world, mut s) = with_world();
    c.clock(1, 1.0);
    let watch = c.stopwatch(2, 1.0);
    c.server_uptime();
    c.call(world, watch);
    s.tick(0.1).fire(world).ticks(12, 0.1);
    let shows = "Clocks, Stopwatches and the uptime count in f64: ten ticks of 0.1 fall short of 1.0.";
    Case::new("sums-in-f64", shows, &c, &s).tells(&[16])
}

fn sum_that_stalls() -> Case {
    let (mut c, world, mut s) = with_world();
    let later = c.buffer_seconds_exec(1, 3600.0005);
    let sooner = c.buffer_seconds_exec(1, 3600.0);
    c.call_all(world, &[later, sooner]);
    s.tick(0.0).fire(world).tick(3600.0).ticks(10, 0.0001).tick(0.0005);
    let shows = "An f32 sum stops growing under ticks below half its last place.";
    Case::new("sum-that-stalls", shows, &c, &s).tells(&[16])
}

/// A Queue whose wait is what the stimulus gives; tick 1 gives the first.
fn queue_waits(name: &str, seconds: bool) -> Case {
    let (mut c, world, mut s) = with_world();
    let count = c.cycle(1, 1000);
    let queue = if seconds { c.queue_seconds(2, count, world) } else { c.queue_ticks(2, count, world) };
    c.chain(&[world, count, queue]);
    s.tick(0.5).fire(world).ticks(2, 0.5);
    let waits = [
        Value::Int(2),
        Value::Float(2.9),
        Value::Bool(true),
        Value::Float(-2.0),
        Value::Float(0.3),
        Value::Int(-7),
        Value::Float(1e-40),
        Value::Int(0),
    ];
    for wait in waits {
        let wait = c.constant(wait);
        s.tick(0.5).give(world, wait).ticks(5, 0.5);
    }
    let shows = "A Queue's wait from nothing, an Int, a Float and a Bool.";
    Case::new(name, shows, &c, &s).tells(&[16])
}

fn short_behind_long() -> Case {
    let (mut c, world, mut s) = with_world();
    let queue = c.queue_ticks(1, world, world);
    c.call(world, queue);
    let (five, one, two) = (c.constant(5), c.constant(1), c.constant(2));
    s.tick(0.25).give(world, five).give(world, one).give(world, two).ticks(9, 0.25);
    let shows = "A short wait behind a long one comes out the tick after the front.";
    Case::new("short-behind-long", shows, &c, &s).tells(&[18])
}

fn queue_counts_on() -> Case {
    let (mut c, world, mut s) = with_world();
    let queue = c.queue_seconds(1, world, world);
    c.call(world, queue);
    let (two, one) = (c.constant(2.0), c.constant(1.0));
    s.tick(0.5).give(world, two).tick(0.5).give(world, one).tick(0.5).give(world, one).ticks(6, 0.5);
    let shows = "All records of a Queue count down, not only the front one.";
    Case::new("queue-counts-on", shows, &c, &s).tells(&[18])
}

fn released_before_settling() -> Case {
    let (mut c, world, mut s) = with_world();
    let queue = c.queue_ticks(5, world, 1);
    let changed = c.change_detector(0, queue);
    let after = c.toggle(0);
    c.call(world, queue);
    c.call(changed, after);
    let (one, two) = (c.constant(1), c.constant(2));
    s.first_checks(1, 0.25).tick(0.25).give(world, one).tick(0.25).give(world, two).ticks(2, 0.25);
    let shows =
        "DataOut is set as the tick opens: its watcher runs in the main pass, the Queue's own unit late.";
    Case::new("released-before-settling", shows, &c, &s).tells(&[18, 23])
}

fn own_data() -> Case {
    let (mut c, world, mut s) = with_world();
    let a = c.send_event(1, 7, 11);
    let b = c.send_event(1, 7, 22);
    let event = c.event_custom(1, 7);
    let queue = c.queue_ticks(2, world, 1);
    c.feed(queue.pin("DataIn2"), event);
    c.call_all(world, &[queue, a, b]);
    c.call(event, queue);
    let (one, two) = (c.constant(1), c.constant(2));
    s.tick(0.25).give(world, one).give(world, two).ticks(5, 0.25);
    let shows =
        "Two stimuli and two events of one gate in a tick each show their own data to their own chain.";
    Case::new("own-data", shows, &c, &s).tells(&[18])
}

fn clock_reads_last_delta() -> Case {
    let mut c = Circuit::new();
    let delta = c.delta_time();
    let uptime = c.server_uptime();
    let clock = c.clock(0, NOTHING);
    c.feed(clock.pin("IntervalSeconds"), delta);
    let slow = c.clock(1, NOTHING);
    c.feed(slow.pin("IntervalSeconds"), uptime);
    let mut s = Script::new();
    s.tick(0.5).tick(0.25).tick(0.25).tick(1.0).tick(0.1);
    let shows = "A Clock sees the last tick's DeltaTime: the interval from it fires in ticks 1, 3 and 4.";
    Case::new("clock-reads-last-delta", shows, &c, &s).tells(&[19])
}

fn clock_sees_this_tick() -> Case {
    let (mut c, world, mut s) = with_world();
    let buffer = c.buffer_ticks(world, 2, NOTHING);
    let queue = c.queue_ticks(3, world, 2);
    c.call(world, queue);
    let a = c.clock(1, NOTHING);
    c.feed(a.pin("IntervalSeconds"), buffer);
    let b = c.clock(2, NOTHING);
    c.feed(b.pin("bEnabled"), queue);
    c.feed(b.pin("IntervalSeconds"), 0.0);
    let no = c.constant(false);
    s.first_checks(3, 0.0).tick(0.25).give(world, no).ticks(4, 0.25);
    let shows = "Clocks see what landed and what was released in this tick.";
    Case::new("clock-sees-this-tick", shows, &c, &s).tells(&[19])
}

fn limits_in_gate_order() -> Case {
    let (mut c, world, mut s) = with_world();
    let first = c.stopwatch(1, NOTHING);
    let second = c.stopwatch(1, first);
    c.feed(first.pin("Limit"), second);
    let third = c.stopwatch(1, 1.0);
    c.call_all(world, &[second, third]);
    c.call(third.out("Expired"), first);
    s.tick(0.5).fire(world).ticks(7, 0.5);
    let shows = "A Limit from an earlier Stopwatch is this tick's Time, from a later one the last tick's.";
    Case::new("limits-in-gate-order", shows, &c, &s).tells(&[19])
}

fn limit_reads_last_uptime() -> Case {
    let (mut c, world, mut s) = with_world();
    let uptime = c.server_uptime();
    let delta = c.delta_time();
    let a = c.stopwatch(1, uptime);
    let b = c.stopwatch(1, delta);
    c.call_all(world, &[a, b]);
    s.tick(0.5).fire(world).tick(0.5).tick(0.5).tick(1.0).fire(world).tick(0.5).tick(0.75);
    let shows = "A Limit from a time source is the last tick's: from 0.5, both expire in tick 2.";
    Case::new("limit-reads-last-uptime", shows, &c, &s).tells(&[19])
}

fn clock_before_stopwatch() -> Case {
    let (mut c, world, mut s) = with_world();
    let watch = c.stopwatch(1, NOTHING);
    let clock = c.clock(1, NOTHING);
    c.feed(clock.pin("IntervalSeconds"), watch);
    c.call(world, watch);
    s.tick(0.5).fire(world).ticks(7, 0.5);
    let shows = "A Clock's interval from a Stopwatch is the last tick's Time: it fires in ticks 2 and 3.";
    Case::new("clock-before-stopwatch", shows, &c, &s).tells(&[19])
}

fn clock_inputs() -> Case {
    let mut c = Circuit::new();
    let inputs = [
        NOTHING,
        true.into(),
        false.into(),
        1.into(),
        0.into(),
        (-3).into(),
        0.5.into(),
        0.0.into(),
        (-0.5).into(),
        1e300.into(),
    ];
    for input in inputs {
        let clock = c.clock(1, 0.75);
        c.feed(clock.pin("IntervalSeconds"), input);
    }
    c.clock(0, 0.0);
    c.clock(0, NOTHING);
    let mut s = Script::new();
    s.ticks(9, 0.25);
    let shows = "An interval from the input wins unless it is nothing, Bool true is 1.0, none at all 1.0, 0.0 and less fires every tick.";
    Case::new("clock-inputs", shows, &c, &s).tells(&[21, 37])
}

fn clock_disabled() -> Case {
    let (mut c, world, mut s) = with_world();
    let clock = c.clock(0, 1.0);
    c.feed(clock.pin("bEnabled"), world);
    let (no, yes) = (c.constant(0), c.constant(-1.5));
    s.ticks(3, 0.25).give(world, no).ticks(3, 0.25).tick(0.25).give(world, yes).ticks(9, 0.25);
    let shows = "A disabled Clock keeps what it has counted.";
    Case::new("clock-disabled", shows, &c, &s).tells(&[21])
}

fn stopwatch_pins() -> Case {
    let mut c = Circuit::new();
    let watch = c.stopwatch(0, NOTHING);
    let [restart, pause, resume] = ["Restart", "Pause", "Resume"].map(|pin| {
        let world = c.world_event(0);
        c.call(world, watch.pin(pin));
        world
    });
    let mut s = Script::new();
    s.tick(0.25).fire(pause).tick(0.25).fire(resume).ticks(2, 0.25).tick(0.25).fire(restart);
    s.ticks(2, 0.25).tick(0.25).fire(pause).ticks(2, 0.25).fire(resume).ticks(2, 0.25);
    let shows = "Time is nothing until the Stopwatch first runs or is restarted; Restart shows 0.0 at once.";
    Case::new("stopwatch-pins", shows, &c, &s).tells(&[22])
}

fn stopwatch_limits() -> Case {
    let mut c = Circuit::new();
    let start = c.world_event(0);
    let again = c.world_event(0);
    let limit = c.world_event(0);
    for with in [Feed::from(limit), 0.into(), (-1.0).into(), NOTHING, true.into()] {
        let watch = c.stopwatch(1, with);
        c.call(start, watch);
        c.call(again, watch.pin("Resume"));
    }
    let (two, half) = (c.constant(2), c.constant(0.5));
    let mut s = Script::new();
    s.tick(0.25).fire(start).give(limit, two).ticks(5, 0.25).tick(0.25).give(limit, half).ticks(2, 0.25);
    s.tick(0.25).fire(again).ticks(3, 0.25);
    let shows = "Limits of 0, less or nothing never expire; a lowered one moves Time down to it; Resume expires again.";
    Case::new("stopwatch-limits", shows, &c, &s).tells(&[22])
}

/// 62 exec buffers with 32 fires each and a Queue with 256 records of eight.
fn all_delays_full() -> Case {
    let (mut c, world, mut s) = with_world();
    let queue = c.queue_ticks(0, NOTHING, 40);
    for k in 1..=8 {
        c.feed(queue.pin(&format!("DataIn{k}")), world);
        c.call(world, queue);
    }
    for k in 0..62 {
        let later = c.buffer_ticks_exec(1, 2 + k % 31);
        c.call(world, later);
    }
    s.tick(0.25);
    for k in 0..32 {
        let name = c.constant(100 + k);
        s.give(world, name);
    }
    s.ticks(50, 0.25);
    let shows = "A Queue and 62 exec buffers, all full: one area of delays holds them.";
    Case::new("all-delays-full", shows, &c, &s).tells(&[41]).log(1 << 17)
}
