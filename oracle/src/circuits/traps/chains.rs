//! Calls, variables, sends, Unions, Cycles and what an operation reads.

use super::Case;
use crate::build::{Circuit, Feed, Gate, NOTHING, Script, Value};

pub fn cases() -> Vec<Case> {
    let mut cases = vec![
        source_and_call(),
        var_seen_directly(),
        var_seen_by_a_stale_gate(),
        forks_before_publish(),
        published_once(),
        published_after_outputs(),
        published_though_equal(),
        settled_once(),
        nothing_again(),
        what_is_true(),
        second_send(),
        sends_in_order(),
        sent_again_next_tick(),
        reroute_both_ways(),
        ring_through_a_union(),
        union_once_a_tick(),
        what_costs_a_step(),
        fan_out(),
        forks_of_forks(),
        cycle_counts(),
        cycle_ends(),
        cycle_shrinks(),
        cycle_largest(),
        start_shows_nothing(),
        stored_zero(),
    ];
    cases.extend(reads());
    cases.extend([full_queue_reads(), second_send_reads()]);
    cases
}

fn source_and_call() -> Case {
    let mut c = Circuit::new();
    let world = c.world_event(0);
    let toggle = c.toggle(1);
    c.feed(toggle.pin("Exec"), world);
    c.call(world, toggle);
    let (one, two) = (c.constant(1), c.constant(2));
    let mut s = Script::new();
    s.tick(0.25).give(world, one).tick(0.25).fire(world).tick(0.25).give(world, two);
    let shows =
        "A pin with a source may also be called: the call is a step now, the change a unit of its own.";
    Case::new("source-and-call", shows, &c, &s).tells(&[8])
}

fn var_seen_directly() -> Case {
    let mut c = Circuit::new();
    let world = c.world_event(0);
    let var = c.var(0);
    let direct = c.var(NOTHING);
    let through = c.var(NOTHING);
    let reroute = c.reroute(var);
    let set = c.var_set(0, var, world);
    let set_direct = c.var_set(0, direct, var);
    let set_through = c.var_set(0, through, reroute);
    c.chain(&[world, set, set_direct, set_through]);
    let (five, six) = (c.constant(5), c.constant(6));
    let mut s = Script::new();
    s.tick(0.25).give(world, five).tick(0.25).give(world, six);
    let shows = "A VarSet is seen at once by direct readers, through a pure gate after the chain.";
    Case::new("var-seen-directly", shows, &c, &s).tells(&[25])
}

fn var_seen_by_a_stale_gate() -> Case {
    let mut c = Circuit::new();
    let world = c.world_event(0);
    let var = c.var(1);
    let result = c.var(NOTHING);
    let stale = c.select(world, var, var);
    let set = c.var_set(0, var, 9);
    let set_result = c.var_set(0, result, stale);
    c.chain(&[world, set, set_result]);
    let five = c.constant(5);
    let mut s = Script::new();
    s.tick(0.25).give(world, five);
    let shows = "Through a gate that is stale for another cause a VarSet is seen in its own chain.";
    Case::new("var-seen-by-a-stale-gate", shows, &c, &s).tells(&[2, 25])
}

fn forks_before_publish() -> Case {
    let mut c = Circuit::new();
    let world = c.world_event(0);
    let var = c.var(1);
    let a = c.var(NOTHING);
    let b = c.var(NOTHING);
    let reroute = c.reroute(var);
    let set = c.var_set(0, var, 9);
    let set_a = c.var_set(0, a, reroute);
    let set_b = c.var_set(0, b, var);
    c.remote(world, set_a);
    c.remote(world, set_b);
    c.call(world, set);
    let mut s = Script::new();
    s.tick(0.25).fire(world).tick(0.25).fire(world);
    let shows =
        "A fork runs before the chain's writes are published: it sees 9 directly and 1 through a Reroute.";
    Case::new("forks-before-publish", shows, &c, &s).tells(&[25])
}

fn published_once() -> Case {
    let mut c = Circuit::new();
    let world = c.world_event(0);
    let second = c.var(0);
    let first = c.var(0);
    c.change_detector(1, second);
    c.change_detector(1, first);
    let set_first = c.var_set(0, first, 1);
    let set_second = c.var_set(0, second, 1);
    let set_again = c.var_set(0, first, 2);
    c.chain(&[world, set_first, set_second, set_again]);
    let mut s = Script::new();
    s.first_checks(1, 0.25).tick(0.25).fire(world).tick(0.25);
    let shows = "A variable written twice is published once, at its first place: gates begin 0, 4, 3.";
    Case::new("published-once", shows, &c, &s).tells(&[25])
}

fn published_after_outputs() -> Case {
    let mut c = Circuit::new();
    let world = c.world_event(0);
    let var = c.var(0);
    let toggle = c.toggle(0);
    c.change_detector(1, var);
    c.change_detector(1, toggle);
    let set = c.var_set(0, var, 1);
    c.chain(&[world, set, toggle]);
    let mut s = Script::new();
    s.first_checks(1, 0.25).tick(0.25).fire(world).tick(0.25);
    let shows = "A variable's watchers are queued when its write is published, after those of the chain's outputs: 0, 4, 3.";
    Case::new("published-after-outputs", shows, &c, &s).tells(&[25])
}

fn published_though_equal() -> Case {
    let mut c = Circuit::new();
    let world = c.world_event(0);
    let var = c.var(1);
    let set = c.var_set(0, var, world);
    let back = c.var_set(0, var, 1);
    c.change_detector(1, var);
    c.chain(&[world, set, back]);
    let five = c.constant(5);
    let mut s = Script::new();
    s.first_checks(1, 0.25).tick(0.25).give(world, five).tick(0.25).fire(world);
    let shows = "A variable set and set back in one chain has not changed for its watcher.";
    Case::new("published-though-equal", shows, &c, &s).tells(&[6, 25])
}

fn settled_once() -> Case {
    let mut c = Circuit::new();
    let world = c.world_event(0);
    let toggle = c.toggle(0);
    let first = c.world_event(0);
    c.change_detector(1, toggle);
    c.call(first, toggle);
    c.call(world, toggle);
    c.remote(world, toggle);
    let other = c.reroute(NOTHING);
    c.remote(world, other);
    c.remote(other, toggle);
    c.call(other, toggle);
    let mut s = Script::new();
    s.first_checks(1, 0.25).tick(0.25).fire(first).tick(0.25).fire(world).tick(0.25).fire(first);
    let shows = "A unit settles once, after all its forks: four flips in one unit are no change.";
    Case::new("settled-once", shows, &c, &s).tells(&[6, 30])
}

/// A Select that gives 5, then nothing, to all that hold values.
fn nothing_again() -> Case {
    let mut c = Circuit::new();
    let world = c.world_event(0);
    let given = c.select(world, NOTHING, 5);
    let send = c.send_event(0, 0, given);
    c.event_custom(0, 0);
    let queue = c.queue_ticks(0, given, 1);
    let var = c.var(1);
    let set = c.var_set(0, var, given);
    let get = c.var_get(0, var);
    c.buffer_ticks(given, 3, 1);
    c.change_detector(1, given);
    c.edge_exec(1, given);
    c.call_all(world, &[send, set, get, queue]);
    let (zero, one) = (c.constant(0), c.constant(1));
    let mut s = Script::new();
    s.first_checks(2, 0.25).tick(0.25).give(world, one).ticks(3, 0.25);
    s.tick(0.25).give(world, zero).ticks(3, 0.25);
    let shows =
        "Nothing overwrites what an event, a Queue, a variable, a VarGet and a buffer show; it falls from 5.";
    Case::new("nothing-again", shows, &c, &s).tells(&[18])
}

/// A Branch, a Select, a Clock and a pin, each by the value of the stimulus.
fn what_is_true() -> Case {
    let mut c = Circuit::new();
    let world = c.world_event(0);
    let branch = c.branch(0, world);
    let yes = c.cycle(0, 100);
    let no = c.cycle(0, 100);
    c.select(world, 1, 2);
    let clock = c.clock(1, 0.0);
    c.feed(clock.pin("bEnabled"), world);
    let pin = c.toggle(1);
    c.feed(pin.pin("Exec"), world);
    c.call(world, branch);
    c.call(branch, yes);
    c.call(branch.out("ExecOutB"), no);
    let values: [Value; 14] = [
        0.into(),
        1.into(),
        (-1).into(),
        i64::MIN.into(),
        false.into(),
        true.into(),
        0.0.into(),
        5e-324.into(),
        (-0.0).into(),
        (-5e-324).into(),
        0.5.into(),
        (-1e300).into(),
        (1 << 32).into(),
        f64::MAX.into(),
    ];
    let mut s = Script::new();
    s.tick(0.25).fire(world);
    for v in values {
        let name = c.constant(v);
        s.tick(0.25).give(world, name);
    }
    let shows = "What is true: all but nothing, 0, 0.0, -0.0 and false.";
    Case::new("what-is-true", shows, &c, &s).tells(&[9])
}

fn second_send() -> Case {
    let mut c = Circuit::new();
    let world = c.world_event(0);
    let send = c.send_event(0, 0, world);
    let after = c.cycle(0, 100);
    c.event_custom(0, 0);
    c.chain(&[world, send, after]);
    let (one, two, three) = (c.constant(1), c.constant(2), c.constant(3));
    let mut s = Script::new();
    s.tick(0.25).give(world, one).give(world, two).tick(0.25).give(world, three).tick(0.25);
    let shows = "A second send by one gate in a tick is ignored, the chain goes on; the next tick's is sent.";
    Case::new("second-send", shows, &c, &s).tells(&[26])
}

fn sends_in_order() -> Case {
    let mut c = Circuit::new();
    let world = c.world_event(0);
    let late = c.clock(0, 0.25);
    let b = c.send_event(0, 5, 2);
    let a = c.send_event(0, 5, 1);
    let global = c.send_global(0, 5, 3);
    let other = c.send_event(0, 6, 4);
    for _ in 0..2 {
        c.event_custom(0, 5);
        c.event_global(0, 5);
    }
    c.event_custom(0, 6);
    c.event_custom(0, 7);
    c.call_all(world, &[a, global, b]);
    c.call_all(late, &[a, other]);
    let mut s = Script::new();
    s.tick(0.125).fire(world).tick(0.125).fire(world).ticks(2, 0.125);
    let shows = "Events go out in the order sent, each to its receivers ascending; local and global, and channels, keep apart.";
    Case::new("sends-in-order", shows, &c, &s).tells(&[26])
}

fn sent_again_next_tick() -> Case {
    let mut c = Circuit::new();
    let world = c.world_event(0);
    let count = c.cycle(0, 100);
    let send = c.send_event(0, 255, count);
    let event = c.event_custom(0, 255);
    c.chain(&[world, count, send]);
    c.call(event, count);
    let mut s = Script::new();
    s.tick(0.25).fire(world).ticks(4, 0.25);
    let shows = "An event whose chain sends it again comes back each tick.";
    Case::new("sent-again-next-tick", shows, &c, &s).tells(&[26])
}

fn reroute_both_ways() -> Case {
    let mut c = Circuit::new();
    let world = c.world_event(0);
    let reroute = c.reroute(world);
    let toggle = c.toggle(0);
    let keep = c.var(NOTHING);
    let set = c.var_set(0, keep, reroute);
    c.call(world, reroute);
    c.call_all(reroute, &[toggle, set]);
    let five = c.constant(5);
    let mut s = Script::new();
    s.tick(0.25).give(world, five).tick(0.25).fire(world);
    let shows = "One Reroute carries a value and passes a call on; the call is a step.";
    Case::new("reroute-both-ways", shows, &c, &s).tells(&[28])
}

fn ring_through_a_union() -> Case {
    let mut c = Circuit::new();
    let world = c.world_event(0);
    let union = c.union(0);
    let reroute = c.reroute(NOTHING);
    let toggle = c.toggle(0);
    c.chain(&[world, union, reroute, toggle, union]);
    let mut s = Script::new();
    s.tick(0.25).fire(world).tick(0.25).fire(world);
    let shows = "A ring of calls is legal; a Union in it ends it.";
    Case::new("ring-through-a-union", shows, &c, &s).tells(&[28])
}

fn union_once_a_tick() -> Case {
    let mut c = Circuit::new();
    let world = c.world_event(0);
    let clock = c.clock(0, 0.5);
    let union = c.union(0);
    let count = c.cycle(0, 100);
    c.call(world, union);
    c.remote(world, union);
    c.call(clock, union);
    c.call(union, count);
    let mut s = Script::new();
    s.tick(0.25).tick(0.25).fire(world).fire(world).tick(0.25).fire(world).tick(0.25);
    let shows = "A Union passes once a tick, over both passes and forks.";
    Case::new("union-once-a-tick", shows, &c, &s).tells(&[29])
}

fn what_costs_a_step() -> Case {
    let mut c = Circuit::new();
    let world = c.world_event(0);
    let union = c.union(0);
    let send = c.send_event(0, 0, 1);
    let later = c.buffer_ticks_exec(0, 1);
    let queue = c.queue_ticks(0, 1, 1);
    let watch = c.stopwatch(0, 1.0);
    let pin = c.toggle(0);
    c.feed(pin.pin("Exec"), world);
    c.event_custom(0, 0);
    c.change_detector(0, world);
    c.edge_exec(0, world);
    c.call_all(world, &[union, union, send, send, later, queue, watch]);
    let one = c.constant(1);
    let mut s = Script::new();
    s.first_checks(1, 0.25).tick(0.25).give(world, one).tick(0.25).tick(0.25).fire(world);
    let shows = "A call is a step, a blocked Union and an ignored send too; a unit begun by its pin is one, any other none.";
    Case::new("what-costs-a-step", shows, &c, &s).tells(&[29])
}

/// A gate that writes the next number into a variable of its own.
fn mark(c: &mut Circuit, count: Gate) -> Gate {
    let mark = c.reroute(NOTHING);
    let place = c.var(NOTHING);
    let set = c.var_set(0, place, count);
    c.call_all(mark, &[count, set]);
    mark
}

fn fan_out() -> Case {
    let mut c = Circuit::new();
    let world = c.world_event(0);
    let count = c.cycle(0, 1000);
    let m: Vec<Gate> = (0..6).map(|_| mark(&mut c, count)).collect();
    c.remote(world, m[5]);
    c.call(world, m[0]);
    c.call(m[0], m[1]);
    c.remote(m[0], m[4]);
    c.call(m[0], m[2]);
    c.call(world, m[3]);
    let mut s = Script::new();
    s.tick(0.25).fire(world);
    let shows = "Local calls run in listed order, each to its end; remote ones when the chain has ended, as found: places 1 2 3 4 6 5.";
    Case::new("fan-out", shows, &c, &s).tells(&[30])
}

fn forks_of_forks() -> Case {
    let mut c = Circuit::new();
    let world = c.world_event(0);
    let count = c.cycle(0, 1000);
    let m: Vec<Gate> = (0..6).map(|_| mark(&mut c, count)).collect();
    c.remote(world, m[0]);
    c.remote(world, m[1]);
    c.remote(m[0], m[4]);
    c.call(m[0], m[2]);
    c.remote(m[2], m[5]);
    c.call(m[1], m[3]);
    let mut s = Script::new();
    s.tick(0.25).fire(world);
    let shows = "Forks run first in, first out; what they fork goes to the back: places 1 3 2 4 5 6.";
    Case::new("forks-of-forks", shows, &c, &s).tells(&[30])
}

fn cycle_counts() -> Case {
    let mut c = Circuit::new();
    let up = c.world_event(0);
    let down = c.world_event(0);
    let counts = [
        NOTHING,
        0.into(),
        (-3).into(),
        1.into(),
        3.into(),
        0.5.into(),
        2.9.into(),
        true.into(),
        false.into(),
        (-0.0).into(),
    ];
    for count in counts {
        let cycle = c.cycle(0, count);
        c.call(up, cycle);
        c.call(down, cycle.pin("ExecDown"));
    }
    let mut s = Script::new();
    s.tick(0.25).fire(up).tick(0.25).fire(up).tick(0.25).fire(up);
    s.tick(0.25).fire(down).fire(down).fire(down).tick(0.25).fire(down);
    let shows = "Count 0 or less gives 0; a Float loses its fraction; the remainder is never negative.";
    Case::new("cycle-counts", shows, &c, &s).tells(&[31])
}

fn cycle_ends() -> Case {
    let mut c = Circuit::new();
    let up = c.world_event(0);
    let down = c.world_event(0);
    let count = c.world_event(0);
    for with in [Feed::from(i64::MAX), 1e300.into(), (-1e300).into(), count.into()] {
        let cycle = c.cycle(0, with);
        c.call(up, cycle);
        c.call(down, cycle.pin("ExecDown"));
    }
    let values: Vec<i64> =
        [Value::Int(10), Value::Float(9.3e18), Value::Float(9223372036854774784.0), Value::Int(3)]
            .into_iter()
            .map(|v| c.constant(v))
            .collect();
    let mut s = Script::new();
    s.tick(0.25).give(count, values[0]).fire(down).tick(0.25).fire(down).tick(0.25).fire(up).fire(up);
    s.tick(0.25).give(count, values[1]).fire(down).tick(0.25).give(count, values[2]).fire(down).fire(up);
    s.tick(0.25).give(count, values[3]).fire(up).tick(0.25).fire(up);
    let shows = "Cycle at the largest Counts, and after Count has shrunk.";
    Case::new("cycle-ends", shows, &c, &s).tells(&[31])
}

/// A Cycle shows `most` - 1; then Count is another, and it goes up or down.
fn shrinking(name: &str, shows: &str, most: i64, counts: &[i64]) -> Case {
    let mut c = Circuit::new();
    let up = c.world_event(0);
    let down = c.world_event(0);
    let count = c.world_event(0);
    let cycle = c.cycle(0, count);
    c.call(up, cycle);
    c.call(down, cycle.pin("ExecDown"));
    let one = c.constant(1);
    let most = c.constant(most);
    let mut s = Script::new();
    s.tick(0.25).give(count, most).fire(down);
    for &n in counts {
        let n = c.constant(n);
        for pin in [up, down] {
            s.tick(0.25).give(count, n).fire(pin);
            s.tick(0.25).give(count, one).fire(up).tick(0.25).give(count, most).fire(down);
        }
    }
    Case::new(name, shows, &c, &s).tells(&[31])
}

fn cycle_shrinks() -> Case {
    let shows = "Cycle shows 999,999 when Count becomes 999,999, 500,000, 400,000, 7, 1, 0 or -5: up and down.";
    shrinking("cycle-shrinks", shows, 1_000_000, &[999_999, 500_000, 400_000, 7, 1, 0, -5])
}

fn cycle_largest() -> Case {
    let shows = "The largest Count: down from nothing shows 2^63 - 2; up from there, down, and with a Count that has \
                 shrunk to 2^63 - 2, 2^62, 2^32, 3 or 1.";
    let counts = [i64::MAX, i64::MAX - 1, 1 << 62, 1 << 32, 3, 1];
    shrinking("cycle-largest", shows, i64::MAX, &counts)
}

fn start_shows_nothing() -> Case {
    let mut c = Circuit::new();
    c.toggle(0);
    c.cycle(0, 3);
    c.stopwatch(0, 1.0);
    let var = c.var(4);
    c.var_get(0, var);
    c.select(var, 1.5, var);
    c.reroute(NOTHING);
    c.buffer_ticks(5, 1, NOTHING);
    c.buffer_seconds(5.0, 0.0, NOTHING);
    c.change_detector(0, 5);
    c.edge_exec(0, true);
    c.change(5);
    c.edge(5);
    let mut s = Script::new();
    s.ticks(2, 0.25);
    let shows = "At the start no saved value is shown; a constant on a watched input is noticed in tick 1.";
    Case::new("start-shows-nothing", shows, &c, &s).tells(&[37])
}

fn stored_zero() -> Case {
    let mut c = Circuit::new();
    let world = c.world_event(0);
    c.select(0.0, 0.0, 1);
    c.reroute(0.0);
    let clock = c.clock(0, NOTHING);
    c.feed(clock.pin("IntervalSeconds"), 0.0);
    let keep = c.var(1);
    let set = c.var_set(0, keep, 0.0);
    let queue = c.queue_ticks(0, 0.0, 0.0);
    c.call_all(world, &[set, queue]);
    let mut s = Script::new();
    s.tick(0.25).fire(world).ticks(2, 0.25);
    let shows = "A stored Float 0.0 is a Float 0.0, not nothing.";
    Case::new("stored-zero", shows, &c, &s).tells(&[37])
}

/// A gate is called between the change that makes a Select stale and a
/// VarSet behind it: where the gate reads the Select, the VarSet is missed.
fn reads() -> Vec<Case> {
    let readers: [(&str, &str, fn(&mut Circuit, Gate) -> Gate); 10] = [
        ("reads-var-set", "VarSet reads its Value", |c, s| {
            let other = c.var(0);
            c.var_set(0, other, s)
        }),
        ("reads-branch", "Branch reads bCond", |c, s| c.branch(0, s)),
        ("reads-cycle", "Cycle reads its Count", |c, s| c.cycle(0, s)),
        ("reads-send", "SendEvent reads its data", |c, s| c.send_event(0, 0, s)),
        ("reads-send-global", "the global SendEvent reads its data", |c, s| {
            let send = c.send_global(0, 0, NOTHING);
            c.feed(send.pin("DataIn8"), s);
            send
        }),
        ("reads-queue-data", "Queue reads its data", |c, s| {
            let queue = c.queue_ticks(0, NOTHING, 1);
            c.feed(queue.pin("DataIn8"), s);
            queue
        }),
        ("reads-queue-wait", "Queue reads its wait", |c, s| c.queue_seconds(0, NOTHING, s)),
        ("reads-not-stopwatch", "Stopwatch entered by a pin does not read its Limit", |c, s| {
            c.stopwatch(0, s)
        }),
        ("reads-not-toggle", "Toggle reads nothing", |c, _| c.toggle(0)),
        ("reads-not-reroute", "Reroute, called, does not read its input", |c, s| c.reroute(s)),
    ];
    readers.into_iter().map(|(name, shows, reader)| read_before_write(name, shows, reader)).collect()
}

fn read_before_write(name: &str, shows: &str, reader: fn(&mut Circuit, Gate) -> Gate) -> Case {
    let (mut c, world, stale, set, set_result) = stale_select();
    let between = reader(&mut c, stale);
    c.call_all(world, &[between, set, set_result]);
    let five = c.constant(5);
    let mut s = Script::new();
    s.tick(0.25).give(world, five).ticks(2, 0.25);
    let shows = format!("{shows}: what a VarSet behind it shows through a stale Select.");
    Case::new(name, shows, &c, &s).tells(&[42])
}

/// A World event, a Select that it makes stale, a VarSet of 9 over 1 behind
/// that Select and a VarSet that takes what the Select then gives (to the
/// variable that is gate 2).
fn stale_select() -> (Circuit, Gate, Gate, Gate, Gate) {
    let mut c = Circuit::new();
    let world = c.world_event(1);
    let var = c.var(1);
    let result = c.var(NOTHING);
    let stale = c.select(world, var, var);
    let set = c.var_set(0, var, 9);
    let set_result = c.var_set(0, result, stale);
    (c, world, stale, set, set_result)
}

fn full_queue_reads() -> Case {
    let (mut c, world, stale, set, set_result) = stale_select();
    let queue = c.queue_ticks(0, stale, 100);
    let mut fill = c.reroute(NOTHING);
    c.call(fill, queue);
    for _ in 0..8 {
        let above = c.reroute(NOTHING);
        c.call_all(above, &[fill, fill]);
        fill = above;
    }
    let first = c.world_event(0);
    c.call(first, fill);
    c.call_all(world, &[queue, set, set_result]);
    let five = c.constant(5);
    let mut s = Script::new();
    s.tick(0.25).fire(first).tick(0.25).give(world, five).tick(0.25);
    let shows = "A full Queue reads its inputs before it drops the record: 1, not 9.";
    Case::new("full-queue-reads", shows, &c, &s).tells(&[42])
}

fn second_send_reads() -> Case {
    let (mut c, world, stale, set, set_result) = stale_select();
    let send = c.send_event(0, 0, stale);
    let first = c.world_event(0);
    c.call(first, send);
    c.call_all(world, &[send, set, set_result]);
    let five = c.constant(5);
    let mut s = Script::new();
    s.tick(0.25).fire(first).give(world, five).tick(0.25);
    let shows = "A second send reads its data before it is ignored: 1, not 9.";
    Case::new("second-send-reads", shows, &c, &s).tells(&[42])
}
