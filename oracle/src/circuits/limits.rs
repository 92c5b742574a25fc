//! Every limit at its edge and one past it.

use super::Case;
use crate::build::{Circuit, EVENT_CUSTOM, Gate, NOTHING, SEND_EVENT, Script, WORLD_EVENT};

pub fn cases() -> Vec<Case> {
    let mut cases = Vec::new();
    for past in [0, 1] {
        cases.extend([
            pending(past),
            pending_at_the_opening(past),
            late(past),
            late_by_fires(past),
            carried(past),
            forks(past),
            forks_of_a_fork(past),
            chain_stack(past),
            chain_stack_at_once(past),
            delivered(past),
            delivered_by_receivers(past),
            fires(past),
            fires_over_ticks(past),
            units_late(past),
            units_main(past),
            queue_released_and_filled(past),
        ]);
    }
    cases.extend(logs());
    cases.extend([
        events_64(),
        inputs_640(),
        constants_64(),
        calls_256(),
        ranks(),
        ticks_100000(),
        stimuli_65535(),
    ]);
    cases.extend([queues_8(), late_beside_delivered(), forks_beside_the_stack()]);
    cases
}

/// The case for a limit's edge, or with `past` for one more.
fn edge(name: &str, limit: usize, past: usize, what: &str, c: &Circuit, s: &Script) -> Case {
    let shows = match past {
        0 => format!("{limit} {what}: passes."),
        _ => format!("{} {what}: stops with 12.", limit + past),
    };
    Case::new(format!("{name}-{}", limit + past), shows, c, s)
}

/// `of` gates that flip a Toggle watched by `by` ChangeDetectors, by turns of
/// these ranks; with `past`, the last one flips another watched by `past`.
fn flips(c: &mut Circuit, of: Vec<Gate>, by: usize, ranks: [i64; 2], past: usize) {
    let toggle = c.toggle(0);
    for k in 0..by {
        c.change_detector(ranks[k % 2], toggle);
    }
    let other = c.toggle(0);
    for _ in 0..past {
        c.change_detector(ranks[0], other);
    }
    let last = of[of.len() - 1];
    for &g in &of {
        c.call(g, toggle);
    }
    if past > 0 {
        c.call(last, other);
    }
}

fn clocks(c: &mut Circuit, n: usize, rank: i64) -> Vec<Gate> {
    (0..n).map(|_| c.clock(rank, 0.5)).collect()
}

fn pending(past: usize) -> Case {
    let mut c = Circuit::new();
    let of = clocks(&mut c, 8, 0);
    flips(&mut c, of, 32, [1, 2], past);
    let mut s = Script::new();
    s.ticks(3, 0.25);
    edge("pending", 256, past, "pending units in a main pass", &c, &s).tells(&[32])
}

/// A row of Edges, each watching the pulse before it, changes what the
/// ChangeDetectors see once more with every pulse, all in one settling. (An
/// Edge watches through a Reroute that stands before the Select, so that it
/// is checked after the ChangeDetectors.)
fn pending_at_the_opening(past: usize) -> Case {
    let mut c = Circuit::new();
    let delta = c.delta_time();
    let mut watched = c.reroute(delta);
    let mut shown = c.select(NOTHING, delta, NOTHING);
    for k in 0..7 {
        let pulse = c.edge(watched);
        watched = c.reroute(pulse);
        shown = c.select(pulse, shown, k);
    }
    for k in 0..32 {
        c.change_detector(k % 2, shown);
    }
    for _ in 0..past {
        c.change_detector(0, delta);
    }
    let mut s = Script::new();
    s.first_checks(1, 0.0).tick(0.25);
    edge("pending-at-the-opening", 256, past, "pending units raised by the opening's settling", &c, &s)
        .tells(&[33])
}

fn late(past: usize) -> Case {
    let mut c = Circuit::new();
    let world = c.world_event(0);
    let last = c.world_event(0);
    flips(&mut c, vec![world, last], 32, [1, 2], past);
    let mut s = Script::new();
    s.first_checks(1, 0.25).tick(0.25);
    for _ in 0..7 {
        s.fire(world);
    }
    s.fire(last).tick(0.25);
    edge("late", 256, past, "late units", &c, &s)
}

/// Eight buffers of 32 fires, all due at once.
fn late_by_fires(past: usize) -> Case {
    let mut c = Circuit::new();
    let world = c.world_event(0);
    for k in 0..8 {
        let later = c.buffer_ticks_exec(k % 3, 1);
        c.call(world, later);
    }
    let mut s = Script::new();
    s.tick(0.25);
    for _ in 0..32 {
        s.fire(world);
    }
    s.tick(0.25);
    if past == 0 {
        s.tick(0.25);
    }
    let once = c.world_event(0);
    for _ in 0..past {
        s.fire(once);
    }
    edge("late-by-fires", 256, past, "late units that the opening finds", &c, &s).tells(&[33])
}

/// 256 late units while 64 delivered events wait.
fn late_beside_delivered() -> Case {
    let mut c = Circuit::new();
    let world = c.world_event(0);
    flips(&mut c, vec![world], 32, [1, 2], 0);
    let sender = c.world_event(0);
    for k in 0..8 {
        let send = c.send_event(0, 3, k);
        c.call(sender, send);
        c.event_custom(0, 3);
    }
    let mut s = Script::new();
    s.tick(0.25).fire(sender).tick(0.25);
    for _ in 0..8 {
        s.fire(world);
    }
    s.tick(0.25);
    let shows = "256 late units beside 64 delivered events: two lists, so it passes.";
    Case::new("late-beside-delivered", shows, &c, &s)
}

fn carried(past: usize) -> Case {
    let mut c = Circuit::new();
    let of = clocks(&mut c, 8, 1);
    flips(&mut c, of, 32, [1, 0], past);
    let mut s = Script::new();
    s.ticks(3, 0.25);
    edge("carried", 256, past, "carried units", &c, &s).tells(&[32])
}

/// A Reroute with 128 remote calls, called twice.
fn forks(past: usize) -> Case {
    let mut c = Circuit::new();
    let world = c.world_event(0);
    let many = c.reroute(NOTHING);
    let leaf = c.toggle(0);
    for _ in 0..past {
        c.remote(world, leaf);
    }
    c.call_all(world, &[many, many]);
    for _ in 0..128 {
        c.remote(many, leaf);
    }
    let mut s = Script::new();
    s.tick(0.25).fire(world).tick(0.25);
    edge("forks", 256, past, "forks", &c, &s)
}

/// 128 forks, the first of which forks 129 leaves while 127 wait.
fn forks_of_a_fork(past: usize) -> Case {
    let mut c = Circuit::new();
    let world = c.world_event(0);
    let leaf = c.toggle(0);
    let first = c.reroute(NOTHING);
    let many = c.reroute(NOTHING);
    c.remote(world, first);
    for _ in 0..127 {
        c.remote(world, leaf);
    }
    for _ in 0..past {
        c.remote(first, leaf);
    }
    c.call_all(first, &[many, many, many]);
    for _ in 0..43 {
        c.remote(many, leaf);
    }
    let mut s = Script::new();
    s.tick(0.25).fire(world).tick(0.25);
    edge("forks-of-a-fork", 256, past, "forks, the one under way not counted", &c, &s)
}

/// A Reroute with a Union and 127 more calls; the Union calls it once again.
fn chain_stack(past: usize) -> Case {
    let mut c = Circuit::new();
    let world = c.world_event(0);
    let many = c.reroute(NOTHING);
    let again = c.union(0);
    let leaf = c.toggle(0);
    c.call_all(world, &[many, leaf]);
    for _ in 0..past {
        c.call(world, leaf);
    }
    c.call(many, again);
    for _ in 0..127 {
        c.call(many, leaf);
    }
    c.call(again, many);
    let mut s = Script::new();
    s.tick(0.25).fire(world).tick(0.25);
    edge("chain-stack", 256, past, "calls found and not yet made", &c, &s).tells(&[30])
}

/// 200 forks wait while 150 calls do.
fn forks_beside_the_stack() -> Case {
    let mut c = Circuit::new();
    let world = c.world_event(0);
    let many = c.reroute(NOTHING);
    let leaf = c.toggle(0);
    c.call_all(world, &[many, many]);
    for _ in 0..150 {
        c.call(world, leaf);
    }
    for _ in 0..100 {
        c.remote(many, leaf);
    }
    let mut s = Script::new();
    s.tick(0.25).fire(world).tick(0.25);
    let shows = "200 forks beside 150 calls found: two lists, so it passes.";
    Case::new("forks-beside-the-stack", shows, &c, &s)
}

/// A unit begun by its pin that finds all calls at once, or a Reroute that
/// finds them while one more waits.
fn chain_stack_at_once(past: usize) -> Case {
    let mut c = Circuit::new();
    let world = c.world_event(0);
    let pin = c.toggle(1);
    c.feed(pin.pin("Exec"), world);
    let leaf = c.toggle(0);
    if past == 0 {
        for _ in 0..256 {
            c.call(pin, leaf);
        }
    } else {
        let twice = c.reroute(NOTHING);
        c.call_all(pin, &[twice, twice]);
        c.call_all(twice, &[twice, leaf]);
    }
    let one = c.constant(1);
    let mut s = Script::new();
    s.tick(0.25).give(world, one).tick(0.25);
    edge("chain-stack-from-a-pin", 256, past, "calls found and not yet made", &c, &s)
}

/// Eight sends to eight receivers.
fn delivered(past: usize) -> Case {
    let mut c = Circuit::new();
    let world = c.world_event(0);
    for k in 0..8 {
        let send = c.send_event(0, 3, k);
        c.call(world, send);
        c.event_custom(0, 3);
    }
    for _ in 0..past {
        let send = c.send_global(0, 3, 9);
        c.call(world, send);
        c.event_global(0, 3);
    }
    let mut s = Script::new();
    s.tick(0.25).fire(world).tick(0.25).fire(world).tick(0.25);
    edge("delivered", 64, past, "delivered events", &c, &s).tells(&[33]).log(1 << 18)
}

/// Sends and receivers of one channel; the edge cannot be 64 times one.
fn delivered_by_receivers(past: usize) -> Case {
    let (sends, receivers) = if past == 0 { (2, 32) } else { (5, 13) };
    let mut c = Circuit::new();
    let world = c.world_event(0);
    for k in 0..sends {
        let send = c.send_global(0, 255, k);
        c.call(world, send);
    }
    for _ in 0..receivers {
        c.event_global(0, 255);
    }
    let mut s = Script::new();
    s.tick(0.25).fire(world).tick(0.25);
    edge("delivered-to-many", 64, past, "delivered events", &c, &s)
}

fn fires(past: usize) -> Case {
    let mut c = Circuit::new();
    let world = c.world_event(0);
    let later = c.buffer_ticks_exec(0, 2);
    c.call(world, later);
    let mut s = Script::new();
    s.tick(0.25);
    for _ in 0..32 + past {
        s.fire(world);
    }
    s.ticks(3, 0.25);
    edge("fires", 32, past, "fires of a buffer", &c, &s)
}

fn fires_over_ticks(past: usize) -> Case {
    let mut c = Circuit::new();
    let world = c.world_event(0);
    let later = c.buffer_seconds_exec(0, 1.0);
    c.call(world, later);
    let mut s = Script::new();
    for n in [11, 11, 10, past, 11] {
        s.tick(0.25);
        for _ in 0..n {
            s.fire(world);
        }
    }
    s.ticks(5, 0.25);
    edge("fires-over-ticks", 32, past, "fires of a buffer, called over several ticks", &c, &s)
}

/// 64 stimuli, each followed by 15 ChangeDetectors of a lower rank.
fn units_late(past: usize) -> Case {
    let mut c = Circuit::new();
    let world = c.world_event(1);
    let last = c.world_event(1);
    flips(&mut c, vec![world, last], 15, [0, 0], past);
    let mut s = Script::new();
    s.first_checks(1, 0.25).tick(0.25);
    for _ in 0..63 {
        s.fire(world);
    }
    s.fire(last).tick(0.25);
    edge("units-late", 1024, past, "units in a late pass", &c, &s).tells(&[34])
}

fn units_main(past: usize) -> Case {
    let mut c = Circuit::new();
    let world = c.world_event(1);
    flips(&mut c, vec![world], 15, [0, 0], 0);
    for _ in 0..past {
        c.clock(0, 0.25);
    }
    let mut s = Script::new();
    s.first_checks(1, 0.0).tick(0.25);
    for _ in 0..64 {
        s.fire(world);
    }
    s.tick(0.25);
    edge("units-main", 1024, past, "units, the last in the main pass", &c, &s).tells(&[34])
}

/// A Queue filled to 256; the tick that releases one takes one, and one
/// more is dropped.
fn queue_released_and_filled(past: usize) -> Case {
    let mut c = Circuit::new();
    let world = c.world_event(0);
    let more = c.world_event(0);
    let count = c.cycle(0, 1000);
    let queue = c.queue_ticks(0, count, 2);
    c.call(count, queue);
    let mut fill = count;
    for _ in 0..8 {
        let above = c.reroute(NOTHING);
        c.call_all(above, &[fill, fill]);
        fill = above;
    }
    c.call(world, fill);
    c.call(more, count);
    let mut s = Script::new();
    s.tick(0.25).fire(world).ticks(2, 0.25).fire(more);
    for _ in 0..past {
        s.fire(more);
    }
    s.ticks(257, 0.25);
    let name = format!("queue-released-and-filled-{past}");
    Case::new(name, "A full Queue takes one record in the tick that releases one.", &c, &s).log(1 << 18)
}

/// The first played circuit for `ticks` ticks: 136 bytes a record.
fn logged(name: &str, shows: &str, ticks: usize, log: usize) -> Case {
    let mut c = Circuit::new();
    let world = c.world_event(0);
    let toggle = c.toggle(1);
    c.call(world, toggle);
    let seven = c.constant(7);
    let mut s = Script::new();
    for _ in 0..ticks {
        s.tick(0.25).give(world, seven);
    }
    Case::new(name, shows, &c, &s).tells(&[35]).log(log)
}

/// A unit whose calls double until the stack is full: 72 bytes of record.
fn logged_12(name: &str, shows: &str, log: usize) -> Case {
    let mut c = Circuit::new();
    let world = c.world_event(0);
    let twice = c.reroute(NOTHING);
    c.call(world, twice);
    c.call_all(twice, &[twice, twice]);
    let mut s = Script::new();
    s.tick(0.25).fire(world).tick(0.25);
    Case::new(name, shows, &c, &s).tells(&[35]).log(log)
}

/// A Reroute that calls itself: 72 bytes of record.
fn logged_11(name: &str, shows: &str, log: usize) -> Case {
    let mut c = Circuit::new();
    let world = c.world_event(0);
    let ring = c.reroute(NOTHING);
    c.chain(&[world, ring, ring]);
    let mut s = Script::new();
    s.tick(0.25).fire(world).tick(0.25);
    Case::new(name, shows, &c, &s).tells(&[28, 35]).log(log)
}

fn logs() -> Vec<Case> {
    vec![
        logged("log-exact", "Two records of 136 bytes fit 272.", 2, 272),
        logged("log-byte-short", "A byte short for the second: 13.", 2, 271),
        logged("log-word-short", "A word short for the second: 13.", 2, 264),
        logged("log-byte-over", "A byte over stays untouched.", 2, 273),
        logged("log-one-record-short", "The first record alone does not fit: 13.", 2, 135),
        logged("log-empty", "No log at all: 13.", 1, 0),
        logged("log-empty-no-ticks", "No log and no ticks.", 0, 0),
        logged_12("log-12-exact", "The record of a tick stopped by 12 fits 72 bytes.", 72),
        logged_12("log-12-byte-short", "A byte short for it: 13.", 71),
        logged_12("log-12-empty", "No log for it: 13.", 0),
        logged_11("log-11-exact", "The record of a tick stopped by 11 fits 72 bytes.", 72),
        logged_11("log-11-byte-short", "A byte short for it: 13.", 71),
    ]
}

fn events_64() -> Case {
    let mut c = Circuit::new();
    for k in 0..64 {
        let event = c.gate(EVENT_CUSTOM, 0);
        c.feed(event.pin("channel"), k);
    }
    let mut s = Script::new();
    s.ticks(2, 0.25);
    Case::new("outputs-576", "64 gates of nine outputs: 1,159 words a record.", &c, &s)
}

fn inputs_640() -> Case {
    let mut c = Circuit::new();
    for k in 0..56 {
        let send = c.gate(SEND_EVENT, k);
        c.feed(send.pin("channel"), 255);
    }
    for _ in 0..8 {
        c.queue_ticks(0, NOTHING, NOTHING);
    }
    let mut s = Script::new();
    s.ticks(2, 0.25);
    let shows = "64 gates of ten inputs, eight of them Queues with their eight areas.";
    Case::new("inputs-640", shows, &c, &s).delays(8 * 65_536)
}

fn constants_64() -> Case {
    let mut c = Circuit::new();
    let world = c.gate(WORLD_EVENT, 65_535);
    let names: Vec<i64> = (0..64).map(|k| c.constant(k * k)).collect();
    let mut s = Script::new();
    for name in names {
        s.tick(0.25).give(world, name);
    }
    Case::new("constants-64", "All 64 constants are given.", &c, &s)
}

fn calls_256() -> Case {
    let mut c = Circuit::new();
    let world = c.world_event(0);
    let count = c.cycle(0, 1000);
    for k in 0..256 {
        if k % 2 == 0 { c.call(world, count) } else { c.remote(world, count.pin("ExecDown")) }
    }
    let mut s = Script::new();
    s.tick(0.25).fire(world).tick(0.25).fire(world);
    Case::new("calls-256", "256 calls of one output, every other one remote.", &c, &s)
}

fn ranks() -> Case {
    let mut c = Circuit::new();
    let delta = c.delta_time();
    for rank in [65_535, 0, 256, 255, 32_768, 65_534, 1] {
        c.change_detector(rank, delta);
        c.clock(rank, 0.0);
    }
    let mut s = Script::new();
    s.tick(0.25).tick(0.5);
    Case::new("ranks", "Ranks from 0 to 65,535.", &c, &s)
}

fn ticks_100000() -> Case {
    let mut c = Circuit::new();
    c.server_uptime();
    let mut s = Script::new();
    s.ticks(100_000, 0.1);
    Case::new("ticks-100000", "The longest script: 100,000 sums of 0.1.", &c, &s).log(100_000 * 72)
}

fn stimuli_65535() -> Case {
    let mut c = Circuit::new();
    let world = c.world_event(0);
    let count = c.cycle(0, i64::MAX);
    c.call(world, count);
    let mut s = Script::new();
    for k in 0..65_535 {
        if k % 64 == 0 {
            s.tick(0.25);
        }
        s.fire(world);
    }
    Case::new("stimuli-65535", "65,535 stimuli, 64 a tick.", &c, &s).log(1 << 21)
}

fn queues_8() -> Case {
    let mut c = Circuit::new();
    let world = c.world_event(0);
    for k in 0..8 {
        let queue = if k % 2 == 0 { c.queue_ticks(k, world, k) } else { c.queue_seconds(k, world, 0.5) };
        c.call(world, queue);
    }
    let one = c.constant(1);
    let mut s = Script::new();
    s.tick(0.25).give(world, one).fire(world).ticks(12, 0.25);
    Case::new("eight-queues", "Eight Queues, each with its part of the delays.", &c, &s).delays(8 * 65_536)
}
