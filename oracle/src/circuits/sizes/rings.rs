//! 23: rings of calls, from gate to gate, whatever a run would do; Loops; and what
//! is no ring of calls.

use super::{CALLED, alike, one_call, row, set_up, size};
use crate::build::*;
use crate::case::Size;

pub fn sizes() -> Vec<Size> {
    let mut sizes: Vec<Size> = CALLED.map(self_call).into();
    sizes.extend([2, 3, 64].map(|many| ring_of(many, false)));
    sizes.extend([2, 3, 64].map(|many| ring_of(many, true)));
    sizes.extend(DELAYS.map(through));
    sizes.extend(by_gates());
    sizes.extend(unreached());
    sizes.extend(placed());
    sizes.extend(among_many());
    sizes.extend(no_rings());
    sizes.extend(loops());
    sizes.push(break_outside());
    sizes
}

const DELAYS: [i64; 5] = [QUEUE_TICKS, QUEUE_SECONDS, BUFFER_TICKS_EXEC, BUFFER_SECONDS_EXEC, STOPWATCH];

/// A gate that calls itself, beside a World that calls a Toggle.
fn self_call(kind: i64) -> Size {
    let mut c = one_call();
    let gate = set_up(&mut c, kind);
    c.call(gate, gate);
    size(format!("self-call-{kind}"), format!("A gate of kind {kind} calls itself."), &c)
}

/// Unions in a ring, each calling the next, or the one before.
fn ring_of(many: usize, backwards: bool) -> Size {
    let mut c = Circuit::new();
    let mut gates: Vec<Gate> = (0..many).map(|_| c.union(0)).collect();
    if backwards {
        gates.reverse();
    }
    c.chain(&gates);
    c.call(gates[many - 1], gates[0]);
    let (name, way) = if backwards { ("-backwards", "the one before") } else { ("", "the next") };
    size(format!("ring-of-{many}{name}"), format!("{many} Unions in a ring, each calls {way}."), &c)
}

/// A delay that calls itself again, by way of a Toggle.
fn through(kind: i64) -> Size {
    let mut c = Circuit::new();
    let world = c.world_event(0);
    let [delay] = alike(&mut c, kind);
    let [toggle] = alike(&mut c, TOGGLE);
    c.chain(&[world, delay, toggle, delay]);
    let shows =
        format!("A gate of kind {kind}, where a chain ends, calls a Toggle, and this calls it again.");
    size(format!("ring-through-{kind}"), shows, &c)
}

/// Rings whose calls enter by one pin and leave by an output that this pin does not
/// fire.
fn by_gates() -> Vec<Size> {
    let mut sizes = Vec::new();
    for (pin, out) in [("Exec", "ExecOutDown"), ("ExecDown", "ExecOut")] {
        let mut c = Circuit::new();
        let [cycle] = alike(&mut c, CYCLE);
        let [toggle] = alike(&mut c, TOGGLE);
        c.call(cycle.out(out), toggle);
        c.call(toggle, cycle.pin(pin));
        let shows = format!("{out} of a Cycle calls a Toggle, and this its {pin}.");
        sizes.push(size(format!("ring-by-gates-{out}"), shows, &c));
    }
    let mut across = Circuit::new();
    let [a, b] = alike(&mut across, CYCLE);
    across.call(a.out("ExecOut"), b.pin("ExecDown"));
    across.call(b.out("ExecOut"), a.pin("ExecDown"));

    let mut stopwatch = Circuit::new();
    let [watch] = alike(&mut stopwatch, STOPWATCH);
    stopwatch.call(watch, watch.pin("Pause"));

    let mut branch = Circuit::new();
    let never = branch.branch(0, false);
    let [toggle] = alike(&mut branch, TOGGLE);
    branch.call(never.out("ExecOutA"), toggle);
    branch.call(toggle, never);
    sizes.extend([
        size(
            "ring-by-gates-of-two-cycles",
            "ExecOut of each of two Cycles calls ExecDown of the other.",
            &across,
        ),
        size("ring-by-gates-of-a-stopwatch", "Expired of a Stopwatch calls its Pause.", &stopwatch),
        size(
            "ring-by-gates-of-a-branch",
            "The side of a Branch that is never chosen comes back to it.",
            &branch,
        ),
    ]);
    sizes
}

/// Rings that no unit comes to.
fn unreached() -> Vec<Size> {
    let mut beside = one_call();
    let reroutes = row(&mut beside, REROUTE, 2);
    beside.call(reroutes[1], reroutes[0]);

    let mut alone = Circuit::new();
    let reroutes = row(&mut alone, REROUTE, 3);
    alone.call(reroutes[2], reroutes[0]);

    let mut to_others = one_call();
    let reroutes = row(&mut to_others, REROUTE, 2);
    let [toggle] = alike(&mut to_others, TOGGLE);
    to_others.call_all(reroutes[1], &[toggle, reroutes[0]]);

    let mut remote = one_call();
    let [reroute] = alike(&mut remote, REROUTE);
    remote.remote(reroute, reroute);
    vec![
        size("ring-beside", "Two Reroutes that call each other, and that nothing else calls.", &beside),
        size("ring-alone", "Three Reroutes in a ring: no unit can start.", &alone),
        size("ring-to-others", "Two Reroutes that call each other and a Toggle.", &to_others),
        size(
            "ring-remote-beside",
            "A Reroute that calls itself remotely, and that nothing else calls.",
            &remote,
        ),
    ]
}

/// Rings in several places of a circuit.
fn placed() -> Vec<Size> {
    let mut behind = Circuit::new();
    let [toggle] = alike(&mut behind, TOGGLE);
    let unions = row(&mut behind, UNION, 2);
    behind.call(unions[1], unions[0]);
    behind.call(toggle, unions[0]);

    let mut before = Circuit::new();
    let unions = row(&mut before, UNION, 2);
    let toggles = row(&mut before, TOGGLE, 2);
    before.call(unions[1], unions[0]);
    before.call(unions[1], toggles[0]);

    let mut remote = Circuit::new();
    let world = remote.world_event(0);
    let [a, b] = alike(&mut remote, TOGGLE);
    remote.call(world, a);
    remote.remote(a, b);
    remote.remote(b, a);

    let mut half = Circuit::new();
    let [a, b] = alike(&mut half, TOGGLE);
    half.call(a, b);
    half.remote(b, a);

    let late = Size { ticks: 100_001, ..size("ring-and-100001", "A ring, and 100,001 ticks.", &behind) };
    vec![
        size("ring-behind", "A Toggle calls one of two Unions that call each other.", &behind),
        size("ring-before", "Of two Unions that call each other one calls a Toggle.", &before),
        size("ring-remote", "Two Toggles that call each other remotely.", &remote),
        size("ring-half-remote", "Two Toggles that call each other, one of them remotely.", &half),
        late,
    ]
}

/// Rings among as many calls as there may be, and behind as many steps.
fn among_many() -> Vec<Size> {
    let mut last = Circuit::new();
    let [a, b] = alike(&mut last, TOGGLE);
    last.call_all(a, &[b; 255]);
    last.call(b, a);

    let mut large = Circuit::new();
    let world = large.world_event(0);
    let gates = alike::<62>(&mut large, REROUTE);
    large.call_all(world, &[gates[0]; 2]);
    for pair in gates.windows(2) {
        large.call_all(pair[0], &[pair[1]; 2]);
    }
    let [end] = alike(&mut large, REROUTE);
    large.chain(&[gates[61], end, gates[61]]);
    vec![
        size("ring-by-the-last-call", "The last of 256 calls closes a ring.", &last),
        size("ring-behind-many", "A ring behind 62 Reroutes of two calls each.", &large),
    ]
}

/// What comes back by values, by events or by another way is no ring of calls.
fn no_rings() -> Vec<Size> {
    let mut values = Circuit::new();
    let [toggle] = alike(&mut values, TOGGLE);
    values.feed(toggle.entry(), toggle);

    let mut watched = Circuit::new();
    let cycle = watched.cycle(0, 5);
    let changed = watched.change_detector(0, cycle);
    watched.call(changed, cycle);

    let mut events = Circuit::new();
    let received = events.event_custom(0, 7);
    let send = events.send_event(0, 7, NOTHING);
    events.call(received, send);

    let mut ways = Circuit::new();
    let [a, b, c] = alike(&mut ways, TOGGLE);
    ways.call_all(a, &[b, c]);
    ways.call_all(b, &[c]);
    vec![
        size("no-ring-of-values", "A Toggle whose Exec is driven by its own Output.", &values),
        size("no-ring-of-changes", "A ChangeDetector calls the Cycle that it watches.", &watched),
        size("no-ring-of-events", "An event calls a gate that sends it again.", &events),
        size("no-ring-of-two-ways", "A Toggle calls two, of which the first calls the second.", &ways),
    ]
}

/// A circuit with a Loop.
fn loops() -> Vec<Size> {
    let mut alone = Circuit::new();
    let repeat = alone.repeat(0, 3, 0, 1);
    alone.body(repeat);

    let mut called = Circuit::new();
    let world = called.world_event(0);
    let repeat = called.repeat(0, 3, 0, 1);
    let entry = called.body(repeat);
    let toggle = called.toggle(0);
    let leave = called.break_out(0);
    called.put_inside(repeat, &[toggle, leave]);
    called.chain(&[world, repeat]);
    called.chain(&[entry, toggle, leave]);

    let mut last = Circuit::new();
    row(&mut last, TOGGLE, 62);
    let loop_gate = last.gates.len() as i64 + 1;
    let entry = last.gate(ENTRY, RANKS * (1 + loop_gate));
    last.feed(entry.pin("loop"), loop_gate);
    last.repeat(0, 3, 0, 1);

    let mut ring = Circuit::new();
    let repeat = ring.repeat(0, 3, 0, 1);
    ring.body(repeat);
    ring.call(repeat, repeat);

    let late = Size { ticks: 100_001, ..size("loop-and-100001", "A Loop, and 100,001 ticks.", &alone) };
    vec![
        size("loop-alone", "A Loop and its entry, without calls.", &alone),
        size("loop-called", "A World calls a Loop of a Toggle and a Break.", &called),
        size("loop-last", "The last of 64 gates is a Loop.", &last),
        size("loop-in-a-ring", "A Loop calls itself.", &ring),
        late,
    ]
}

/// A Break outside bodies is a gate like another.
fn break_outside() -> Size {
    let mut outside = Circuit::new();
    let world = outside.world_event(0);
    let [a, b] = alike(&mut outside, BREAK);
    let [toggle] = alike(&mut outside, TOGGLE);
    outside.call_all(world, &[a, a]);
    outside.chain(&[a, b, toggle]);
    let shows = "A World calls twice a Break outside bodies, which calls another, and this a Toggle.";
    size("break-outside", shows, &outside)
}
