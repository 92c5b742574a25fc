//! What comes of entering a gate: one step, and those of all that its calls enter.

use super::{CALLED, alike, one_call, row, set_up, size};
use crate::build::*;
use crate::case::Size;

pub fn sizes() -> Vec<Size> {
    let mut sizes = vec![size("one-call", "A World calls a Toggle: one step.", &one_call())];
    sizes.extend(CALLED.map(passes_on));
    sizes.extend(sides());
    sizes.extend(ends());
    sizes.extend(unions());
    sizes.extend(repeated());
    sizes.extend(remote());
    sizes.extend(deep());
    sizes
}

/// A World calls a gate, of which each output that may call calls a Toggle.
fn passes_on(kind: i64) -> Size {
    let mut c = Circuit::new();
    let world = c.world_event(0);
    let gate = set_up(&mut c, kind);
    c.call(world, gate);
    for out in outputs_of(kind).into_iter().filter(|out| may_call(out)) {
        let toggle = c.toggle(0);
        c.call(gate.out(out.trim_end_matches('!')), toggle);
    }
    let shows =
        format!("A World calls a gate of kind {kind}, and each of its outputs that may call a Toggle.");
    size(format!("passes-on-{kind}"), shows, &c)
}

/// Both outputs of a Branch and of a Cycle.
fn sides() -> Vec<Size> {
    let mut unlike = Circuit::new();
    let world = unlike.world_event(0);
    let branch = unlike.branch(0, true);
    let long = row(&mut unlike, TOGGLE, 3);
    let [short] = alike(&mut unlike, TOGGLE);
    unlike.call(world, branch);
    unlike.call(branch.out("ExecOutA"), long[0]);
    unlike.call(branch.out("ExecOutB"), short);

    let mut both = Circuit::new();
    let world = both.world_event(0);
    let [first, a, b] = alike(&mut both, BRANCH);
    let [toggle] = alike(&mut both, TOGGLE);
    both.call(world, first);
    both.call(first.out("ExecOutA"), a);
    both.call(first.out("ExecOutB"), b);
    for branch in [a, b] {
        both.call(branch.out("ExecOutA"), toggle);
        both.call(branch.out("ExecOutB"), toggle);
    }
    let mut sizes = vec![
        size("sides-unlike", "A Branch of three Toggles in a row on one side and one on the other.", &unlike),
        size("sides-of-sides", "Both sides of a Branch are Branches; all four call one Toggle.", &both),
    ];
    for pin in ["Exec", "ExecDown"] {
        let mut c = Circuit::new();
        let world = c.world_event(0);
        let [cycle] = alike(&mut c, CYCLE);
        let [up] = alike(&mut c, TOGGLE);
        let down = row(&mut c, TOGGLE, 2);
        c.call(world, cycle.pin(pin));
        c.call(cycle.out("ExecOut"), up);
        c.call(cycle.out("ExecOutDown"), down[0]);
        let shows = format!("A Cycle entered by {pin} passes on to both its outputs.");
        sizes.push(size(format!("cycle-by-{pin}"), shows, &c));
    }
    sizes
}

/// Kinds where a chain ends pass on all the same, by whichever pin.
fn ends() -> Vec<Size> {
    let mut sizes = Vec::new();
    for pin in ["Restart", "Pause", "Resume"] {
        let mut c = Circuit::new();
        let world = c.world_event(0);
        let [stopwatch] = alike(&mut c, STOPWATCH);
        let behind = row(&mut c, TOGGLE, 2);
        c.call(world, stopwatch.pin(pin));
        c.call(stopwatch, behind[0]);
        let shows = format!("A Stopwatch entered by {pin}, though the chain ends there.");
        sizes.push(size(format!("stopwatch-by-{pin}"), shows, &c));
    }
    let mut c = Circuit::new();
    let world = c.world_event(0);
    let [queue] = alike(&mut c, QUEUE_TICKS);
    let [seconds] = alike(&mut c, BUFFER_SECONDS_EXEC);
    let [next] = alike(&mut c, QUEUE_SECONDS);
    let [ticks] = alike(&mut c, BUFFER_TICKS_EXEC);
    let [stopwatch] = alike(&mut c, STOPWATCH);
    let [toggle] = alike(&mut c, TOGGLE);
    c.chain(&[world, queue, seconds, next, ticks, stopwatch, toggle]);
    let shows = "Queues, buffers of calls and a Stopwatch in a row: a run makes one step, the figure is six.";
    sizes.push(size("ends-in-a-row", shows, &c));
    sizes
}

/// A Union counts each time it is called.
fn unions() -> Vec<Size> {
    let mut twice = Circuit::new();
    let world = twice.world_event(0);
    let [union] = alike(&mut twice, UNION);
    let [toggle] = alike(&mut twice, TOGGLE);
    twice.call_all(world, &[union, union]);
    twice.call(union, toggle);

    let mut two_ways = Circuit::new();
    let world = two_ways.world_event(0);
    let [a, b] = alike(&mut two_ways, TOGGLE);
    let [union] = alike(&mut two_ways, UNION);
    let [toggle] = alike(&mut two_ways, TOGGLE);
    two_ways.call_all(world, &[a, b]);
    two_ways.chain(&[a, union]);
    two_ways.chain(&[b, union, toggle]);

    let mut behind = Circuit::new();
    let world = behind.world_event(0);
    let [first, second, third] = alike(&mut behind, UNION);
    behind.call_all(world, &[first, first]);
    behind.call_all(first, &[second, second]);
    behind.call_all(second, &[third, third]);
    vec![
        size("union-twice", "A World calls a Union twice, which calls a Toggle.", &twice),
        size("union-two-ways", "Two Toggles call one Union, which calls a third.", &two_ways),
        size("unions-behind", "Three Unions, each called twice by what stands before it.", &behind),
    ]
}

/// Equal calls, calls of one gate by two pins, and by two outputs.
fn repeated() -> Vec<Size> {
    let mut thrice = Circuit::new();
    let world = thrice.world_event(0);
    let toggles = row(&mut thrice, TOGGLE, 2);
    thrice.call_all(world, &[toggles[0]; 3]);

    let mut behind = one_call();
    let [again] = alike(&mut behind, TOGGLE);
    behind.calls.extend([(2, 2 * again.first_input); 2]);

    let mut pins = Circuit::new();
    let world = pins.world_event(0);
    let [cycle] = alike(&mut pins, CYCLE);
    let [toggle] = alike(&mut pins, TOGGLE);
    pins.call(world, cycle.pin("Exec"));
    pins.call(world, cycle.pin("ExecDown"));
    pins.call(cycle.out("ExecOut"), toggle);

    let mut outputs = Circuit::new();
    let [branch] = alike(&mut outputs, BRANCH);
    let toggles = row(&mut outputs, TOGGLE, 2);
    outputs.call(branch.out("ExecOutA"), toggles[0]);
    outputs.call(branch.out("ExecOutB"), toggles[0]);

    let mut diamond = Circuit::new();
    let world = diamond.world_event(0);
    let [a, b, c, d] = alike(&mut diamond, TOGGLE);
    diamond.call(world, a);
    diamond.call_all(a, &[b, c]);
    diamond.call(b, d);
    diamond.call(c, d);
    vec![
        size("called-thrice", "A World calls a Toggle thrice, which calls another.", &thrice),
        size("called-twice-behind", "A Toggle calls another twice.", &behind),
        size("called-by-two-pins", "A World calls both pins of a Cycle, which calls a Toggle.", &pins),
        size("called-by-two-outputs", "Both sides of a Branch call the same Toggle.", &outputs),
        size("diamond", "A Toggle calls two, which call a fourth.", &diamond),
    ]
}

fn remote() -> Vec<Size> {
    let mut alone = Circuit::new();
    let world = alone.world_event(0);
    let toggles = row(&mut alone, TOGGLE, 2);
    alone.remote(world, toggles[0]);

    let mut behind = Circuit::new();
    let world = behind.world_event(0);
    let [a, b, c] = alike(&mut behind, TOGGLE);
    behind.call(world, a);
    behind.remote(a, b);
    behind.remote(b, c);

    let mut both = Circuit::new();
    let world = both.world_event(0);
    let toggles = row(&mut both, TOGGLE, 2);
    both.call(world, toggles[0]);
    both.remote(world, toggles[0]);

    let mut twice = Circuit::new();
    let world = twice.world_event(0);
    let [toggle] = alike(&mut twice, TOGGLE);
    twice.remote(world, toggle);
    twice.remote(world, toggle);
    vec![
        size("remote", "A World calls a Toggle remotely, which calls another.", &alone),
        size("remote-behind", "Toggles that call one another remotely.", &behind),
        size("remote-and-local", "A World calls a Toggle remotely and not, which calls another.", &both),
        size("remote-twice", "A World calls a Toggle twice, both times remotely.", &twice),
    ]
}

/// Rows as long as there are gates, in either direction and by turns.
fn deep() -> Vec<Size> {
    let mut forwards = Circuit::new();
    row(&mut forwards, TOGGLE, 64);

    let mut backwards = Circuit::new();
    let mut gates: Vec<Gate> = alike::<64>(&mut backwards, TOGGLE).to_vec();
    gates.reverse();
    backwards.chain(&gates);

    let mut by_turns = Circuit::new();
    let gates = alike::<64>(&mut by_turns, UNION);
    let order: Vec<Gate> = (0..64).map(|k| gates[if k % 2 == 0 { k } else { 64 - k }]).collect();
    by_turns.chain(&order);

    let mut of_a_world = Circuit::new();
    let world = of_a_world.world_event(0);
    let gates = row(&mut of_a_world, REROUTE, 63);
    of_a_world.call(world, gates[0]);

    let mut to_a_world = Circuit::new();
    let mut gates: Vec<Gate> = alike::<63>(&mut to_a_world, REROUTE).to_vec();
    let world = to_a_world.world_event(0);
    gates.push(world);
    gates.reverse();
    to_a_world.chain(&gates);
    vec![
        size("deep-64", "64 Toggles in a row.", &forwards),
        size("deep-64-backwards", "64 Toggles in a row, the last gate first.", &backwards),
        size("deep-64-by-turns", "64 Unions in a row, from the front and from the back by turns.", &by_turns),
        size("deep-63", "A World and 63 Reroutes in a row.", &of_a_world),
        size("deep-63-backwards", "A World and 63 Reroutes in a row, the last gate first.", &to_a_world),
    ]
}
