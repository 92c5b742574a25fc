//! Marking, settling, `last`, equality and pulses.

use super::Case;
use crate::build::{Circuit, NOTHING, Script, Value};

pub fn cases() -> Vec<Case> {
    vec![
        leftover_dirty(),
        fresh_after_settling(),
        unchosen_side(),
        last_reader_first(),
        diamond(),
        keeps_its_place(),
        there_and_back(),
        last_after_falsy(),
        pin_changes(),
        pin_not_read_again(),
        zero_slots(),
        zero_of_a_var(),
        kinds_differ(),
        edges_are_floats(),
        pulse_extended(),
        both_pulses(),
        lowered_before_buffers(),
        lowered_before_clocks(),
        lowered_by_gate_and_output(),
        ring_of_changes(),
    ]
}

fn leftover_dirty() -> Case {
    let mut c = Circuit::new();
    let first = c.world_event(0);
    let second = c.world_event(1);
    let seen = c.var(1);
    let result = c.var(0);
    let edge = c.edge(first);
    let select = c.select(edge, 0, seen);
    let set_seen = c.var_set(0, seen, 9);
    let set_result = c.var_set(0, result, select);
    c.chain(&[second, set_seen, set_result]);
    let five = c.constant(5);
    let mut s = Script::new();
    s.tick(0.25).give(first, five).fire(second).tick(0.25);
    let shows = "A pulse raised while settling leaves a Select stale; the next unit's VarSet is seen through it: 9, not 1.";
    Case::new("leftover-dirty", shows, &c, &s).tells(&[1])
}

fn fresh_after_settling() -> Case {
    let mut c = Circuit::new();
    let first = c.world_event(0);
    let second = c.world_event(1);
    let seen = c.var(1);
    let result = c.var(0);
    let select = c.select(first, 0, seen);
    let set_seen = c.var_set(0, seen, 9);
    let set_result = c.var_set(0, result, select);
    c.chain(&[second, set_seen, set_result]);
    let five = c.constant(5);
    let mut s = Script::new();
    s.tick(0.25).give(first, five).fire(second).tick(0.25);
    let shows =
        "What a unit itself made stale is fresh before the next unit, whose VarSet it then misses: 1, not 9.";
    Case::new("fresh-after-settling", shows, &c, &s).tells(&[1])
}

fn unchosen_side() -> Case {
    let mut c = Circuit::new();
    let world = c.world_event(0);
    let seen = c.var(1);
    let result = c.var(NOTHING);
    let inner = c.select(world, seen, seen);
    let outer = c.select(NOTHING, world, inner);
    let branch = c.branch(0, outer);
    let set_seen = c.var_set(0, seen, 9);
    let set_result = c.var_set(0, result, inner);
    c.chain(&[world, branch, set_seen, set_result]);
    let five = c.constant(5);
    let mut s = Script::new();
    s.tick(0.25).give(world, five).tick(0.25);
    let shows = "Reading a Select refreshes its unchosen side too, which then misses the VarSet: 1, not 9.";
    Case::new("unchosen-side", shows, &c, &s).tells(&[2])
}

fn last_reader_first() -> Case {
    let mut c = Circuit::new();
    let world = c.world_event(0);
    let a = c.reroute(world);
    let b = c.reroute(world);
    c.change_detector(0, world);
    c.change_detector(0, a);
    c.change_detector(0, b);
    let one = c.constant(1);
    let mut s = Script::new();
    s.first_checks(1, 0.25).tick(0.25).give(world, one);
    let shows = "Marking takes the watched readers, then the last pure reader's: gates begin 0, 3, 5, 4.";
    Case::new("last-reader-first", shows, &c, &s).tells(&[3])
}

fn diamond() -> Case {
    let mut c = Circuit::new();
    let world = c.world_event(0);
    let a = c.reroute(world);
    let b = c.reroute(world);
    let both = c.select(a, b, a);
    c.change_detector(0, both);
    c.change_detector(0, b);
    let (one, two) = (c.constant(1), c.constant(2));
    let mut s = Script::new();
    s.first_checks(1, 0.25).tick(0.25).give(world, one).tick(0.25).give(world, two).give(world, one);
    let shows = "A pure gate reached on two ways is marked once and its watcher checked once.";
    Case::new("diamond", shows, &c, &s).tells(&[4])
}

fn keeps_its_place() -> Case {
    let mut c = Circuit::new();
    let world = c.world_event(0);
    let count = c.cycle(0, 100);
    let toggle = c.toggle(0);
    c.change_detector(0, toggle);
    c.change_detector(0, count);
    c.call_all(world, &[count, toggle, count]);
    let mut s = Script::new();
    s.first_checks(1, 0.25).tick(0.25).fire(world).tick(0.25).fire(world);
    let shows = "An input that is marked again keeps its place in the check queue: gates begin 0, 4, 3.";
    Case::new("keeps-its-place", shows, &c, &s).tells(&[5])
}

fn there_and_back() -> Case {
    let mut c = Circuit::new();
    let once = c.world_event(0);
    let twice = c.world_event(0);
    let toggle = c.toggle(0);
    let look = c.branch(0, toggle);
    c.change_detector(1, toggle);
    c.call(once, toggle);
    c.call_all(twice, &[toggle, look, toggle]);
    let mut s = Script::new();
    s.first_checks(1, 0.25)
        .tick(0.25)
        .fire(twice)
        .tick(0.25)
        .fire(twice)
        .tick(0.25)
        .fire(once)
        .tick(0.25)
        .fire(twice);
    let shows = "There and back between two checks is no change, read in between or not; only the first, from nothing, is.";
    Case::new("there-and-back", shows, &c, &s).tells(&[6])
}

fn last_after_falsy() -> Case {
    let mut c = Circuit::new();
    let world = c.world_event(0);
    let toggle = c.toggle(1);
    c.feed(toggle.pin("Exec"), world);
    let (five, zero) = (c.constant(5), c.constant(0));
    let mut s = Script::new();
    for value in [five, zero, five, five, zero, zero, five] {
        s.tick(0.25).give(world, value);
    }
    let shows = "A check that raises nothing replaces `last` too: 5, 0, 5 raises a pin twice.";
    Case::new("last-after-falsy", shows, &c, &s).tells(&[6, 7])
}

fn pin_changes() -> Case {
    let mut c = Circuit::new();
    let world = c.world_event(0);
    let toggle = c.toggle(1);
    c.feed(toggle.pin("Exec"), world);
    c.change_detector(2, world);
    let values: [Value; 8] =
        [1.into(), 2.into(), true.into(), 1.into(), 1.0.into(), false.into(), 0.0.into(), (-0.0).into()];
    let mut s = Script::new();
    s.first_checks(1, 0.25);
    for v in values {
        let name = c.constant(v);
        s.tick(0.25).give(world, name);
    }
    let shows = "A pin is raised when changed and truthy: Int 1 to Int 2, to Bool true, to Int 1, to Float 1.0; 0.0 to -0.0 is no change.";
    Case::new("pin-changes", shows, &c, &s).tells(&[7, 9, 10])
}

fn pin_not_read_again() -> Case {
    let mut c = Circuit::new();
    let world = c.world_event(0);
    let toggle = c.toggle(5);
    c.feed(toggle.pin("Exec"), world);
    let (one, zero) = (c.constant(1), c.constant(0));
    let mut s = Script::new();
    s.tick(0.25).give(world, one).give(world, zero);
    let shows = "A pin is not read again when its unit begins: it runs though its source is 0 by then.";
    Case::new("pin-not-read-again", shows, &c, &s).tells(&[7])
}

fn zero_slots() -> Case {
    let mut c = Circuit::new();
    let plus_first = c.world_event(0);
    let minus_first = c.world_event(0);
    c.delta_time();
    c.server_uptime();
    c.change_detector(1, plus_first);
    c.reroute(minus_first);
    let (plus, minus) = (c.constant(0.0), c.constant(-0.0));
    let mut s = Script::new();
    s.first_checks(1, 0.0).tick(0.0).give(plus_first, plus).give(minus_first, minus);
    s.tick(-0.0).give(plus_first, minus).give(minus_first, plus);
    s.tick(0.25).tick(-0.0);
    let shows =
        "An output keeps its zero when the other zero arrives; DeltaTime shows -0.0, the uptime does not.";
    Case::new("zero-slots", shows, &c, &s).tells(&[9])
}

fn zero_of_a_var() -> Case {
    let mut c = Circuit::new();
    let world = c.world_event(0);
    let var = c.var(0.0);
    let set = c.var_set(0, var, -0.0);
    let get = c.var_get(0, var);
    c.reroute(var);
    c.change_detector(0, var);
    c.call_all(world, &[get, set, get]);
    let mut s = Script::new();
    s.first_checks(1, 0.25).tick(0.25).fire(world).tick(0.25);
    let shows = "A Var takes -0.0 over 0.0, and a Reroute of it shows it; VarGet keeps its 0.0, and nothing counts as changed.";
    Case::new("zero-of-a-var", shows, &c, &s).tells(&[9])
}

fn kinds_differ() -> Case {
    let mut c = Circuit::new();
    let world = c.world_event(0);
    c.change_detector(1, world);
    c.change(world);
    c.edge(world);
    c.edge_exec(2, world);
    let mut s = Script::new();
    s.first_checks(2, 0.25);
    for v in [Value::Int(1), Value::Bool(true), Value::Float(1.0), Value::Int(1)] {
        let name = c.constant(v);
        s.tick(0.25).give(world, name).ticks(2, 0.25);
    }
    let shows = "Int 1, Bool true and Float 1.0 differ: kind 6 fires, 8 pulses, 7 and 9 see equal numbers.";
    Case::new("kinds-differ", shows, &c, &s).tells(&[10])
}

fn edges_are_floats() -> Case {
    let mut c = Circuit::new();
    let large = c.world_event(0);
    let from_zero = c.world_event(0);
    let from_five = c.world_event(0);
    for world in [large, from_zero, from_five] {
        c.edge(world);
        c.edge_exec(1, world);
        c.change(world);
    }
    let even = c.constant(1 << 53);
    let odd = c.constant((1 << 53) + 1);
    let (zero, five, minus) = (c.constant(0), c.constant(5), c.constant(-1));
    let mut s = Script::new();
    s.first_checks(2, 0.25);
    s.tick(0.25).give(large, even).give(from_zero, zero).give(from_five, five);
    s.ticks(2, 0.25);
    s.tick(0.25).give(large, odd).give(from_zero, minus).give(from_five, minus);
    s.ticks(2, 0.25);
    let shows = "Edges compare as floats: 2^53 to 2^53 + 1 is a change and no edge; nothing counts as 0.0.";
    Case::new("edges-are-floats", shows, &c, &s).tells(&[11])
}

fn pulse_extended() -> Case {
    let mut c = Circuit::new();
    let world = c.world_event(0);
    c.change(world);
    let names = [c.constant(1), c.constant(2), c.constant(3)];
    let mut s = Script::new();
    s.first_checks(3, 0.25);
    for name in names {
        s.tick(0.25).give(world, name);
    }
    s.ticks(3, 0.25);
    let shows = "A pulse raised again while high lasts on: raised in 4, 5 and 6, false in 8.";
    Case::new("pulse-extended", shows, &c, &s).tells(&[12])
}

fn both_pulses() -> Case {
    let mut c = Circuit::new();
    let world = c.world_event(0);
    c.edge(world);
    let (one, zero) = (c.constant(1), c.constant(0));
    let mut s = Script::new();
    s.tick(0.25).tick(0.25).give(world, one).tick(0.25).give(world, zero).ticks(4, 0.25);
    let shows = "Rising and falling have their own timers and may both be high; before the first pulse each is nothing.";
    Case::new("both-pulses", shows, &c, &s).tells(&[12])
}

fn lowered_before_buffers() -> Case {
    let mut c = Circuit::new();
    let world = c.world_event(0);
    let buffer = c.buffer_ticks(world, 2, NOTHING);
    let edge = c.edge(world);
    c.change_detector(0, buffer);
    c.change_detector(0, edge);
    let one = c.constant(1);
    let mut s = Script::new();
    s.first_checks(3, 0.25).tick(0.25).give(world, one).ticks(3, 0.25);
    let shows =
        "Pulses are lowered before buffers land: in tick 6 the Edge's watcher begins before the buffer's.";
    Case::new("lowered-before-buffers", shows, &c, &s).tells(&[12, 19])
}

fn lowered_before_clocks() -> Case {
    let mut c = Circuit::new();
    let world = c.world_event(0);
    let change = c.change(world);
    let clock = c.clock(1, 0.0);
    c.feed(clock.pin("bEnabled"), change);
    let one = c.constant(1);
    let mut s = Script::new();
    s.tick(0.25).give(world, one).ticks(3, 0.25);
    let shows = "A Clock enabled by a pulse: nothing enables in tick 1, the pulse in 2, lowered before the Clock in 3.";
    Case::new("lowered-before-clocks", shows, &c, &s).tells(&[12, 19, 21])
}

fn lowered_by_gate_and_output() -> Case {
    let mut c = Circuit::new();
    let a = c.world_event(0);
    let b = c.world_event(1);
    let low = c.edge(b);
    let high = c.edge(a);
    c.change_detector(0, high);
    c.change_detector(0, low.out("bPulseOnFallingEdge"));
    c.change_detector(0, low);
    let (one, minus) = (c.constant(1), c.constant(-1));
    let mut s = Script::new();
    s.first_checks(1, 0.25).tick(0.25).give(a, one).give(b, minus).give(b, one).ticks(3, 0.25);
    let shows = "Pulses that end together are lowered by gate, then output, not as raised: watchers 6, 5, 4.";
    Case::new("lowered-by-gate-and-output", shows, &c, &s).tells(&[12])
}

fn ring_of_changes() -> Case {
    let mut c = Circuit::new();
    let world = c.world_event(0);
    let a = c.change(NOTHING);
    let b = c.change(a);
    let back = c.select(b, world, b);
    c.feed(a.pin("Input"), back);
    let one = c.constant(1);
    let mut s = Script::new();
    s.tick(0.25).give(world, one).ticks(7, 0.25);
    let shows = "Two Changes that watch each other settle, since within a tick pulses only rise.";
    Case::new("ring-of-changes", shows, &c, &s).tells(&[13])
}
