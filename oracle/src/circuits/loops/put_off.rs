//! What a Var that was written only inside bodies puts off.

use super::super::Case;
use super::repeat;
use crate::build::{Circuit, Gate, NOTHING, Script};

pub fn cases() -> Vec<Case> {
    let mut cases = vec![main_pass(), late_pass(), by_an_inner_body(), by_a_fork(), twice(), others()];
    cases.extend([outside_before(), outside_after(), outside_by_a_fork(), outside_by_a_unit()]);
    cases.extend([inside_then_outside(), outside_then_inside(), mark_is_taken(), taken_by_a_false_pin()]);
    cases.extend([behind_a_select_inside_first(), behind_a_select_outside_first()]);
    cases.extend([two_selects(), hidden_by_an_output(), waits_already(), read_before_publishing()]);
    cases.extend([outputs_are_not(), a_loop()]);
    cases.extend(full());
    cases
}

/// A tick for the first checks, one in which Clocks fire, and one after it.
fn played(name: &str, shows: &str, c: &Circuit) -> Case {
    let mut s = Script::new();
    s.first_checks(1, 0.0).tick(0.25).tick(0.0);
    Case::new(name, shows, c, &s)
}

/// A Var of 0, and a Loop whose one run writes 7 into it.
struct Inside {
    var: Gate,
    repeat: Gate,
    body: Gate,
}

fn inside(c: &mut Circuit) -> Inside {
    let var = c.var(0);
    let (repeat, body) = repeat(c, 1);
    let set = c.var_set(0, var, 7);
    c.put_inside(repeat, &[set]);
    c.call(body, set);
    Inside { var, repeat, body }
}

/// A Toggle driven by a value.
fn pin(c: &mut Circuit, rank: i64, by: Gate) -> Gate {
    let pin = c.toggle(rank);
    c.feed(pin.pin("Exec"), by);
    pin
}

fn main_pass() -> Case {
    let mut c = Circuit::new();
    let clock = c.clock(5, 0.25);
    let Inside { var, repeat, .. } = inside(&mut c);
    c.change_detector(9, var);
    c.edge_exec(2, var);
    pin(&mut c, 9, var);
    c.edge_exec(9, var);
    c.change_detector(2, var);
    pin(&mut c, 5, var);
    c.change_detector(5, var);
    c.call(clock, repeat);
    let shows = "Put off by rank 5: ChangeDetectors and pins of any rank, in the order raised, with an EdgeExec of rank 2 among them; one of rank 9 begins in this tick.";
    played("put-off", shows, &c).tells(&[70])
}

fn late_pass() -> Case {
    let mut c = Circuit::new();
    let world = c.world_event(5);
    let Inside { var, repeat, .. } = inside(&mut c);
    c.change_detector(9, var);
    c.change_detector(2, var);
    pin(&mut c, 9, var);
    c.call(world, repeat);
    let mut s = Script::new();
    s.first_checks(1, 0.25).tick(0.25).fire(world).tick(0.25);
    let shows = "In the late pass nothing is put off: gates begin 0, 6, 5, 7.";
    Case::new("put-off-not-late", shows, &c, &s).tells(&[70])
}

fn by_an_inner_body() -> Case {
    let mut c = Circuit::new();
    let clock = c.clock(5, 0.25);
    let (outer, in_outer) = repeat(&mut c, 2);
    let (inner, in_inner) = repeat(&mut c, 2);
    let (a, b) = (c.var(0), c.var(0));
    let set_a = c.var_set(0, a, in_inner);
    let set_b = c.var_set(0, b, in_outer);
    let inside = c.change_detector(9, b);
    c.change_detector(9, a);
    c.put_inside(outer, &[inner, set_b, inside]);
    c.put_inside(inner, &[a, set_a]);
    c.call(clock, outer);
    c.call_all(in_outer, &[inner, set_b]);
    c.call(in_inner, set_a);
    let shows = "Written in an inner body and in the outer one: both are put off, by first writes, 10 and 9, wherever the watchers lie.";
    played("put-off-by-an-inner-body", shows, &c).tells(&[70])
}

fn by_a_fork() -> Case {
    let mut c = Circuit::new();
    let clock = c.clock(5, 0.25);
    let Inside { var, repeat, .. } = inside(&mut c);
    c.change_detector(9, var);
    pin(&mut c, 2, var);
    c.remote(clock, repeat);
    let shows = "Written by a Loop that a fork entered, so inside: put off.";
    played("put-off-by-a-forked-loop", shows, &c).tells(&[69])
}

fn twice() -> Case {
    let mut c = Circuit::new();
    let clocks = [5, 6].map(|rank| c.clock(rank, 0.25));
    let var = c.var(0);
    let (repeat, body) = repeat(&mut c, 1);
    let count = c.cycle(0, 100);
    let set = c.var_set(0, var, count);
    c.put_inside(repeat, &[count, set]);
    c.change_detector(9, var);
    for clock in clocks {
        c.call(clock, repeat);
    }
    c.call_all(body, &[count, set]);
    let shows = "Two units of a main pass put off one ChangeDetector: it is carried twice, and begins twice.";
    played("put-off-twice", shows, &c).tells(&[70])
}

fn others() -> Case {
    let mut c = Circuit::new();
    let clock = c.clock(5, 0.25);
    let Inside { var, repeat, .. } = inside(&mut c);
    let pulse = c.edge(var);
    c.change(var);
    c.buffer_ticks(var, 1, NOTHING);
    c.edge_exec(9, var);
    c.change_detector(9, pulse);
    c.call(clock, repeat);
    let shows = "Not put off: the pulses of Edge and Change and who watches them, what a buffer launches, an EdgeExec.";
    played("put-off-not-others", shows, &c).tells(&[70])
}

/// What watches a Var: of rank 9, of rank 2, and a pin of rank 9.
fn watched(c: &mut Circuit, var: Gate) {
    c.change_detector(9, var);
    c.change_detector(2, var);
    pin(c, 9, var);
}

fn outside_before() -> Case {
    let mut c = Circuit::new();
    let clock = c.clock(5, 0.25);
    let Inside { var, repeat, .. } = inside(&mut c);
    let set = c.var_set(0, var, 3);
    watched(&mut c, var);
    c.call_all(clock, &[set, repeat]);
    let shows = "Written outside and then inside by one chain: not put off.";
    played("put-off-not-outside-before", shows, &c).tells(&[69])
}

fn outside_after() -> Case {
    let mut c = Circuit::new();
    let clock = c.clock(5, 0.25);
    let Inside { var, repeat, .. } = inside(&mut c);
    let set = c.var_set(0, var, 3);
    watched(&mut c, var);
    c.call_all(clock, &[repeat, set]);
    let shows = "Written inside and then outside by one chain: not put off.";
    played("put-off-not-outside-after", shows, &c).tells(&[69])
}

fn outside_by_a_fork() -> Case {
    let mut c = Circuit::new();
    let clock = c.clock(5, 0.25);
    let Inside { var, repeat, body } = inside(&mut c);
    let set = c.var_set(0, var, 3);
    c.put_inside(repeat, &[set]);
    watched(&mut c, var);
    c.call(clock, repeat);
    c.remote(body, set);
    let shows = "Written inside, and by a fork of the body, which runs outside: not put off.";
    played("put-off-not-by-a-fork", shows, &c).tells(&[66, 69])
}

/// The VarSet lies in a body that does not run.
fn outside_by_a_unit() -> Case {
    let mut c = Circuit::new();
    let clock = c.clock(5, 0.25);
    let flipped = c.toggle(0);
    let var = c.var(0);
    let (repeat, _) = repeat(&mut c, 1);
    let set = c.var_set(6, var, 7);
    c.put_inside(repeat, &[set]);
    c.feed(set.pin("Exec"), flipped);
    watched(&mut c, var);
    c.call(clock, flipped);
    let shows = "A VarSet of a body that runs as a unit of its own writes outside: not put off.";
    played("put-off-not-by-a-unit", shows, &c).tells(&[69])
}

/// Two Clocks, of which one writes inside, the other outside.
fn apart(c: &mut Circuit, ranks: [i64; 2]) {
    let clocks = ranks.map(|rank| c.clock(rank, 0.25));
    let Inside { var, repeat, .. } = inside(c);
    let set = c.var_set(0, var, 3);
    watched(c, var);
    c.call(clocks[0], repeat);
    c.call(clocks[1], set);
}

fn inside_then_outside() -> Case {
    let mut c = Circuit::new();
    apart(&mut c, [5, 6]);
    let shows =
        "Written inside by one unit and outside by the next: the first puts off, the second does not.";
    played("put-off-then-not", shows, &c).tells(&[69])
}

fn outside_then_inside() -> Case {
    let mut c = Circuit::new();
    apart(&mut c, [6, 5]);
    let shows = "Written outside by one unit and inside by the next: the second puts off.";
    played("put-off-after-not", shows, &c).tells(&[69])
}

/// A body writes 0 over 4, then 0 again; then another unit writes 5 outside.
fn mark_is_taken() -> Case {
    let mut c = Circuit::new();
    let often = c.clock(5, 0.25);
    let once = c.clock(6, 0.5);
    let var = c.var(4);
    let (repeat, body) = repeat(&mut c, 1);
    let clear = c.var_set(0, var, 0);
    let set = c.var_set(0, var, 5);
    c.put_inside(repeat, &[clear]);
    c.change_detector(9, var);
    pin(&mut c, 9, var);
    c.call(often, repeat);
    c.call(body, clear);
    c.call(once, set);
    let mut s = Script::new();
    s.first_checks(1, 0.0).ticks(2, 0.25);
    let shows = "A pin that reads false and an input that has not changed lose their marks: what is written outside later in the tick is not put off.";
    Case::new("put-off-mark-taken", shows, &c, &s).tells(&[71])
}

/// A body writes 0 over 4; then another unit of the tick writes 5 outside.
fn taken_by_a_false_pin() -> Case {
    let mut c = Circuit::new();
    let clocks = [5, 6].map(|rank| c.clock(rank, 0.25));
    let var = c.var(4);
    let (repeat, body) = repeat(&mut c, 1);
    let clear = c.var_set(0, var, 0);
    let set = c.var_set(0, var, 5);
    c.put_inside(repeat, &[clear]);
    c.change_detector(9, var);
    pin(&mut c, 9, var);
    c.call(clocks[0], repeat);
    c.call(body, clear);
    c.call(clocks[1], set);
    let shows = "A pin that reads false loses its mark: written outside in the same tick it is not put off.";
    played("put-off-false-pin", shows, &c).tells(&[71])
}

/// A Select over `a`, written inside, and `b`, written outside, and its watcher;
/// then a watcher of `b` itself.
fn behind_a_select(c: &mut Circuit) -> [Gate; 3] {
    let clock = c.clock(5, 0.25);
    let Inside { var: a, repeat, .. } = inside(c);
    let b = c.var(0);
    let set_b = c.var_set(0, b, 8);
    let both = c.select(a, 1, b);
    c.change_detector(9, both);
    c.change_detector(9, b);
    [clock, repeat, set_b]
}

fn behind_a_select_inside_first() -> Case {
    let mut c = Circuit::new();
    let [clock, repeat, set_b] = behind_a_select(&mut c);
    c.call_all(clock, &[repeat, set_b]);
    let shows = "Two Vars behind one Select, the one written inside first: its watcher is put off.";
    played("put-off-inside-first", shows, &c).tells(&[72])
}

fn behind_a_select_outside_first() -> Case {
    let mut c = Circuit::new();
    let [clock, repeat, set_b] = behind_a_select(&mut c);
    c.call_all(clock, &[set_b, repeat]);
    let shows = "Two Vars behind one Select, the one written outside first: its watcher is not put off.";
    played("put-off-outside-first", shows, &c).tells(&[72])
}

/// The Var reaches one watcher through two Selects and another through one.
fn two_selects() -> Case {
    let mut c = Circuit::new();
    let clock = c.clock(5, 0.25);
    let Inside { var, repeat, .. } = inside(&mut c);
    let near = c.select(var, 1, var);
    let far = c.select(true, 2, near);
    c.change_detector(9, far);
    pin(&mut c, 9, near);
    c.call(clock, repeat);
    let shows = "Through pure gates, one behind the other, watchers are put off as well.";
    played("put-off-through-selects", shows, &c).tells(&[72])
}

/// A Select over a Toggle's output and a Var, watched.
fn under_an_output(c: &mut Circuit) -> ([Gate; 3], Gate) {
    let clock = c.clock(5, 0.25);
    let flipped = c.toggle(0);
    let Inside { var, repeat, .. } = inside(c);
    let either = c.select(flipped, var, var);
    c.change_detector(9, either);
    ([clock, flipped, repeat], either)
}

fn hidden_by_an_output() -> Case {
    let mut c = Circuit::new();
    let ([clock, flipped, repeat], _) = under_an_output(&mut c);
    c.call_all(clock, &[flipped, repeat]);
    let shows = "A Select that an output made stale hides the Var: its watcher is not put off.";
    played("put-off-hidden", shows, &c).tells(&[72])
}

fn waits_already() -> Case {
    let mut c = Circuit::new();
    let ([clock, flipped, repeat], either) = under_an_output(&mut c);
    let seen = c.var(NOTHING);
    let look = c.var_set(0, seen, either);
    c.call_all(clock, &[flipped, look, repeat]);
    let shows = "The same with the Select read in between: its watcher waits already, and is put off.";
    played("put-off-where-it-waits", shows, &c).tells(&[72])
}

/// The Select is fresh again when the write is published, though the body read
/// it after the write.
fn read_before_publishing() -> Case {
    let mut c = Circuit::new();
    let ([clock, flipped, repeat], either) = under_an_output(&mut c);
    let seen = c.var(NOTHING);
    let look = c.var_set(0, seen, either);
    c.call_all(clock, &[flipped, repeat, look]);
    let shows = "Read after the write it shows 7 at once; it is made stale again, and its watcher put off.";
    played("put-off-read-before", shows, &c).tells(&[72])
}

/// Watchers of Index, of a VarGet's Value in the body and of the Loop.
fn outputs_are_not() -> Case {
    let mut c = Circuit::new();
    let clock = c.clock(5, 0.25);
    let var = c.var(3);
    let (repeat, body) = repeat(&mut c, 2);
    let get = c.var_get(0, var);
    c.put_inside(repeat, &[get]);
    for of in [body, get, repeat] {
        c.change_detector(9, of);
        c.change_detector(2, of);
    }
    c.call(clock, repeat);
    c.call(body, get);
    let shows = "What a body shows on outputs is not put off: rank 9 begins in this tick, rank 2 is carried.";
    played("put-off-not-outputs", shows, &c).tells(&[69])
}

/// The pin of a Loop is put off; what its body writes in the late pass is not.
fn a_loop() -> Case {
    let mut c = Circuit::new();
    let clock = c.clock(5, 0.25);
    let Inside { var, repeat, .. } = inside(&mut c);
    let Inside { var: second, repeat: driven, .. } = inside(&mut c);
    c.feed(driven.pin("Exec"), var);
    c.change_detector(9, second);
    c.call(clock, repeat);
    let shows = "A Loop whose pin is put off runs in the next late pass, and its writes are not put off.";
    played("put-off-loop", shows, &c).tells(&[70])
}

/// Five Clocks flip a Toggle with 51 watchers of ranks 1 to 5: 255 are carried.
/// The last one also enters a Loop, which puts off as many more as watch, and at
/// last a buffer of 0.1 seconds reads the Var.
fn full() -> Vec<Case> {
    type Watch = fn(&mut Circuit, Gate) -> Gate;
    let by_change: Watch = |c, var| c.change_detector(9, var);
    let by_pin: Watch = |c, var| pin(c, 9, var);
    let by_rank: Watch = |c, var| c.edge_exec(3, var);
    let rows: [(&str, &str, &[Watch]); 6] = [
        ("put-off-256", "255 carried by rank and one put off: passes.", &[by_change]),
        ("put-off-256-by-a-pin", "255 carried by rank and a pin put off: passes.", &[by_pin]),
        ("put-off-257", "255 carried by rank and two put off: stops with 12.", &[by_pin, by_change]),
        (
            "put-off-257-by-a-pin",
            "255 carried by rank and two put off, the last a pin: stops with 12.",
            &[by_change, by_pin],
        ),
        (
            "put-off-257-by-rank",
            "255 carried by rank, one put off and one more by rank: stops with 12.",
            &[by_change, by_rank],
        ),
        (
            "put-off-257-behind-rank",
            "256 carried by rank and one put off: stops with 12.",
            &[by_rank, by_change],
        ),
    ];
    rows.map(|(name, shows, watch)| {
        let mut c = Circuit::new();
        let clocks = [0; 5].map(|_| c.clock(5, 0.25));
        let flipped = c.toggle(0);
        for k in 0..51 {
            c.change_detector(1 + k % 5, flipped);
        }
        let Inside { var, repeat, .. } = inside(&mut c);
        for watch in watch {
            watch(&mut c, var);
        }
        c.buffer_seconds(var, 0.1, NOTHING);
        for clock in clocks {
            c.call(clock, flipped);
        }
        c.call(clocks[4], repeat);
        let mut s = Script::new();
        s.first_checks(1, 0.0).tick(0.25);
        Case::new(name, shows, &c, &s).tells(&[73])
    })
    .to_vec()
}
