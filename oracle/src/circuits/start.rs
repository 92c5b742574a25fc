//! What is in place at the start is noticed in tick 1 (document 02, K2).

use super::Case;
use crate::build::*;

pub fn cases() -> Vec<Case> {
    let mut cases: Vec<Case> = WATCHED.into_iter().map(watched).collect();
    cases.extend(DRIVEN.into_iter().map(driven));
    cases.extend([
        ascending(),
        keeps_its_place(),
        two_pins(),
        main_pass(),
        second_first(),
        var_set_late(),
        clocks_first(),
        this_ticks_time(),
        no_length(),
        pulses_and_watchers(),
        buffer_in_flight(),
        buffer_zero_wait(),
        lands_nothing(),
    ]);
    cases.extend([carries(), sends(), pending_256(), pending_257()]);
    cases.extend([no_ticks(), card_in_the_slot(), card_swapped()]);
    cases
}

/// The kinds whose Input is watched, and what a first reading does.
const WATCHED: [(i64, &str, &str); 6] = [
    (
        CHANGE_DETECTOR,
        "start-change-detector",
        "A ChangeDetector fires in tick 1 whatever it reads, nothing too.",
    ),
    (EDGE, "start-edge", "An Edge pulses where its first reading is above or below 0.0: nothing is neither."),
    (
        CHANGE,
        "start-change",
        "A Change pulses in tick 1 whatever it reads: true in records 1 and 2, false in 3.",
    ),
    (EDGE_EXEC, "start-edge-exec", "An EdgeExec fires where its first reading is above or below 0.0."),
    (
        BUFFER_TICKS,
        "start-buffer-ticks",
        "A BufferTicks launches in tick 1 what it reads, nothing too; a wait of 2 is over in tick 3.",
    ),
    (
        BUFFER_SECONDS,
        "start-buffer-seconds",
        "A BufferSeconds launches in tick 1 what it reads, nothing too; a wait of 0.5 is over in tick 3.",
    ),
];

/// A gate of this kind for each thing that its Input may read at the start.
fn watched((kind, name, shows): (i64, &str, &str)) -> Case {
    let mut c = Circuit::new();
    let world = c.world_event(0);
    let card = c.var(7);
    let empty = c.var(NOTHING);
    let through = c.reroute(card);
    let feeds = [
        NOTHING,
        world.into(),
        empty.into(),
        5.into(),
        0.into(),
        (-5).into(),
        true.into(),
        false.into(),
        1.5.into(),
        (-0.0).into(),
        (-1.5).into(),
        card.into(),
        through.into(),
    ];
    for feed in feeds {
        let gate = c.gate(kind, 3);
        c.feed(gate.pin("Input"), feed);
        match kind {
            BUFFER_TICKS => c.feed(gate.pin("wait"), 2),
            BUFFER_SECONDS => c.feed(gate.pin("wait"), 0.5),
            _ => {}
        }
    }
    let mut s = Script::new();
    s.ticks(4, 0.25);
    Case::new(name, shows, &c, &s).tells(&[48])
}

/// What a Var that drives every pin holds.
const DRIVEN: [(Option<bool>, &str, &str); 3] = [
    (Some(true), "start-pins-true", "Every exec pin that reads true at the start is raised in tick 1."),
    (Some(false), "start-pins-false", "An exec pin that reads false at the start is not raised."),
    (None, "start-pins-nothing", "An exec pin that reads nothing at the start is not raised."),
];

/// Every pin driven by one Var.
fn driven((value, name, shows): (Option<bool>, &str, &str)) -> Case {
    let mut c = Circuit::new();
    let slot = c.var(value.map_or(NOTHING, Feed::from));
    let kept = c.var(4);
    drive_every_pin(&mut c, slot, kept, |_| 3);
    let mut s = Script::new();
    s.ticks(2, 0.25);
    Case::new(name, shows, &c, &s).tells(&[48]).delays(2 << 16)
}

/// A gate of each kind with exec pins, each pin driven by `by`, of the rank
/// that goes with the gate's number. `kept` is the Var that they name.
pub(super) fn drive_every_pin(c: &mut Circuit, by: Gate, kept: Gate, rank: impl Fn(i64) -> i64) {
    for kind in [STOPWATCH, QUEUE_TICKS, QUEUE_SECONDS, VAR_GET, VAR_SET, BRANCH, UNION, TOGGLE, CYCLE]
        .into_iter()
        .chain([SEND_EVENT, SEND_EVENT_GLOBAL])
    {
        let gate = c.gate(kind, rank(c.gates.len() as i64));
        for (k, pin) in inputs_of(kind).into_iter().enumerate() {
            let number = Input(gate.first_input + k as i64);
            match pin {
                "S:variable" => c.feed(number, kept.number),
                "S:channel" => c.feed(number, 0),
                "Value" => c.feed(number, 8),
                _ if pin.starts_with("E:") => c.feed(number, by),
                _ => {}
            }
        }
    }
}

fn ascending() -> Case {
    let mut c = Circuit::new();
    let one = c.var(1);
    let two = c.var(2);
    let through = c.reroute(one);
    c.change_detector(1, two);
    c.change_detector(1, NOTHING);
    c.change_detector(1, through);
    c.edge_exec(1, 5);
    let pin = c.toggle(1);
    c.feed(pin.pin("Exec"), one);
    c.change_detector(0, one);
    let mut s = Script::new();
    s.ticks(2, 0.25);
    let shows =
        "First checks go by gate, inputs without a source in their place: in one rank 3, 4, 5, 6, 7 begin.";
    Case::new("start-ascending", shows, &c, &s).tells(&[48])
}

fn keeps_its_place() -> Case {
    let mut c = Circuit::new();
    let card = c.var(7);
    let first = c.change(card);
    let both = c.change_detector(1, NOTHING);
    let one = c.change_detector(1, NOTHING);
    let second = c.change(card);
    let select = c.select(second, first, 9);
    c.feed(both.pin("Input"), select);
    c.feed(one.pin("Input"), second);
    let mut s = Script::new();
    s.ticks(2, 0.25);
    let shows =
        "An input that is marked before its first check waits once: 2, 3, then 3, 2 for the second pulse.";
    Case::new("start-keeps-its-place", shows, &c, &s).tells(&[5, 48])
}

fn two_pins() -> Case {
    let mut c = Circuit::new();
    let slot = c.var(true);
    let count = c.cycle(1, 3);
    c.feed(count.pin("Exec"), slot);
    c.feed(count.pin("ExecDown"), slot);
    let watch = c.stopwatch(1, NOTHING);
    for pin in ["Restart", "Pause", "Resume"] {
        c.feed(watch.pin(pin), slot);
    }
    let mut s = Script::new();
    s.ticks(3, 0.25);
    let shows = "Two pins of one gate are two inputs, checked by their number: a Cycle goes up, then down.";
    Case::new("start-two-pins", shows, &c, &s).tells(&[48])
}

fn main_pass() -> Case {
    let mut c = Circuit::new();
    let world = c.world_event(9);
    let card = c.var(7);
    c.change_detector(0, card);
    let mut s = Script::new();
    s.tick(0.25).fire(world).tick(0.25);
    let shows =
        "What a first check raises waits for the main pass, whatever its rank: 0 begins late, then 2.";
    Case::new("start-main-pass", shows, &c, &s).tells(&[49])
}

fn second_first() -> Case {
    let mut c = Circuit::new();
    let world = c.world_event(0);
    c.change_detector(5, world);
    let seven = c.constant(7);
    let mut s = Script::new();
    s.tick(0.25).give(world, seven).tick(0.25);
    let shows = "A card put in during tick 1: nothing is read as it opens, the card in the late pass, whose unit begins first.";
    Case::new("start-second-first", shows, &c, &s).tells(&[49])
}

fn var_set_late() -> Case {
    let mut c = Circuit::new();
    let world = c.world_event(0);
    let same = c.var(1);
    let other = c.var(1);
    let set_same = c.var_set(0, same, 1);
    let set_other = c.var_set(0, other, 2);
    c.change_detector(1, same);
    c.change_detector(1, other);
    c.chain(&[world, set_same, set_other]);
    let mut s = Script::new();
    s.tick(0.25).fire(world).tick(0.25);
    let shows = "A Var written in tick 1's late pass is checked again: 6 begins late and in the main pass, 5 only there.";
    Case::new("start-var-set-late", shows, &c, &s).tells(&[49])
}

fn clocks_first() -> Case {
    let mut c = Circuit::new();
    let card = c.var(7);
    c.change_detector(1, card);
    c.clock(1, 0.25);
    c.change_detector(1, NOTHING);
    let mut s = Script::new();
    s.ticks(2, 0.25);
    let shows = "In one rank of tick 1 Clocks come before what first checks raise: 2, 1, 3.";
    Case::new("start-clocks-first", shows, &c, &s).tells(&[49])
}

/// Watchers of the tick's length and of the uptime.
fn of_time(name: &str, shows: &str, length: f64) -> Case {
    let mut c = Circuit::new();
    let delta = c.delta_time();
    let uptime = c.server_uptime();
    c.edge_exec(1, delta);
    c.edge(uptime);
    c.buffer_ticks(delta, 1, NOTHING);
    let pin = c.toggle(2);
    c.feed(pin.pin("Exec"), delta);
    let mut s = Script::new();
    s.ticks(3, length);
    Case::new(name, shows, &c, &s).tells(&[49])
}

fn this_ticks_time() -> Case {
    let shows = "The first reading of DeltaTime and ServerUptime is tick 1's, not 0.0.";
    of_time("start-this-ticks-time", shows, 0.25)
}

fn no_length() -> Case {
    let shows = "With ticks of no length DeltaTime is 0.0 at its first reading: no edge, no pin, and 0.0 is launched.";
    of_time("start-no-length", shows, 0.0)
}

fn pulses_and_watchers() -> Case {
    let mut c = Circuit::new();
    let before = c.change_detector(1, NOTHING);
    let card = c.var(7);
    let change = c.change(card);
    c.feed(before.pin("Input"), change);
    c.change_detector(1, change);
    let mut s = Script::new();
    s.ticks(4, 0.25);
    let shows =
        "A watcher before a Change is checked before its pulse and after it: 0, 3, 0; both again in tick 3.";
    Case::new("start-pulses-and-watchers", shows, &c, &s).tells(&[12, 48])
}

/// Buffers that read nothing as tick 1 opens, and 5 in its late pass.
fn launched(name: &str, shows: &str, zero_ticks: Feed, zero_seconds: Feed) -> Case {
    let mut c = Circuit::new();
    let world = c.world_event(0);
    c.buffer_ticks(world, 3, zero_ticks);
    c.buffer_seconds(world, 0.75, zero_seconds);
    let five = c.constant(5);
    let mut s = Script::new();
    s.tick(0.25).give(world, five).ticks(7, 0.25);
    Case::new(name, shows, &c, &s).tells(&[14, 50])
}

fn buffer_in_flight() -> Case {
    let shows =
        "A buffer that launched nothing is in flight: 5 of tick 1 is remembered, and lands in tick 7, not 4.";
    launched("start-buffer-in-flight", shows, NOTHING, NOTHING)
}

fn buffer_zero_wait() -> Case {
    let shows =
        "Nothing takes the zero wait: it lands in tick 2, and 5 of tick 1 then waits in full, until tick 5.";
    launched("start-buffer-zero-wait", shows, 1.into(), 0.0.into())
}

fn lands_nothing() -> Case {
    let mut c = Circuit::new();
    let nothing = c.buffer_ticks(NOTHING, 2, NOTHING);
    let five = c.buffer_ticks(5, 2, NOTHING);
    c.change_detector(1, nothing);
    c.change_detector(1, five);
    let mut s = Script::new();
    s.ticks(4, 0.25);
    let shows =
        "Nothing that lands where nothing is shown tells no reader: in tick 3 only the watcher of 5 begins.";
    Case::new("start-lands-nothing", shows, &c, &s).tells(&[50])
}

fn carries() -> Case {
    let mut c = Circuit::new();
    let card = c.var(7);
    let toggle = c.toggle(0);
    let noticed = c.change_detector(5, card);
    for rank in [4, 5, 6] {
        c.edge_exec(rank, toggle);
    }
    c.call(noticed, toggle);
    let mut s = Script::new();
    s.ticks(3, 0.25);
    let shows = "A unit raised by a first check raises and carries like any other: rank 6 in this tick, 4 and 5 carried.";
    Case::new("start-carries", shows, &c, &s).tells(&[49])
}

fn sends() -> Case {
    let mut c = Circuit::new();
    let card = c.var(7);
    let noticed = c.change_detector(5, card);
    let send = c.send_event(0, 3, card);
    c.event_custom(0, 3);
    c.call(noticed, send);
    let mut s = Script::new();
    s.ticks(3, 0.25);
    let shows = "An event sent for the card in the slot is delivered in tick 2.";
    Case::new("start-sends", shows, &c, &s).tells(&[49])
}

/// ChangeDetectors of what seven Edges bring about, one after the other: each
/// is checked at its first place and after each pulse, so raised eight times.
fn pending(name: &str, shows: &str, watchers: usize) -> Case {
    let mut c = Circuit::new();
    let watchers: Vec<Gate> = (0..watchers).map(|_| c.change_detector(1, NOTHING)).collect();
    let edges: Vec<Gate> = (0..7).map(|_| c.edge(NOTHING)).collect();
    let mut feed: Feed = 1.into();
    let mut shown: Feed = 0.into();
    for (k, edge) in (1..).zip(edges.into_iter().rev()) {
        c.feed(edge.pin("Input"), feed);
        feed = c.reroute(edge).into();
        shown = c.select(edge, shown, k).into();
    }
    for watcher in watchers {
        c.feed(watcher.pin("Input"), shown);
    }
    let mut s = Script::new();
    s.ticks(2, 0.25);
    Case::new(name, shows, &c, &s).tells(&[33, 48])
}

fn pending_256() -> Case {
    pending("start-pending-256", "256 units raised as tick 1 opens: passes.", 32)
}

fn pending_257() -> Case {
    pending("start-pending-257", "A 257th raised as tick 1 opens: stops with 12 before any begins.", 33)
}

fn no_ticks() -> Case {
    let mut c = Circuit::new();
    let card = c.var(7);
    c.change_detector(1, card);
    Case::new("start-no-ticks", "T = 0: nothing is checked, and the log is empty.", &c, &Script::new())
        .tells(&[48])
}

/// A slot with card 7, and a recorder that notes whose card it is.
fn slot_and_recorder() -> (Circuit, Gate) {
    let mut c = Circuit::new();
    let swap = c.world_event(0);
    let slot = c.var(7);
    let driver = c.var(NOTHING);
    let insert = c.var_set(1, slot, swap);
    let recorder = c.change_detector(2, slot);
    let note = c.var_set(0, driver, slot);
    c.call(swap, insert);
    c.call(recorder, note);
    (c, swap)
}

fn card_in_the_slot() -> Case {
    let (mut c, swap) = slot_and_recorder();
    let nine = c.constant(9);
    let mut s = Script::new();
    s.ticks(3, 0.25).give(swap, nine).tick(0.25);
    let shows = "The card in the slot is noted in tick 1, the one put in its place in tick 3.";
    Case::new("card-in-the-slot", shows, &c, &s).tells(&[48])
}

fn card_swapped() -> Case {
    let (mut c, swap) = slot_and_recorder();
    let nine = c.constant(9);
    let mut s = Script::new();
    s.tick(0.25).give(swap, nine).tick(0.25);
    let shows = "A swap in tick 1: the recorder begins in the late pass and in the main pass, and both note the new card.";
    Case::new("card-swapped-in-tick-1", shows, &c, &s).tells(&[49])
}
