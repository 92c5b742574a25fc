//! Every kind and every pin: one circuit for each kind, in which a World
//! event of its own feeds each input, drives each exec pin and calls it.

use super::Case;
use crate::build::*;

pub fn cases() -> Vec<Case> {
    let mut cases: Vec<Case> = (SELECT..=WORLD_EVENT).map(every_pin).collect();
    cases.extend((LOOP..=BREAK).map(every_pin_of_loops));
    cases.extend((SEND_EVENT..=SEND_EVENT_GLOBAL).map(eight_values));
    cases.push(queue_values());
    cases
}

fn every_pin(kind: i64) -> Case {
    let mut c = Circuit::new();
    let var = c.var(3);
    let gate = c.gate(kind, 5);
    let mut worlds = Vec::new();
    for (k, pin) in inputs_of(kind).into_iter().enumerate() {
        let pin_number = Input(gate.first_input + k as i64);
        match pin.split(':').next() {
            Some("S") => c.feed(pin_number, setting(kind, pin, var)),
            Some("E") => worlds.extend(enter(&mut c, kind, pin_number)),
            _ => worlds.push(feed(&mut c, pin_number)),
        }
    }
    worlds.extend(partner(&mut c, kind));
    follow(&mut c, gate);
    if kind == REROUTE {
        let world = c.world_event(1);
        c.call(world, gate);
        worlds.push(world);
    }
    let s = script(&mut c, &worlds);
    let name = format!("kind-{kind:02}-{}", kind_name(kind).to_lowercase());
    Case::new(name, format!("Kind {kind}, {}: every pin.", kind_name(kind)), &c, &s)
}

/// A Loop with its entry and a Break in its body, and followed the one of them
/// that is of this kind.
fn every_pin_of_loops(kind: i64) -> Case {
    let mut c = Circuit::new();
    let repeat = c.repeat(5, NOTHING, NOTHING, NOTHING);
    let body = c.body(repeat);
    let inside = c.cycle(0, 3);
    let enough = c.break_out(5);
    let more = c.branch(0, inside);
    let mut worlds = enter(&mut c, LOOP, repeat.entry());
    worlds.extend(["Count", "FirstIndex", "Step"].map(|pin| feed(&mut c, repeat.pin(pin))));
    c.chain(&[body, inside, more]);
    if kind == BREAK {
        c.call(more.out("ExecOutB"), enough);
        worlds.push(feed(&mut c, enough.entry()));
    }
    let first = c.gates.len();
    let followed = [repeat, body, enough][(kind - LOOP) as usize];
    follow(&mut c, followed);
    let mut gates = vec![inside, more, enough];
    if kind != LOOP {
        gates.extend((first..c.gates.len()).map(|n| Gate { number: n as i64, ..inside }));
    }
    c.put_inside(repeat, &gates);
    let s = script(&mut c, &worlds);
    let name = format!("kind-{kind:02}-{}", kind_name(kind).to_lowercase());
    Case::new(name, format!("Kind {kind}, {}: every pin.", kind_name(kind)), &c, &s)
}

/// What a setting is given.
fn setting(kind: i64, pin: &str, var: Gate) -> Feed {
    match (kind, pin) {
        (_, "S:initial") => 4.5.into(),
        (_, "S:variable") => var.number.into(),
        (_, "S:channel") => 17.into(),
        (BUFFER_TICKS | BUFFER_TICKS_EXEC, "S:wait") => 3.into(),
        (BUFFER_TICKS | BUFFER_TICKS_EXEC, _) => 2.into(),
        (CLOCK, _) => 0.75.into(),
        (_, "S:wait") => 0.6.into(),
        _ => 0.3.into(),
    }
}

/// A World event that calls the pin and, where it may, one that drives it.
fn enter(c: &mut Circuit, kind: i64, pin: Input) -> Vec<Gate> {
    let caller = c.world_event(4);
    c.call(caller, pin);
    if matches!(kind, BUFFER_TICKS_EXEC | BUFFER_SECONDS_EXEC) {
        return vec![caller];
    }
    vec![caller, feed(c, pin)]
}

fn feed(c: &mut Circuit, pin: Input) -> Gate {
    let world = c.world_event(3);
    c.feed(pin, world);
    world
}

/// The gate that a send needs to be heard, or an event to be sent.
fn partner(c: &mut Circuit, kind: i64) -> Option<Gate> {
    let other = match kind {
        SEND_EVENT | SEND_EVENT_GLOBAL => kind + 2,
        EVENT_CUSTOM | EVENT_CUSTOM_GLOBAL => kind - 2,
        _ => return None,
    };
    let gate = c.gate(other, 6);
    c.feed(gate.pin("channel"), 17);
    if kind == SEND_EVENT || kind == SEND_EVENT_GLOBAL {
        return None;
    }
    let world = c.world_event(2);
    c.call(world, gate);
    c.feed(gate.pin("DataIn1"), world);
    c.feed(gate.pin("DataIn8"), world);
    Some(world)
}

/// A watcher on each value output, a counter behind each exec output.
fn follow(c: &mut Circuit, gate: Gate) {
    for (k, out) in outputs_of(gate.kind).into_iter().enumerate() {
        let out_number = Output(gate.first_output + k as i64);
        if is_value(out) {
            c.change_detector(7, out_number);
        }
        if may_call(out) {
            let count = c.cycle(0, 100);
            c.call(out_number, count);
        }
    }
}

/// The first checks, then each World event alone, then all together, then
/// all back to 0.
fn script(c: &mut Circuit, worlds: &[Gate]) -> Script {
    let values = [Value::Int(2), Value::Float(0.5), Value::Bool(true), Value::Int(-1)];
    let names: Vec<i64> = values.into_iter().map(|v| c.constant(v)).collect();
    let zero = c.constant(0);
    let mut s = Script::new();
    s.first_checks(3, 0.25);
    for (k, &world) in worlds.iter().enumerate() {
        s.tick(0.25).give(world, names[k % names.len()]);
    }
    s.tick(0.5);
    for (k, &world) in worlds.iter().enumerate() {
        s.give(world, names[(k + 1) % names.len()]);
    }
    s.ticks(2, 0.1);
    for &world in worlds {
        s.give(world, zero);
    }
    s.ticks(3, 0.25);
    s
}

/// A send of eight values to an event, each its own kind of value.
fn eight_values(kind: i64) -> Case {
    let mut c = Circuit::new();
    let world = c.world_event(0);
    let send = c.gate(kind, 0);
    let event = c.gate(kind + 2, 0);
    c.feed(send.pin("channel"), 0);
    c.feed(event.pin("channel"), 0);
    feed_eight(&mut c, send, world);
    c.call(world, send);
    follow(&mut c, event);
    let six = c.constant(6);
    let mut s = Script::new();
    s.tick(0.25).give(world, six).tick(0.25).fire(world).ticks(2, 0.25);
    let name = format!("eight-values-{}", kind_name(kind).to_lowercase());
    Case::new(name, "Eight values of all kinds travel together.", &c, &s)
}

fn queue_values() -> Case {
    let mut c = Circuit::new();
    let world = c.world_event(0);
    let queue = c.queue_seconds(0, NOTHING, 0.5);
    feed_eight(&mut c, queue, world);
    c.call(world, queue);
    follow(&mut c, queue);
    let six = c.constant(6);
    let mut s = Script::new();
    s.tick(0.25).give(world, six).tick(0.25).fire(world).ticks(3, 0.25);
    Case::new("eight-values-queue", "Eight values of all kinds wait together.", &c, &s)
}

fn feed_eight(c: &mut Circuit, gate: Gate, world: Gate) {
    let time = c.server_uptime();
    let feeds =
        [1.into(), 2.5.into(), true.into(), NOTHING, world.into(), false.into(), (-0.0).into(), time.into()];
    for (k, feed) in feeds.into_iter().enumerate() {
        let feed: Feed = feed;
        c.feed(gate.pin(&format!("DataIn{}", k + 1)), feed);
    }
}
