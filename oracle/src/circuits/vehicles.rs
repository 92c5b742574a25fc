//! Six vehicles of a kit, as a depot's exercise writer would build them: card
//! slots, a speed feed, delays before an activity changes, a recorder that
//! stores the activity under the driver, daily counters, driving times.
//! Activities are 0 rest, 1 available, 2 work, 3 driving.

use super::Case;
use crate::build::*;
use crate::generate::Random;

pub fn cases() -> Vec<Case> {
    vec![van(), lorry(), coach(), crane(), road_train(), tanker()]
}

/// A card slot: the event of its card, the driver, and whether a card has
/// been in it for long enough.
struct Slot {
    card: Gate,
    driver: Gate,
    present: Gate,
}

fn slot(c: &mut Circuit, rank: i64, in_ticks: i64, out_ticks: i64) -> Slot {
    let card = c.world_event(rank);
    let driver = c.var(0);
    let keep = c.var_set(rank, driver, card);
    c.call(card, keep);
    let inserted = c.select(card, false, true);
    let present = c.buffer_ticks(inserted, in_ticks, out_ticks);
    Slot { card, driver, present }
}

/// A slot whose delays are seconds.
fn slot_in_seconds(c: &mut Circuit, rank: i64, in_seconds: f64, out_seconds: f64) -> Slot {
    let card = c.world_event(rank);
    let driver = c.var(0);
    let keep = c.var_set(rank, driver, card);
    c.call(card, keep);
    let inserted = c.select(card, false, true);
    let present = c.buffer_seconds(inserted, in_seconds, out_seconds);
    Slot { card, driver, present }
}

/// The activity of a slot and the button that chooses among 0, 1 and 2.
struct Activity {
    button: Gate,
    shown: Gate,
}

fn activity(c: &mut Circuit, rank: i64, moving: Gate, slot: &Slot) -> Activity {
    let button = c.world_event(rank);
    let chosen = c.cycle(rank, 3);
    c.call(button, chosen);
    let own = c.select(moving, chosen, 3);
    let shown = c.select(slot.present, 0, own);
    Activity { button, shown }
}

/// Stores each change of activity under the driver and announces it.
fn recorder(c: &mut Circuit, rank: i64, channel: i64, slot: &Slot, activity: Gate) -> Gate {
    let changed = c.change_detector(rank, activity);
    let stored = c.var(0);
    let under = c.var(0);
    let store = c.var_set(rank, stored, activity);
    let sign = c.var_set(rank, under, slot.driver);
    let announce = c.send_event(rank, channel, under);
    c.feed(announce.pin("DataIn2"), stored);
    c.chain(&[changed, store, sign, announce]);
    announce
}

/// Counts three wheels while `on` is true, and before it shows anything: a
/// Clock whose bEnabled reads nothing is enabled. The second wheel turns when
/// the first is at 0, the third when the second is.
fn day(c: &mut Circuit, rank: i64, on: Gate, wheels: [i64; 3]) -> Gate {
    let clock = c.clock(rank, 1.0);
    c.feed(clock.pin("bEnabled"), on);
    let seconds = c.cycle(rank, wheels[0]);
    let minute = c.branch(rank, seconds);
    let minutes = c.cycle(rank, wheels[1]);
    let hour = c.branch(rank, minutes);
    let hours = c.cycle(rank, wheels[2]);
    c.chain(&[clock, seconds, minute]);
    c.call(minute.out("ExecOutB"), minutes);
    c.call(minutes, hour);
    c.call(hour.out("ExecOutB"), hours);
    hours
}

/// A Stopwatch that a rise of `driving` resumes and a fall pauses; at the
/// limit it warns and begins anew.
fn driving_time(c: &mut Circuit, rank: i64, driving: Gate, limit: impl Into<Feed>) -> Gate {
    let edge = c.edge_exec(rank, driving);
    let watch = c.stopwatch(rank, limit);
    let warning = c.toggle(rank);
    c.call(edge.out("OnRisingEdge"), watch.pin("Resume"));
    c.call(edge.out("OnFallingEdge"), watch.pin("Pause"));
    c.call(watch.out("Expired"), warning);
    c.call(warning, watch.pin("Restart"));
    watch
}

/// Prints what an event announces, a while later.
fn printer(c: &mut Circuit, rank: i64, channel: i64, seconds: f64) -> Gate {
    let event = c.event_custom(rank, channel);
    let queue = c.queue_seconds(rank, event, seconds);
    c.feed(queue.pin("DataIn2"), event.out("DataOut2"));
    let printed = c.var(NOTHING);
    let print = c.var_set(rank, printed, queue.out("DataOut2"));
    c.chain(&[event, queue, print]);
    queue
}

/// A speed feed, and whether the vehicle has been moving, or standing, for
/// some ticks.
fn speed(c: &mut Circuit, rank: i64, wait: i64, zero: i64) -> (Gate, Gate) {
    let feed = c.world_event(rank);
    let moving = c.select(feed, false, true);
    (feed, c.buffer_ticks(moving, wait, zero))
}

/// Card swaps that fall on every tick of a countdown: a card is put in, `k`
/// ticks later exchanged, for each `k` up to `countdown`; after `rest` more
/// ticks it is taken out.
fn swaps(
    s: &mut Script,
    card: Gate,
    cards: &[i64],
    countdown: usize,
    rest: usize,
    length: impl Fn(usize) -> f64,
) {
    let out = cards[0];
    for k in 0..=countdown {
        let mine = cards[1 + k % (cards.len() - 1)];
        let other = cards[1 + (k + 1) % (cards.len() - 1)];
        for t in 0..countdown + rest {
            s.tick(length(s.ticks.len()));
            if t == 0 {
                s.give(card, mine);
            }
            if t == k {
                s.give(card, out).give(card, other);
            }
            if t == countdown + rest / 2 {
                s.give(card, out);
            }
        }
    }
}

/// Adds stimuli to a script whose ticks are there: every `period` ticks from
/// `first` on the next of `constants`.
fn every(s: &Script, world: Gate, constants: &[i64], first: usize, period: usize) -> Script {
    let mut merged = Script::new();
    let mut stimuli = s.stimuli.iter();
    for (t, &(length, count)) in s.ticks.iter().enumerate() {
        merged.ticks.push((length, 0));
        for &(gate, constant) in stimuli.by_ref().take(count as usize) {
            merged.ticks[t].1 += 1;
            merged.stimuli.push((gate, constant));
        }
        if t >= first && (t - first).is_multiple_of(period) {
            merged.give(world, constants[(t - first) / period % constants.len()]);
        }
    }
    merged
}

fn van() -> Case {
    let mut c = Circuit::new();
    let (feed, moving) = speed(&mut c, 1, 4, 6);
    let slot = slot(&mut c, 0, 8, 3);
    let activity = activity(&mut c, 2, moving, &slot);
    recorder(&mut c, 5, 1, &slot, activity.shown);
    day(&mut c, 3, slot.present, [6, 4, 3]);
    driving_time(&mut c, 4, moving, 5.0);
    printer(&mut c, 6, 1, 1.0);
    let cards = [c.constant(0), c.constant(101), c.constant(102)];
    let speeds = [c.constant(52.5), c.constant(0.0), c.constant(80), c.constant(0)];
    let mut s = Script::new();
    swaps(&mut s, slot.card, &cards, 12, 28, |_| 0.25);
    let s = every(&s, feed, &speeds, 3, 17);
    let s = every(&s, activity.button, &[0], 5, 23);
    let shows = "A van: one slot, delays in ticks, a recorder, a printer, a day of short wheels; 520 ticks.";
    Case::new("vehicle-van", shows, &c, &s).log(1 << 20)
}

fn lorry() -> Case {
    let mut c = Circuit::new();
    let (feed, moving) = speed(&mut c, 9, 5, 10);
    let first = slot(&mut c, 7, 12, 4);
    let second = slot(&mut c, 8, 10, 0);
    let own = activity(&mut c, 6, moving, &first);
    let mate = activity(&mut c, 6, moving, &second);
    recorder(&mut c, 4, 1, &first, own.shown);
    recorder(&mut c, 3, 2, &second, mate.shown);
    day(&mut c, 2, first.present, [5, 5, 24]);
    driving_time(&mut c, 5, own.shown, 7.5);
    printer(&mut c, 1, 1, 0.5);
    let heard = c.event_custom(1, 2);
    let changes = c.cycle(1, 1000);
    c.call(heard, changes);
    let cards = [c.constant(0), c.constant(201), c.constant(202), c.constant(203)];
    let speeds = [c.constant(30), c.constant(0), c.constant(62.5), c.constant(false)];
    let mut s = Script::new();
    swaps(&mut s, first.card, &cards, 24, 16, |t| if t % 3 == 0 { 0.5 } else { 0.25 });
    swaps(&mut s, second.card, &cards, 24, 16, |_| 0.25);
    let s = every(&s, feed, &speeds, 11, 29);
    let s = every(&s, own.button, &[0], 2, 31);
    let s = every(&s, mate.button, &[0], 7, 37);
    let shows = "A lorry: two slots with a recorder each, ranks against the flow; 2,000 ticks.";
    Case::new("vehicle-lorry", shows, &c, &s).log(1 << 22)
}

fn coach() -> Case {
    let mut c = Circuit::new();
    let feed = c.world_event(2);
    let driven = c.select(feed, 0, 1);
    let moving = c.buffer_seconds(driven, 1.0, 2.0 / 3.0);
    let slot = slot_in_seconds(&mut c, 0, 0.7, 0.1);
    let activity = activity(&mut c, 3, moving, &slot);
    recorder(&mut c, 5, 200, &slot, activity.shown);
    day(&mut c, 4, moving, [7, 3, 2]);
    let delta = c.delta_time();
    let uptime = c.server_uptime();
    let rest = c.select(moving, uptime, delta);
    driving_time(&mut c, 1, moving, 4.1);
    printer(&mut c, 6, 200, 0.3);
    let doors = c.edge(moving);
    let bell = c.buffer_seconds_exec(7, 0.2);
    let ring = c.toggle(7);
    c.feed(ring.pin("Exec"), doors.out("bPulseOnFallingEdge"));
    c.call(ring, bell);
    let kept = c.var(NOTHING);
    let keep = c.var_set(7, kept, rest);
    c.call(bell, keep);
    let cards = [c.constant(0), c.constant(301), c.constant(302)];
    let speeds = [c.constant(44.4), c.constant(-0.0), c.constant(1e-300), c.constant(0)];
    let lengths = [0.1, 0.1, 1.0 / 3.0, 0.04, 0.1, 0.1, 0.0, 0.016666666666666666];
    let mut s = Script::new();
    for _ in 0..5 {
        swaps(&mut s, slot.card, &cards, 20, 28, |t| lengths[t % lengths.len()]);
    }
    let s = every(&s, feed, &speeds, 4, 41);
    let s = every(&s, activity.button, &[0], 9, 19);
    let shows = "A coach: delays in seconds under ticks of 0.1, 1/3, 0.04, 0 and 1/60; 5,040 ticks.";
    Case::new("vehicle-coach", shows, &c, &s).log(1 << 23)
}

fn crane() -> Case {
    let mut c = Circuit::new();
    let (feed, moving) = speed(&mut c, 3, 2, 2);
    let slot = slot(&mut c, 3, 6, 6);
    let boom = c.world_event(3);
    let up = c.edge(boom);
    let down = up.out("bPulseOnFallingEdge");
    let lifts = c.cycle(2, 10);
    c.feed(lifts.pin("Exec"), up);
    c.feed(lifts.pin("ExecDown"), down);
    let driving = c.select(moving, 1, 3);
    let working = c.select(boom, driving, 2);
    let shown = c.select(slot.present, 0, working);
    recorder(&mut c, 1, 9, &slot, shown);
    let fast = c.select(boom, 1.0, 0.25);
    let clock = c.clock(3, 2.0);
    c.feed(clock.pin("IntervalSeconds"), fast);
    let strokes = c.cycle(3, 100);
    c.call(clock, strokes);
    let watch = c.stopwatch(2, fast);
    c.feed(watch.pin("Restart"), up);
    c.feed(watch.pin("Pause"), down);
    c.feed(watch.pin("Resume"), moving);
    let over = c.union(2);
    let alarm = c.toggle(2);
    c.call(watch.out("Expired"), over);
    c.call(clock, over);
    c.call(over, alarm);
    let beat = c.change(alarm);
    c.change_detector(3, beat);
    printer(&mut c, 1, 9, 0.75);
    let cards = [c.constant(0), c.constant(401), c.constant(402)];
    let booms = [c.constant(1), c.constant(2), c.constant(0), c.constant(1.5), c.constant(false)];
    let speeds = [c.constant(5), c.constant(0)];
    let mut s = Script::new();
    for _ in 0..4 {
        swaps(&mut s, slot.card, &cards, 14, 36, |t| [0.25, 0.125, 0.5][t % 3]);
    }
    let s = every(&s, boom, &booms, 1, 7);
    let s = every(&s, feed, &speeds, 2, 13);
    let shows =
        "A crane: a Stopwatch and a Cycle driven by pulses, an interval that changes, a Union; 3,000 ticks.";
    Case::new("vehicle-crane", shows, &c, &s).log(1 << 23)
}

fn road_train() -> Case {
    let mut c = Circuit::new();
    let (feed, moving) = speed(&mut c, 2, 3, 5);
    let first = slot(&mut c, 0, 9, 2);
    let second = slot_in_seconds(&mut c, 0, 2.0, 1.0);
    let own = activity(&mut c, 4, moving, &first);
    let mate = activity(&mut c, 4, moving, &second);
    let told = recorder(&mut c, 6, 1, &first, own.shown);
    recorder(&mut c, 5, 1, &second, mate.shown);
    day(&mut c, 3, first.present, [4, 3, 2]);
    driving_time(&mut c, 3, moving, 6.0);
    printer(&mut c, 7, 1, 0.5);
    let signal = c.send_global(6, 1, first.driver);
    c.remote(told, signal);
    let trailer = c.event_global(8, 1);
    let coupled = c.queue_ticks(8, trailer, 3);
    let brake = c.toggle(8);
    let lamp = c.buffer_ticks_exec(8, 2);
    let flash = c.toggle(9);
    c.remote(trailer, coupled);
    c.call(trailer, brake);
    c.remote(brake, lamp);
    c.call(coupled, lamp);
    c.call(lamp, flash);
    let seen = c.var_get(9, first.driver);
    c.call(flash, seen);
    let cards = [c.constant(0), c.constant(501), c.constant(502), c.constant(503)];
    let speeds = [c.constant(60), c.constant(0), c.constant(true), c.constant(0.0)];
    let mut s = Script::new();
    for round in 0..6 {
        swaps(&mut s, first.card, &cards, 18, 22 + round, |_| 0.25);
        swaps(&mut s, second.card, &cards, 18, 22 + round, |t| if t % 5 == 0 { 0.0 } else { 0.3 });
    }
    let s = every(&s, feed, &speeds, 6, 33);
    let s = every(&s, own.button, &[0], 1, 27);
    let s = every(&s, mate.button, &[0], 3, 25);
    let shows = "A road train: tractor and trailer joined by remote calls and global events, two Queues; 9,690 ticks.";
    Case::new("vehicle-road-train", shows, &c, &s).log(1 << 25).delays(2 * 65_536)
}

fn tanker() -> Case {
    let mut c = Circuit::new();
    let (feed, moving) = speed(&mut c, 5, 4, 4);
    let slots: Vec<Slot> = (0..2).map(|k| slot(&mut c, k, 5 + 3 * k, 2)).collect();
    let shown: Vec<Activity> = slots.iter().map(|slot| activity(&mut c, 6, moving, slot)).collect();
    for (k, slot) in slots.iter().enumerate() {
        recorder(&mut c, 8 - 2 * k as i64, k as i64, slot, shown[k].shown);
    }
    day(&mut c, 4, moving, [10, 6, 24]);
    day(&mut c, 3, slots[0].present, [8, 5, 7]);
    driving_time(&mut c, 7, shown[0].shown, 9.0);
    driving_time(&mut c, 7, shown[1].shown, 6.5);
    printer(&mut c, 9, 0, 1.5);
    let valve = c.world_event(9);
    let open = c.buffer_ticks(valve, 5, 1);
    let flow = c.select(open, 0, valve);
    let changed = c.edge_exec(2, flow);
    let filled = c.var(0);
    let fill = c.var_set(2, filled, flow);
    c.call(changed, fill);
    c.call(changed.out("OnFallingEdge"), fill);
    let alarm = c.change_detector(10, filled);
    let lamp = c.toggle(10);
    c.call(alarm, lamp);
    let heard = c.event_custom(10, 1);
    c.call(heard, lamp);
    let cards = [c.constant(0), c.constant(601), c.constant(602), c.constant(603)];
    let speeds = [c.constant(0), c.constant(20), c.constant(85.5)];
    let flows = [c.constant(0), c.constant(1), c.constant(2), c.constant(false)];
    let mut r = Random::new(2026);
    let mut s = Script::new();
    for _ in 0..20_000 {
        s.tick([0.25, 0.25, 0.1, 0.5][r.below(4)]);
        let stimuli: [(Gate, &[i64], usize); 6] = [
            (slots[0].card, &cards, 9),
            (slots[1].card, &cards, 11),
            (feed, &speeds, 14),
            (valve, &flows, 8),
            (shown[0].button, &[0], 40),
            (shown[1].button, &[0], 50),
        ];
        for (world, names, one_in) in stimuli {
            if r.below(one_in) == 0 {
                s.give(world, names[r.below(names.len())]);
            }
        }
    }
    let shows = "A tanker of 64 gates: two slots whose cards are swapped at random, some 4,000 times; 20,000 ticks.";
    Case::new("vehicle-tanker", shows, &c, &s).log(1 << 26)
}
