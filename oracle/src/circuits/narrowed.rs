//! What a tick narrows and so changes is counted in its record (document 02,
//! K9).
//!
//! Seconds that are f32s: 0.25, 0.5, 0.125. Seconds that are none: 0.1, 0.6.

use super::Case;
use super::played::doublings;
use crate::build::*;

pub fn cases() -> Vec<Case> {
    let mut cases = vec![lengths(), timed(1), timed(3), clocks_alone()];
    cases.extend([queue_floats(), queue_ints(), queue_others(), exec_waits(), value_waits()]);
    cases.extend([every_call(), chosen(), chosen_and_zero(), first_readings(), driven_queue()]);
    cases.extend([remembered(), remembered_waits(), remembered_zero_waits(), same_tick()]);
    cases.extend([dropped(), many(), in_every_part(), sums(), in_ticks()]);
    cases.extend(AT_LIMITS.into_iter().flat_map(|at_limit| [0, 1].map(at_limit)));
    cases.extend([runaway(), before_a_stop(), not_reached()]);
    cases
}

/// Each with a list that is full, then with one entry more.
const AT_LIMITS: [fn(usize) -> Case; 9] = [
    fires,
    fires_in_ticks,
    |past| delivering(past, 0.1),
    |past| delivering(past, 0.5),
    stimulus,
    by_fires,
    expired,
    in_the_opening,
    in_the_late_pass,
];

fn p(exponent: i32) -> f64 {
    2f64.powi(exponent)
}

/// Seconds that can be waits and tick lengths: f32s and others by turns.
fn seconds() -> [f64; 22] {
    [
        0.0,
        0.1,
        -0.0,
        1.0 / 3.0,
        0.5,
        1.0 + p(-24),
        1.0 + p(-23),
        1.0 + 3.0 * p(-24),
        f64::from(0.1f32),
        f64::from(0.1f32).next_up(),
        3600.0,
        3600f64.next_down(),
        p(-126),
        p(-126) + p(-150),
        p(-127),
        p(-127) + p(-150),
        p(-149),
        p(-150),
        3.0 * p(-149),
        3.0 * p(-150),
        p(-127) + p(-149),
        5e-324,
    ]
}

/// Seconds that are no tick lengths, as before.
fn large_and_negative() -> [f64; 14] {
    [
        -0.5,
        -0.1,
        16_777_218.0,
        16_777_217.0,
        p(53),
        1e300,
        p(128) - p(104),
        p(128) - p(103),
        -p(127),
        p(128),
        p(104) - p(128),
        -p(1000),
        p(104),
        p(128) - p(104) + p(80),
    ]
}

// ---- the tick length ----

fn lengths() -> Case {
    let mut c = Circuit::new();
    c.world_event(0);
    let mut s = Script::new();
    for length in seconds() {
        s.tick(length);
    }
    let shows = "A tick length that is no f32 counts, though no gate is timed: in every second record.";
    Case::new("narrowed-lengths", shows, &c, &s).tells(&[54, 55])
}

/// So many gates that count the tick length down, of waits that are f32s.
fn timed(gates: usize) -> Case {
    let mut c = Circuit::new();
    let world = c.world_event(0);
    let buffer = c.buffer_seconds_exec(1, 4096.0);
    c.call(world, buffer);
    if gates > 1 {
        let queue = c.queue_seconds(1, NOTHING, 4096.0);
        c.call(world, queue);
        c.buffer_seconds(world, 4096.0, NOTHING);
    }
    let mut s = Script::new();
    s.tick(0.25).fire(world).tick(0.1).tick(0.5).tick(0.1);
    let shows = match gates {
        1 => "The tick length counts once where one buffer counts it down, and not where it is an f32.",
        _ => "The tick length counts once where three gates count it down.",
    };
    Case::new(format!("narrowed-length-{gates}-timed"), shows, &c, &s).tells(&[55])
}

fn clocks_alone() -> Case {
    let mut c = Circuit::new();
    let clock = c.clock(1, 0.1);
    let input = c.clock(1, NOTHING);
    c.feed(input.pin("IntervalSeconds"), 0.3);
    let watch = c.stopwatch(2, 0.6);
    let delta = c.delta_time();
    let uptime = c.server_uptime();
    c.change_detector(3, delta);
    c.change_detector(3, uptime);
    c.call(clock, watch);
    let mut s = Script::new();
    s.ticks(3, 0.25).ticks(3, 0.1);
    let shows = "Clocks, Stopwatches and time sources take the length as it is: it counts once, the intervals and the limit never.";
    Case::new("narrowed-clocks", shows, &c, &s).tells(&[55, 57])
}

// ---- which numbers change ----

/// A Queue whose wait a World brings, called once a tick.
fn queue_waits(name: &str, shows: &str, waits: impl IntoIterator<Item = Value>) -> Case {
    let mut c = Circuit::new();
    let world = c.world_event(0);
    let queue = c.queue_seconds(1, NOTHING, world);
    c.call(world, queue);
    let mut s = Script::new();
    for wait in waits {
        let name = c.constant(wait);
        s.tick(0.25).give(world, name);
    }
    Case::new(name, shows, &c, &s).tells(&[54])
}

fn queue_floats() -> Case {
    let waits = seconds().into_iter().chain(large_and_negative()).map(Value::Float);
    let shows = "A Queue's wait that is no f32 counts, of either sign, too small or too large too: in every second record.";
    queue_waits("narrowed-queue-floats", shows, waits)
}

fn queue_ints() -> Case {
    let waits = [
        7,
        (1 << 24) + 1,
        1 << 24,
        (1 << 53) + 2,
        (1 << 53) + 1,
        (1 << 60) + (1 << 20),
        (1 << 62) + 1,
        i64::MAX - 1023,
        i64::MAX,
        (1 << 54) + (1 << 30) + 1,
        i64::MIN,
        -(1 << 24) - 1,
    ];
    let shows = "A Queue's wait from an Int counts where its f64 is no f32: 2^24 + 1 does, 2^53 + 1 and the largest do not.";
    queue_waits("narrowed-queue-ints", shows, waits.map(Value::Int)).tells(&[17, 54, 57])
}

fn queue_others() -> Case {
    let mut c = Circuit::new();
    let world = c.world_event(0);
    let queue = c.queue_seconds(1, world, world);
    let bare = c.queue_seconds(1, world, NOTHING);
    let stored = c.queue_seconds(1, world, 0.1);
    c.call_all(world, &[queue, bare, stored]);
    let (no, yes, tenth) = (c.constant(false), c.constant(true), c.constant(0.1));
    let mut s = Script::new();
    s.tick(0.25).fire(world);
    s.tick(0.25).give(world, yes).tick(0.25).give(world, tenth).tick(0.25).give(world, no);
    let shows =
        "A wait of nothing, true or false does not count, nor does data of 0.1; a stored wait of 0.1 does.";
    Case::new("narrowed-queue-others", shows, &c, &s).tells(&[54]).delays(3 << 16)
}

/// Waits of buffers, f32s and others by turns, and nothing.
fn waits() -> impl Iterator<Item = Feed> {
    let near_one = [-0.0, 0.1, 0.5, 1.0 + p(-24)];
    let small = [p(-149), p(-150), p(-127), p(-127) + p(-150)];
    let large = [p(128) - p(104), p(128) - p(103), p(53), 16_777_217.0];
    [near_one, small, large].into_iter().flatten().map(Feed::from).chain([NOTHING])
}

fn exec_waits() -> Case {
    let mut c = Circuit::new();
    let mut s = Script::new();
    for wait in waits() {
        let world = c.world_event(0);
        let buffer = c.buffer_seconds_exec(1, wait);
        c.call(world, buffer);
        s.tick(0.25).fire(world);
    }
    let shows =
        "An exec buffer's wait that is no f32 counts: in every second record, and a wait of nothing never.";
    Case::new("narrowed-exec-waits", shows, &c, &s).tells(&[54])
}

fn value_waits() -> Case {
    let mut c = Circuit::new();
    let one = c.constant(1);
    let mut s = Script::new();
    s.first_checks(1, 0.25);
    for wait in waits() {
        let world = c.world_event(0);
        c.buffer_seconds(world, wait, NOTHING);
        s.tick(0.25).give(world, one);
    }
    let shows = "A value buffer's wait that is no f32 counts: all six at the first readings, each again when its Input changes.";
    Case::new("narrowed-value-waits", shows, &c, &s).tells(&[54, 56])
}

// ---- how often ----

fn every_call() -> Case {
    let mut c = Circuit::new();
    let world = c.world_event(0);
    let other = c.world_event(0);
    let buffer = c.buffer_seconds_exec(1, 5.1);
    let second = c.buffer_seconds_exec(1, 5.1);
    c.call(world, buffer);
    c.remote(other, buffer);
    c.call(other, second);
    c.call(other, buffer);
    let mut s = Script::new();
    s.tick(0.25).tick(0.25).fire(world).tick(0.25).fire(other).tick(0.25).fire(world).fire(other).fire(world);
    s.tick(0.25);
    let shows = "An exec buffer's wait counts at each call, of a fork too, for each buffer that has it: 0, 1, 3, 5, 0.";
    Case::new("narrowed-every-call", shows, &c, &s).tells(&[56, 58])
}

/// Value buffers of these waits and zero waits. The first tick reads nothing,
/// the third 1, the fifth 0; what is in flight lands in the tick after.
fn chosen_of(name: &str, shows: &str, waits: &[(Feed, Feed)]) -> Case {
    let mut c = Circuit::new();
    let world = c.world_event(0);
    for &(wait, zero) in waits {
        c.buffer_seconds(world, wait, zero);
    }
    let (one, no) = (c.constant(1), c.constant(0));
    let mut s = Script::new();
    s.ticks(2, 0.5).tick(0.5).give(world, one).ticks(2, 0.5).give(world, no).tick(0.5);
    Case::new(name, shows, &c, &s).tells(&[57])
}

fn chosen() -> Case {
    let waits = [(0.1, 0.25), (0.25, 0.1), (0.1, 0.2), (0.25, 0.5), (0.1, 0.5)];
    let waits = waits.map(|(wait, zero)| (wait.into(), zero.into()));
    let shows = "Of wait and zero wait only the one that is chosen counts: two zero waits, three waits.";
    chosen_of("narrowed-chosen", shows, &waits)
}

fn chosen_and_zero() -> Case {
    let waits: [(Feed, Feed); 6] = [
        (0.1.into(), (-1.0).into()),
        (0.1.into(), NOTHING),
        (NOTHING, 0.1.into()),
        (0.1.into(), (-0.0).into()),
        (0.25.into(), (-0.1).into()),
        (0.1.into(), 0.0.into()),
    ];
    let shows = "A zero wait below 0 is none and counts nothing; one of -0.0 is chosen: three by nothing and 0, four by 1.";
    chosen_of("narrowed-chosen-and-zero", shows, &waits)
}

fn first_readings() -> Case {
    let mut c = Circuit::new();
    let world = c.world_event(0);
    let card = c.var(7);
    for input in [NOTHING, 5.into(), false.into(), card.into(), world.into()] {
        c.buffer_seconds(input, 0.1, NOTHING);
    }
    let mut s = Script::new();
    s.ticks(3, 0.25);
    let shows =
        "Every value buffer narrows in tick 1, whatever it reads, nothing and constants too: 5, then none.";
    Case::new("narrowed-first-readings", shows, &c, &s).tells(&[56])
}

fn driven_queue() -> Case {
    let mut c = Circuit::new();
    let on = c.var(true);
    let queue = c.queue_seconds(1, NOTHING, 0.1);
    c.feed(queue.pin("Exec"), on);
    c.queue_seconds(1, NOTHING, 0.1);
    c.buffer_seconds_exec(1, 0.1);
    let mut s = Script::new();
    s.ticks(3, 0.25);
    let shows = "A Queue whose pin is driven narrows when its unit begins; one that is not called, and an exec buffer, never.";
    Case::new("narrowed-driven-queue", shows, &c, &s).tells(&[56]).delays(2 << 16)
}

/// A value buffer of a World.
fn flying(wait: f64, zero: Feed) -> (Circuit, Gate, Script) {
    let mut c = Circuit::new();
    let world = c.world_event(0);
    c.buffer_seconds(world, wait, zero);
    (c, world, Script::new())
}

fn remembered() -> Case {
    let (mut c, world, mut s) = flying(0.6, NOTHING);
    let names = [1, 2, 3, 4].map(|n| c.constant(n));
    s.tick(0.25).tick(0.25).give(world, names[0]).tick(0.25).give(world, names[1]).give(world, names[2]);
    s.ticks(4, 0.25).tick(0.25).give(world, names[2]).tick(0.25).give(world, names[3]);
    let shows = "An input that comes while a value is in flight counts, and again when it starts its own wait: 1, 1, 2, 1; an equal one does not.";
    Case::new("narrowed-remembered", shows, &c, &s).tells(&[56])
}

fn remembered_waits() -> Case {
    let (mut c, world, mut s) = flying(0.6, 0.5.into());
    let (no, one, two) = (c.constant(0), c.constant(1), c.constant(2));
    s.tick(0.25).tick(0.25).give(world, one).tick(0.25).tick(0.25).give(world, no);
    s.tick(0.25).give(world, two).give(world, no).ticks(3, 0.25);
    let shows = "A wait of 0.6, a zero wait of 0.5: a remembered 1 counts when it comes and when it starts, a remembered 0 neither time.";
    Case::new("narrowed-remembered-waits", shows, &c, &s).tells(&[56, 57])
}

fn remembered_zero_waits() -> Case {
    let (mut c, world, mut s) = flying(0.5, 0.6.into());
    let (no, one, five) = (c.constant(0), c.constant(1), c.constant(5));
    s.tick(0.25).tick(0.25).give(world, one).tick(0.25).give(world, no).give(world, five).tick(0.25);
    s.tick(0.25).give(world, no).ticks(4, 0.25);
    let shows = "A wait of 0.5, a zero wait of 0.6: a remembered 0 counts when it comes and when it starts, a remembered 1 neither time.";
    Case::new("narrowed-remembered-zero-waits", shows, &c, &s).tells(&[56, 57])
}

fn same_tick() -> Case {
    let (mut c, world, mut s) = flying(0.1, NOTHING);
    let names = [1, 2, 3].map(|n| c.constant(n));
    s.tick(0.25).give(world, names[0]).tick(0.25).give(world, names[1]).tick(0.125).give(world, names[2]);
    s.ticks(3, 0.125);
    let shows =
        "In each tick a remembered input starts its wait and another one is remembered: 2, 2, 2, 1, 0.";
    Case::new("narrowed-same-tick", shows, &c, &s).tells(&[56, 58])
}

/// A Queue of a wait that is no f32, called 2^n times by one World, once by
/// another.
fn filled(n: usize) -> (Circuit, Gate, Gate) {
    let mut c = Circuit::new();
    let world = c.world_event(0);
    let other = c.world_event(0);
    let queue = c.queue_seconds(1, NOTHING, 1000.1);
    let top = doublings(&mut c, queue, n);
    c.call(world, top);
    c.call(other, queue);
    (c, world, other)
}

fn dropped() -> Case {
    let (c, world, other) = filled(8);
    let mut s = Script::new();
    s.tick(0.25).fire(world).tick(0.25).fire(other).tick(0.25).fire(other).fire(other).tick(0.25);
    let shows = "256 records are kept, the 257th and two more are dropped, and all count: 256, 1, 2, 0.";
    Case::new("narrowed-dropped", shows, &c, &s).tells(&[56])
}

fn many() -> Case {
    let (c, world, other) = filled(12);
    let mut s = Script::new();
    s.tick(0.1).fire(world).fire(other).tick(0.1);
    let shows = "A count of 4,098: 4,097 waits, of which 256 are kept, and the tick length.";
    Case::new("narrowed-many", shows, &c, &s).tells(&[55, 56])
}

fn in_every_part() -> Case {
    let mut c = Circuit::new();
    let world = c.world_event(0);
    c.buffer_seconds(world, 0.1, NOTHING);
    let clock = c.clock(5, 0.25);
    let by_clock = c.buffer_seconds_exec(1, 5.1);
    let by_world = c.queue_seconds(1, NOTHING, 5.1);
    c.call(clock, by_clock);
    c.call(world, by_world);
    let (one, two) = (c.constant(1), c.constant(2));
    let mut s = Script::new();
    s.tick(0.0).give(world, one).tick(0.3).give(world, two).tick(0.125);
    let shows = "One count for the length, a landing, the late pass with what it settles, and the main pass: 3, then 5, then 1.";
    Case::new("narrowed-in-every-part", shows, &c, &s).tells(&[55, 56, 58])
}

// ---- what is no narrowing ----

fn sums() -> Case {
    let mut c = Circuit::new();
    let world = c.world_event(0);
    let buffer = c.buffer_seconds_exec(1, 4096.0);
    let queue = c.queue_seconds(1, NOTHING, 4096.0);
    c.call_all(world, &[buffer, queue]);
    c.buffer_seconds(world, 4096.0, NOTHING);
    let mut s = Script::new();
    s.tick(1.0).fire(world).tick(1.0).tick(p(-24)).tick(1.0 + p(-23)).tick(p(-149));
    let shows = "Sums in f32 that lose digits are no narrowings: none in any record.";
    Case::new("narrowed-sums", shows, &c, &s).tells(&[57])
}

fn in_ticks() -> Case {
    let mut c = Circuit::new();
    let world = c.world_event(0);
    c.buffer_ticks(world, (1 << 24) + 1, NOTHING);
    c.buffer_ticks(0.1, 2, (1 << 53) + 1);
    let buffer = c.buffer_ticks_exec(1, (1 << 24) + 1);
    let waits = [Feed::from(0.1), Feed::from((1 << 24) + 1), world.into()];
    let queues = waits.map(|wait| c.queue_ticks(1, 0.1, wait));
    let kept = c.var(0.1);
    let set = c.var_set(1, kept, 0.3);
    let count = c.cycle(1, 7.1);
    c.call_all(world, &[buffer, queues[0], queues[1], queues[2], set, count]);
    let (tenth, large) = (c.constant(0.1), c.constant(1e300));
    let mut s = Script::new();
    s.tick(0.25).give(world, tenth).tick(0.25).give(world, large).ticks(2, 0.25);
    let shows = "Waits in ticks narrow nothing, Ints above 2^24 and a Queue's Floats too; nor do variables, data and counts.";
    Case::new("narrowed-in-ticks", shows, &c, &s).tells(&[57]).delays(3 << 16)
}

// ---- stops ----

/// The case of a limit, or with `past` of one more.
fn at_limit(name: &str, past: usize, shows: [&str; 2], c: &Circuit, s: &Script) -> Case {
    let name = if past == 0 { format!("narrowed-{name}") } else { format!("narrowed-{name}-12") };
    Case::new(name, shows[past], c, s).tells(&[58])
}

/// A World calls a buffer 32 times, with `past` once more, and then another.
fn fires_of(past: usize, in_seconds: bool) -> (Circuit, Script) {
    let mut c = Circuit::new();
    let world = c.world_event(0);
    let buffer = if in_seconds { c.buffer_seconds_exec(1, 5.1) } else { c.buffer_ticks_exec(1, 5) };
    let other = c.buffer_seconds_exec(1, 5.1);
    for _ in 0..32 + past {
        c.call(world, buffer);
    }
    c.call(world, other);
    let mut s = Script::new();
    s.tick(0.25).fire(world);
    (c, s)
}

fn fires(past: usize) -> Case {
    let (c, s) = fires_of(past, true);
    let shows = [
        "32 fires of a buffer and one of another: 33 count.",
        "The 33rd fire of a buffer stops with 12 and counts, the call after it does not: 33.",
    ];
    at_limit("fires", past, shows, &c, &s).tells(&[56, 58])
}

fn fires_in_ticks(past: usize) -> Case {
    let (c, s) = fires_of(past, false);
    let shows = [
        "32 fires of a buffer in ticks and one of another in seconds: 1 counts.",
        "The 33rd fire of a buffer in ticks stops with 12: none counts.",
    ];
    at_limit("fires-in-ticks", past, shows, &c, &s).tells(&[57, 58])
}

/// 64 events and with `past` one more are delivered in tick 2, where a value
/// buffer lands and has an input remembered.
fn delivering(past: usize, length: f64) -> Case {
    let mut c = Circuit::new();
    let world = c.world_event(0);
    for k in 0..8 {
        let send = c.send_event(0, 3, k);
        c.call(world, send);
        c.event_custom(0, 3);
    }
    for _ in 0..past {
        let send = c.send_global(0, 3, 9);
        c.call(world, send);
        c.event_global(0, 3);
    }
    c.buffer_seconds(world, 0.1, NOTHING);
    let one = c.constant(1);
    let mut s = Script::new();
    s.tick(length).give(world, one).tick(length);
    let (name, shows) = if length == 0.1 {
        let passes = "Two waits and the length in tick 1; 64 events are delivered in tick 2, then a landing counts: 3, 2.";
        let stops = "A 65th event stops tick 2 before its buffers: its length counts, though unused, and the landing does not: 3, 1.";
        ("delivered", [passes, stops])
    } else {
        let passes = "64 events with a length that is an f32: 2, 1.";
        ("delivered-f32", [passes, "A 65th event with a length that is an f32: 2, 0."])
    };
    at_limit(name, past, shows, &c, &s).tells(&[55, 58])
}

/// 16 Clocks flip a Toggle that 16 ChangeDetectors watch: in tick 2 256 units
/// are carried.
fn carrying(c: &mut Circuit) -> Gate {
    let toggle = c.toggle(0);
    for _ in 0..16 {
        let clock = c.clock(0, 0.25);
        c.call(clock, toggle);
    }
    for _ in 0..16 {
        c.change_detector(0, toggle);
    }
    toggle
}

/// A value buffer reads the Toggle; a stimulus of tick 3 is one unit more.
fn stimulus(past: usize) -> Case {
    let mut c = Circuit::new();
    let world = c.world_event(0);
    let toggle = carrying(&mut c);
    c.buffer_seconds(toggle, 0.3, NOTHING);
    let mut s = Script::new();
    s.first_checks(1, 0.0).tick(0.25).tick(0.125);
    for _ in 0..past {
        s.fire(world);
    }
    let shows = [
        "256 units come into tick 3, where a landing counts: 1, 16, 1.",
        "With a stimulus the 256 units stop tick 3 before its buffers: 1, 16, 0.",
    ];
    at_limit("stimulus", past, shows, &c, &s)
}

/// A value buffer reads the Time of a Stopwatch, which runs from tick 1 on; its
/// end in tick 3 is one unit more.
fn expired(past: usize) -> Case {
    let mut c = Circuit::new();
    carrying(&mut c);
    let on = c.var(true);
    let watch = c.stopwatch(1, if past == 0 { NOTHING } else { 0.375.into() });
    c.feed(watch.pin("Restart"), on);
    c.buffer_seconds(watch, 0.3, NOTHING);
    let mut s = Script::new();
    s.first_checks(1, 0.0).tick(0.25).tick(0.125);
    let shows = [
        "256 units come into tick 3, where a landing counts and a Time that is checked: 2, 1, 2.",
        "The end of a Stopwatch stops tick 3 behind the landing: the Time is not checked any more: 2, 1, 1.",
    ];
    at_limit("expired", past, shows, &c, &s)
}

/// Eight buffers with 32 fires each, and with `past` a ninth with one; a value
/// buffer lands before the ninth, another one behind it.
fn by_fires(past: usize) -> Case {
    let mut c = Circuit::new();
    let world = c.world_event(0);
    let other = c.world_event(0);
    for _ in 0..8 {
        let buffer = c.buffer_ticks_exec(1, 1);
        c.call(world, buffer);
    }
    c.buffer_seconds(world, 0.1, NOTHING);
    let ninth = c.buffer_ticks_exec(1, 1);
    c.call(other, ninth);
    c.buffer_seconds(world, 0.1, NOTHING);
    let one = c.constant(1);
    let mut s = Script::new();
    s.tick(0.25);
    for _ in 0..32 {
        s.give(world, one);
    }
    for _ in 0..past {
        s.fire(other);
    }
    s.tick(0.25);
    let shows = [
        "256 fires are due in tick 2, where two landings count: 4, 2.",
        "A 257th fire stops tick 2 between two landings: the first counts, the second is not made: 4, 1.",
    ];
    at_limit("due", past, shows, &c, &s)
}

/// ChangeDetectors of what seven Edges bring about, one after the other, so
/// raised eight times; a value buffer is checked before them, one behind them.
fn in_the_opening(past: usize) -> Case {
    let mut c = Circuit::new();
    let mut readers = vec![c.buffer_seconds(NOTHING, 5.1, NOTHING)];
    readers.extend((0..32 + past).map(|_| c.change_detector(1, NOTHING)));
    readers.push(c.buffer_seconds(NOTHING, 5.1, NOTHING));
    let edges: Vec<Gate> = (0..7).map(|_| c.edge(NOTHING)).collect();
    let mut feed: Feed = 1.into();
    let mut shown: Feed = 0.into();
    for (k, edge) in (1..).zip(edges.into_iter().rev()) {
        c.feed(edge.pin("Input"), feed);
        feed = c.reroute(edge).into();
        shown = c.select(edge, shown, k).into();
    }
    for reader in readers {
        c.feed(reader.pin("Input"), shown);
    }
    let mut s = Script::new();
    s.tick(0.25);
    let shows = [
        "Two value buffers are checked eight times each as tick 1 opens: 16.",
        "A 257th unit stops the settling of tick 1's opening in the eighth round, between the two: 15.",
    ];
    at_limit("opening", past, shows, &c, &s)
}

/// 64 Worlds each flip a Toggle that four ChangeDetectors of a higher rank
/// watch, with `past` a fifth; a value buffer is checked behind the first, one
/// behind the last.
fn in_the_late_pass(past: usize) -> Case {
    let mut c = Circuit::new();
    let world = c.world_event(0);
    let toggle = c.toggle(0);
    c.change_detector(5, toggle);
    c.buffer_seconds(toggle, 9.1, NOTHING);
    for _ in 0..3 + past {
        c.change_detector(5, toggle);
    }
    c.buffer_seconds(toggle, 9.1, NOTHING);
    c.call(world, toggle);
    let mut s = Script::new();
    s.first_checks(1, 0.25).tick(0.25);
    for _ in 0..64 {
        s.fire(world);
    }
    let shows = [
        "Two value buffers are checked 64 times each in the late pass of tick 2: 2, 128.",
        "A 257th unit stops the settling after the 49th unit, between the two: 2, 97.",
    ];
    at_limit("late", past, shows, &c, &s)
}

fn runaway() -> Case {
    let mut c = Circuit::new();
    let world = c.world_event(0);
    let before = c.buffer_seconds_exec(1, 5.1);
    let ring = c.reroute(NOTHING);
    let behind = c.buffer_seconds_exec(1, 5.1);
    c.call_all(world, &[before, ring, behind]);
    c.call(ring, ring);
    let mut s = Script::new();
    s.tick(0.1).fire(world);
    let shows =
        "Stopped by 11 with the length and the wait before the ring counted, the one behind it not: 2.";
    Case::new("narrowed-11", shows, &c, &s).tells(&[58])
}

fn before_a_stop() -> Case {
    let mut c = Circuit::new();
    let world = c.world_event(0);
    let bad = c.world_event(0);
    let buffer = c.buffer_seconds_exec(1, 5.1);
    let ring = c.reroute(NOTHING);
    c.call(world, buffer);
    c.call(bad, ring);
    c.call_all(ring, &[ring, ring]);
    let mut s = Script::new();
    s.tick(0.1).fire(world).fire(world).tick(0.25).fire(bad);
    let shows = "Tick 1 counts three, tick 2 is stopped by 12 and counts none of its own: 3, 0.";
    Case::new("narrowed-before-a-stop", shows, &c, &s).tells(&[58])
}

fn not_reached() -> Case {
    let mut c = Circuit::new();
    let world = c.world_event(0);
    let branch = c.branch(0, world);
    let union = c.union(0);
    let [first, second] = [5.1, 5.1].map(|wait| c.buffer_seconds_exec(1, wait));
    let queue = c.queue_seconds(1, NOTHING, 5.1);
    c.call_all(world, &[branch, union, union]);
    c.call(branch.out("ExecOutA"), first);
    c.call(branch.out("ExecOutB"), second);
    c.call(union, queue);
    let one = c.constant(1);
    let mut s = Script::new();
    s.tick(0.25).fire(world).tick(0.25).give(world, one).tick(0.25);
    let shows = "A wait behind the other side of a Branch, or behind a Union that has passed, does not count: 2, 2, 0.";
    Case::new("narrowed-not-reached", shows, &c, &s).tells(&[56])
}
