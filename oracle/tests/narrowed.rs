//! The narrowings of a tick that changed their number (document 02, K9).
//!
//! First the stated circuits of the group `narrowed`: each record's count,
//! worked out by hand from document 02 and the source's text. Then every stated
//! circuit and random ones of every family, counted from outside: what is held
//! there stands with each test. Whether a number is an f32 is asked here of its
//! digits, not of the hardware.

mod reading;

use oracle::build::*;
use oracle::circuits::{self, Case};
use oracle::generate::{FAMILIES, Family, valid};
use oracle::words::words;
use reading::{Played, STATED, circuit_of, read};

/// Each circuit of the group with its stop and the counts of its records.
const BY_HAND: [(&str, u8, &[i64]); 44] = [
    // No gate is timed. Of the lengths every second one is no f32.
    ("narrowed-lengths", 0, &[0, 1, 0, 1, 0, 1, 0, 1, 0, 1, 0, 1, 0, 1, 0, 1, 0, 1, 0, 1, 0, 1]),
    // Lengths 0.25, 0.1, 0.5, 0.1; waits of 4,096 are f32s.
    ("narrowed-length-1-timed", 0, &[0, 1, 0, 1]),
    ("narrowed-length-3-timed", 0, &[0, 1, 0, 1]),
    // Three lengths of 0.25, three of 0.1; intervals and the limit stay f64s.
    ("narrowed-clocks", 0, &[0, 0, 0, 1, 1, 1]),
    (
        "narrowed-queue-floats",
        0,
        &[
            0, 1, 0, 1, 0, 1, 0, 1, 0, 1, 0, 1, 0, 1, 0, 1, 0, 1, 0, 1, 0, 1, // as the lengths
            0, 1, 0, 1, 0, 1, 0, 1, 0, 1, 0, 1, 0, 1, // larger and below 0
        ],
    ),
    // As f64s: 7, 2^24 + 1, 2^24, 2^53 + 2, 2^53, 2^60 + 2^20, 2^62, 2^63 - 1,024, 2^63, 2^54 + 2^30, -2^63,
    // -2^24 - 1.
    ("narrowed-queue-ints", 0, &[0, 1, 0, 1, 0, 1, 0, 1, 0, 1, 0, 1]),
    // The stored 0.1 in each tick; in the third the one that the World brings.
    ("narrowed-queue-others", 0, &[1, 1, 2, 1]),
    ("narrowed-exec-waits", 0, &[0, 1, 0, 1, 0, 1, 0, 1, 0, 1, 0, 1, 0]),
    // Six of thirteen at the first readings. None has an input remembered that lands.
    ("narrowed-value-waits", 0, &[6, 0, 1, 0, 1, 0, 1, 0, 1, 0, 1, 0, 1, 0]),
    // One World calls once, the other thrice.
    ("narrowed-every-call", 0, &[0, 1, 3, 1 + 3 + 1, 0]),
    // Nothing and 0 choose 0.25, 0.1, 0.2, 0.5, 0.5; 1 chooses 0.1, 0.25, 0.1, 0.25, 0.1.
    ("narrowed-chosen", 0, &[2, 0, 3, 0, 2, 0]),
    // Nothing and 0 choose 0.1, 0.1, 0.1, -0.0, 0.25, 0.0; 1 chooses 0.1, 0.1, 0.0, 0.1, 0.25, 0.1.
    ("narrowed-chosen-and-zero", 0, &[3, 0, 4, 0, 3, 0]),
    ("narrowed-first-readings", 0, &[5, 0, 0]),
    // The driven Queue alone, in the main pass of tick 1.
    ("narrowed-driven-queue", 0, &[1, 0, 0]),
    // 0.6 is over after three ticks: landings in 4 and 7, the first with 3 remembered.
    ("narrowed-remembered", 0, &[1, 1, 2, 1, 0, 0, 0, 0, 1]),
    // Nothing lands in 3, where 1 starts; 1 lands in 6, where 0 starts; 0 lands in 8.
    ("narrowed-remembered-waits", 0, &[0, 1, 1, 0, 1, 0, 0, 0]),
    // Nothing lands in 4, where 5 starts; 5 lands in 6, where 0 starts; 0 lands in 9.
    ("narrowed-remembered-zero-waits", 0, &[1, 0, 1, 0, 1, 1, 0, 0, 0]),
    // A first reading and a change; a landing and a change, twice; a landing.
    ("narrowed-same-tick", 0, &[2, 2, 2, 1, 0, 0]),
    ("narrowed-dropped", 0, &[256, 1, 2, 0]),
    // 2^12 calls and one, and the length; then the length.
    ("narrowed-many", 0, &[4_096 + 1 + 1, 1]),
    // A first reading, a call, a change. The length, a landing, a call, a change, the Clock's call. A landing.
    ("narrowed-in-every-part", 0, &[3, 5, 1]),
    ("narrowed-sums", 0, &[0, 0, 0, 0, 0]),
    ("narrowed-in-ticks", 0, &[0, 0, 0, 0]),
    ("narrowed-fires", 0, &[32 + 1]),
    ("narrowed-fires-12", 12, &[33]),
    ("narrowed-fires-in-ticks", 0, &[1]),
    ("narrowed-fires-in-ticks-12", 12, &[0]),
    // The length, a first reading and a change; then the length and, unless it is stopped, a landing.
    ("narrowed-delivered", 0, &[3, 2]),
    ("narrowed-delivered-12", 12, &[3, 1]),
    // The same without the length.
    ("narrowed-delivered-f32", 0, &[2, 1]),
    ("narrowed-delivered-f32-12", 12, &[2, 0]),
    // A first reading, sixteen flips, and unless it is stopped a landing.
    ("narrowed-stimulus", 0, &[1, 16, 1]),
    ("narrowed-stimulus-12", 12, &[1, 16, 0]),
    // Two first readings and two changes; then two landings, or the one before the stop.
    ("narrowed-due", 0, &[4, 2]),
    ("narrowed-due-12", 12, &[4, 1]),
    // A first reading and Time 0.0; a change; a landing and, unless it is stopped, a change.
    ("narrowed-expired", 0, &[2, 1, 2]),
    ("narrowed-expired-12", 12, &[2, 1, 1]),
    // Eight rounds of 32. Of 33, seven rounds are 231; of the eighth, 25 more fit.
    ("narrowed-opening", 0, &[8 + 8]),
    ("narrowed-opening-12", 12, &[8 + 7]),
    // When the k-th of the 64 has begun 59 + 4 k wait: for the 49th that is 255, so the second watcher is too many.
    ("narrowed-late", 0, &[2, 64 + 64]),
    ("narrowed-late-12", 12, &[2, 49 + 48]),
    ("narrowed-11", 11, &[2]),
    // The length and two calls; then nothing before the stop.
    ("narrowed-before-a-stop", 12, &[3, 0]),
    // One side of the Branch, and the Queue once.
    ("narrowed-not-reached", 0, &[2, 2, 0]),
];

#[test]
fn the_stated_circuits_count_as_worked_out_by_hand() {
    let group = circuits::groups().into_iter().find(|group| group.name == "narrowed").unwrap();
    let names: Vec<&str> = group.cases.iter().map(|case| case.name.as_str()).collect();
    assert_eq!(names.len(), BY_HAND.len());
    for (name, stop, counts) in BY_HAND {
        let case = group.cases.iter().find(|case| case.name == name);
        let played = read(case.unwrap_or_else(|| panic!("no circuit {name}"))).unwrap();
        let found: Vec<i64> = played.ticks.iter().map(|tick| tick.changed).collect();
        assert_eq!((played.stop, &found[..]), (stop, counts), "{name}: {names:?}");
    }
}

// ---- counted from outside ----

/// Whether a number is an f32: m * 2^e, with m below 2^24, e from -149 on, and
/// all of it below 2^128.
fn is_f32(bits: i64) -> bool {
    let (field, digits) = (bits >> 52 & 2047, bits & ((1 << 52) - 1));
    if field == 0 {
        return digits == 0;
    }
    let m = 1 << 52 | digits;
    let zeros = m.trailing_zeros();
    m >> zeros < 1 << 24 && field - 1075 + i64::from(zeros) >= -149 && field < 1023 + 128
}

#[test]
fn the_borders_of_f32() {
    let p = |e: i32| 2f64.powi(e);
    let f32s = [0.0, -0.0, 0.5, p(-149), 3.0 * p(-149), p(-126), 1.0 + p(-23), p(128) - p(104), -p(127)];
    assert!(f32s.into_iter().all(|x| is_f32(bits(x))));
    let others = [0.1, p(-150), 3.0 * p(-150), 1.0 + p(-24), p(-127) + p(-150), p(128) - p(103), 5e-324];
    assert!(!others.into_iter().any(|x| is_f32(bits(x))));
    assert!(!is_f32(bits(p(128))) && !is_f32(bits(-p(1000))) && !is_f32(bits(1e300)));
}

/// A case in its parts.
struct Parted {
    c: Circuit,
    gates: Vec<Gate>,
    /// The bits of the tick lengths.
    lengths: Vec<i64>,
}

fn parted(case: &Case) -> Parted {
    let (c, gates) = circuit_of(case);
    let script = words(&case.script).unwrap();
    let lengths = script[2..][..script[0] as usize].to_vec();
    Parted { c, gates, lengths }
}

impl Parted {
    /// Source and stored constant of a gate's input.
    fn input(&self, gate: Gate, pin: &str) -> (i64, i64) {
        self.c.inputs[gate.pin(pin).0 as usize]
    }

    /// Whether the constant that an input stores is no number that narrowing
    /// changes; an Int is rounded to f64 first.
    fn stays(&self, gate: Gate, pin: &str) -> bool {
        match self.input(gate, pin).1 {
            0 => true,
            name => match self.c.constants[name as usize - 1] {
                (1, n) => is_f32(bits(n as f64)),
                (2, float) => is_f32(float),
                _ => true,
            },
        }
    }

    fn of(&self, kinds: &[i64]) -> Vec<Gate> {
        self.gates.iter().copied().filter(|gate| kinds.contains(&gate.kind)).collect()
    }

    fn length_changes(&self, tick: usize) -> i64 {
        i64::from(!is_f32(self.lengths[tick]))
    }
}

/// Every stated circuit that is played, and random ones of every family.
fn every_case() -> impl Iterator<Item = Case> {
    let random = FAMILIES.into_iter().flat_map(|family| (0..250).map(move |seed| valid(seed, family)));
    STATED.iter().cloned().chain(random)
}

/// Held: a circuit without kinds 12, 13 and 17 counts in each record, a stopped
/// one too, 1 if the tick's length is no f32 and else 0; any other at least
/// that. Where every length and every wait and zero wait is an f32, and no Queue
/// in seconds reads its wait from an output, all counts are 0.
#[test]
fn what_the_lengths_alone_decide() {
    let (mut alone, mut changed, mut with_waits, mut exact) = (0, 0, 0, 0);
    for case in every_case() {
        let Some(played) = read(&case) else { continue };
        let parts = parted(&case);
        let narrowing = parts.of(&[BUFFER_SECONDS, BUFFER_SECONDS_EXEC, QUEUE_SECONDS]);
        let is_exact = |gate: &Gate| match gate.kind {
            QUEUE_SECONDS => parts.input(*gate, "wait").0 < 0 && parts.stays(*gate, "wait"),
            _ => parts.stays(*gate, "wait") && parts.stays(*gate, "zero"),
        };
        let all_exact = parts.lengths.iter().all(|&length| is_f32(length)) && narrowing.iter().all(is_exact);
        for (k, tick) in played.ticks.iter().enumerate() {
            let length = parts.length_changes(k);
            if narrowing.is_empty() {
                assert_eq!(tick.changed, length, "{}, tick {}", case.name, k + 1);
                (alone, changed) = (alone + 1, changed + length);
            } else {
                assert!(tick.changed >= length, "{}, tick {}", case.name, k + 1);
                with_waits += i64::from(tick.changed > length);
            }
            if all_exact {
                assert_eq!(tick.changed, 0, "{}, tick {}", case.name, k + 1);
                exact += 1;
            }
        }
    }
    let sum = (alone, changed, with_waits, exact);
    assert!(alone > 120_000 && changed > 101_000 && with_waits > 4_000 && exact > 30_000, "{sum:?}");
}

/// A case with counters in it.
struct Counted {
    case: Case,
    parts: Parted,
    /// Kinds 13 and 17, each with a Cycle that counts its calls.
    called: Vec<(Gate, Gate)>,
    /// Kind 12, each with a ChangeDetector of the same Input.
    flying: Vec<(Gate, Gate)>,
}

/// A Cycle that counts up to the last number, in the body of a gate.
fn counter(c: &mut Circuit, of: Gate) -> Gate {
    let counter = c.cycle(0, i64::MAX);
    c.gates[counter.number as usize].1 = c.gates[of.number as usize].1 / RANKS * RANKS;
    counter
}

/// The case with a Cycle called before each call of a 13 or a 17 and a
/// ChangeDetector of the highest rank beside each 12; without zero waits, and
/// with a constant for the wait of a Queue that reads one. None where that is
/// no circuit any more, and none with kinds 7 and 8, whose pulses can come
/// between the checks of a 12 and of its ChangeDetector.
fn counted(case: &Case) -> Option<Counted> {
    let mut parts = parted(case);
    let c = &mut parts.c;
    let (mut called, mut flying) = (Vec::new(), Vec::new());
    for &gate in &parts.gates {
        match gate.kind {
            BUFFER_SECONDS => {
                c.feed(gate.pin("zero"), NOTHING);
                let beside = c.change_detector(65_535, NOTHING);
                c.inputs[beside.pin("Input").0 as usize] = c.inputs[gate.pin("Input").0 as usize];
                flying.push((gate, beside));
            }
            BUFFER_SECONDS_EXEC => called.push((gate, counter(c, gate))),
            QUEUE_SECONDS => {
                if c.inputs[gate.pin("wait").0 as usize].0 >= 0 {
                    c.feed(gate.pin("wait"), if gate.number % 2 == 0 { 0.1 } else { 0.25 });
                }
                called.push((gate, counter(c, gate)));
            }
            EDGE | CHANGE => return None,
            _ => {}
        }
    }
    let before = |&(from, to): &(i64, i64)| {
        let counter = called.iter().find(|(gate, _)| gate.entry().0 == to / 2);
        counter.map(|(_, cycle)| (from, 2 * cycle.entry().0 + to % 2)).into_iter().chain([(from, to)])
    };
    c.calls = c.calls.iter().flat_map(before).collect();
    let mut case = Case { circuit: c.bytes(), ..case.clone() };
    case.lent.log = 1 << 24;
    (!called.is_empty() || !flying.is_empty()).then_some(Counted { case, parts, called, flying })
}

/// A 12 without zero wait: what is in flight, and whether an input is
/// remembered.
#[derive(Default)]
struct Flight {
    elapsed: Option<f32>,
    remembered: bool,
}

impl Flight {
    /// The narrowings of a tick of this length in which the Input changed so
    /// often.
    fn tick(&mut self, length: f32, wait: f32, changes: i64) -> i64 {
        let mut starts = 0;
        self.elapsed = self.elapsed.map(|elapsed| elapsed + length);
        if self.elapsed.is_some_and(|elapsed| elapsed >= wait) {
            starts += i64::from(self.remembered);
            self.elapsed = std::mem::take(&mut self.remembered).then_some(0.0);
        }
        for _ in 0..changes {
            self.remembered = self.elapsed.is_some();
            self.elapsed.get_or_insert(0.0);
        }
        starts + changes
    }
}

/// How often a unit of this gate and form is in a list.
fn times(units: &[(i64, i64)], gate: Gate, form: i64) -> i64 {
    units.iter().filter(|&&unit| unit == (gate.number, form)).count() as i64
}

/// The narrowings of each kind in all records, and those that changed.
#[derive(Debug, Default)]
struct Sum {
    records: usize,
    calls: i64,
    flights: i64,
    changed: i64,
}

/// Each record's count, but that of a stopped one, is the sum of: the length;
/// how often each 13 and 17 was called, if its wait is no f32; and, for each 12
/// whose wait is none, its Input's changes and the landings at which one is
/// remembered.
fn recount(counted: &Counted, played: &Played, sum: &mut Sum) {
    let Counted { case, parts, called, flying } = counted;
    let mut flights: Vec<Flight> = flying.iter().map(|_| Flight::default()).collect();
    let wait = |gate: Gate| match parts.input(gate, "wait").1 {
        0 => 0.0,
        name => f64::from_bits(parts.c.constants[name as usize - 1].1 as u64) as f32,
    };
    for (k, tick) in played.ticks.iter().enumerate().take_while(|(_, tick)| tick.stop == 0) {
        let before = k.checked_sub(1).map(|before| &played.ticks[before]);
        let mut changed = parts.length_changes(k);
        for &(gate, cycle) in called {
            let shown = |tick: usize| played.shown(tick, cycle.number as usize, 2).1;
            let driven = times(&tick.late, gate, 16) + times(&tick.main, gate, 16);
            let calls = shown(k + 1) - if k == 0 { 0 } else { shown(k) } + driven;
            changed += if parts.stays(gate, "wait") { 0 } else { calls };
            sum.calls += calls;
        }
        for (&(gate, beside), flight) in flying.iter().zip(&mut flights) {
            let begun = times(&tick.late, beside, 0) + times(&tick.main, beside, 0);
            let came = before.map_or(0, |tick| times(&tick.carried, beside, 0));
            let changes = begun - came + times(&tick.carried, beside, 0);
            let length = f64::from_bits(parts.lengths[k] as u64) as f32;
            let starts = flight.tick(length, wait(gate), changes);
            changed += if parts.stays(gate, "wait") { 0 } else { starts };
            sum.flights += starts;
        }
        assert_eq!(tick.changed, changed, "{}, tick {}", case.name, k + 1);
        (sum.records, sum.changed) = (sum.records + 1, sum.changed + changed);
    }
}

/// Held: the count of each record that is not stopped, of circuits with
/// counters in them.
#[test]
fn counted_from_outside() {
    let mut sum = Sum::default();
    for case in every_case().filter(|case| read(case).is_some()) {
        let Some(counted) = counted(&case) else { continue };
        if let Some(played) = read(&counted.case) {
            recount(&counted, &played, &mut sum);
        }
    }
    assert!(sum.records > 20_000 && sum.calls > 15_000 && sum.flights > 6_000, "{sum:?}");
    assert!(sum.changed > 15_000, "{sum:?}");
}

/// Counts of 0, 1, two to four and more are all drawn often.
#[test]
fn random_counts_are_spread() {
    let spread = |family: Family| {
        let mut spread = [0; 4];
        for tick in (0..100).flat_map(|seed| read(&valid(seed, family)).unwrap().ticks) {
            spread[match tick.changed {
                0 => 0,
                1 => 1,
                2..5 => 2,
                _ => 3,
            }] += 1;
        }
        spread
    };
    for (family, least) in [
        (Family::Narrowed, [200, 200, 150, 40]),
        (Family::Seconds, [200, 500, 300, 50]),
        (Family::Buffers, [500, 100, 80, 10]),
        (Family::Mixed, [500, 50, 30, 10]),
    ] {
        let found = spread(family);
        assert!(found.iter().zip(least).all(|(&n, least)| n > least), "{family:?}: {found:?}");
    }
}
