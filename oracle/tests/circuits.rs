//! The stated circuits against what document 01 and the source say of them.
//! In tick 1 every watched input has its first check (document 02, K2); where
//! that would cover what a circuit shows, its script begins with ticks for it.

mod reading;

use oracle::circuits::{self, Case};
use oracle::generate::ASKED;
use oracle::{Answer, check, print, run};
use reading::{Played, STATED, case, played};

const INT: i64 = 1;
const FLOAT: i64 = 2;
const BOOL: i64 = 3;
const NOTHING: (i64, i64) = (0, 0);
const LEAST: i64 = i64::MIN;

fn float(f: f64) -> (i64, i64) {
    (FLOAT, f.to_bits() as i64)
}

fn int(n: i64) -> (i64, i64) {
    (INT, n)
}

fn yes() -> (i64, i64) {
    (BOOL, 1)
}

fn no() -> (i64, i64) {
    (BOOL, 0)
}

// ---- document 01's played examples ----

#[test]
fn the_printed_example() {
    let case = case("toggle");
    let answer = run(&case.circuit, &case.script, &case.lent);
    assert_eq!(print(&answer), "1 1 1 0 0 0 0 0 2 0 1 0 3 0 7 0 1\nend 0 1\n");
}

#[test]
fn no_ticks() {
    let case = case("no-ticks");
    let answer = run(&case.circuit, &case.script, &case.lent);
    assert_eq!(print(&answer), "end 0 0\n");
}

#[test]
fn rank_4_raising_4_and_5() {
    // Tick 1 has the ChangeDetector's first check alone.
    let carried = played("rank-4-raises-4");
    assert_eq!(carried.main(1), [2]);
    assert_eq!(carried.main(2), [0]);
    assert_eq!(carried.ticks[1].carried, [(2, 0)]);
    assert_eq!(carried.late(3), [2]);
    let now = played("rank-4-raises-5");
    assert_eq!(now.main(1), [2]);
    assert_eq!(now.main(2), [0, 2]);
    assert_eq!(now.ticks[1].carried, []);
    assert_eq!(now.late(3), []);
}

#[test]
fn a_pulse_lasts_two_ticks() {
    let p = played("pulse");
    let shown: Vec<_> = (1..=8).map(|t| p.shown(t, 1, 0)).collect();
    assert_eq!(shown, [NOTHING, NOTHING, NOTHING, NOTHING, yes(), yes(), no(), no()]);
}

#[test]
fn a_clock_of_1_under_ticks_of_a_quarter() {
    assert_eq!(played("clock").begun_in(0), [4, 8]);
}

#[test]
fn cycle_from_nothing() {
    assert_eq!(played("cycle-up").shown(1, 1, 2), int(1));
    assert_eq!(played("cycle-down").shown(1, 1, 2), int(2));
}

#[test]
fn narrowed_waits() {
    let rows = [
        ("narrow-tenth", NOTHING, int(2)),
        ("narrow-half-down", NOTHING, int(2)),
        ("narrow-half-up", NOTHING, int(2)),
        ("narrow-half-of-least", int(1), int(2)),
        ("narrow-over-half-of-least", NOTHING, int(2)),
        ("narrow-least-and-half", NOTHING, int(2)),
        ("narrow-up-to-2", NOTHING, int(2)),
        ("narrow-least", NOTHING, int(2)),
        ("narrow-over", NOTHING, NOTHING),
        ("narrow-tick-tenth", NOTHING, int(2)),
        ("narrow-tick-half-down", NOTHING, int(2)),
        ("narrow-tick-half-of-least", NOTHING, int(2)),
    ];
    for (name, second, fourth) in rows {
        let p = played(name);
        assert_eq!((p.shown(2, 2, 2), p.shown(4, 2, 2)), (second, fourth), "{name}");
        let queue: Vec<usize> =
            [(2, second), (4, fourth)].iter().filter(|t| t.1 != NOTHING).map(|t| t.0).collect();
        assert_eq!(p.begun_in(3), queue, "{name}");
    }
}

#[test]
fn a_queue_keeps_256() {
    let p = played("queue-257");
    assert_eq!(p.shown(1, 1, 2), int(257));
    for t in 2..=257 {
        assert_eq!(p.shown(t, 2, 1), int(t as i64 - 1));
    }
    assert_eq!(p.begun_in(2), (2..=257).collect::<Vec<_>>());
    let released = played("queue-released-and-filled-1");
    assert_eq!(released.begun_in(3), (3..=259).collect::<Vec<_>>());
    assert_eq!(released.shown(259, 3, 1), int(257));
}

#[test]
fn fifty_million_steps() {
    let p = played("steps-50000000");
    assert_eq!((p.stop, p.ticks[0].steps), (0, 50_000_000));
    let p = played("steps-50000001");
    assert_eq!((p.stop, p.done), (11, 0));
    assert_eq!(p.words, [1, 50_000_001, 1, 0, 0, 11, 0, 0, 2]);
}

#[test]
fn wrong_though_they_look_right() {
    let p = played("wrong-carry-below");
    // First the first checks, then what the Clock raises.
    assert_eq!((p.main(1), p.carried(1)), (vec![2, 3, 4], vec![]));
    assert_eq!((p.main(2), p.carried(2)), (vec![0, 4], vec![2, 3]));
    assert_eq!(p.late(3), [2, 3]);
    let p = played("wrong-events-sorted");
    assert_eq!(p.late(2), [3, 0, 2]);
    assert_eq!(played("wrong-clock-excess").begun_in(0), [3, 6, 9]);
    let p = played("wrong-all-due-records");
    let out: Vec<_> = (1..=5).map(|t| p.shown(t, 1, 1)).collect();
    assert_eq!(out, [NOTHING, int(1), int(2), int(3), int(3)]);
    assert_eq!(p.begun_in(1), [2, 3, 4]);
    let p = played("wrong-pulse-one-tick");
    let counted: Vec<_> = (1..=5).map(|t| p.shown(t, 2, 2)).collect();
    assert_eq!(counted, [int(1), int(2), int(2), int(2), int(2)]);
}

// ---- marking, settling, equality, pulses ----

#[test]
fn stale_gates() {
    assert_eq!(played("leftover-dirty").shown(1, 3, 0), int(9));
    assert_eq!(played("fresh-after-settling").shown(1, 3, 0), int(1));
    assert_eq!(played("unchosen-side").shown(1, 2, 0), int(1));
    assert_eq!(played("var-seen-by-a-stale-gate").shown(1, 2, 0), int(9));
    for case in STATED.iter().filter(|c| c.name.starts_with("reads-")) {
        let seen = if case.name.starts_with("reads-not-") { 9 } else { 1 };
        assert_eq!(played(&case.name).shown(1, 2, 0), int(seen), "{}", case.name);
    }
    assert_eq!(played("full-queue-reads").shown(2, 2, 0), int(1));
    assert_eq!(played("second-send-reads").shown(1, 2, 0), int(1));
}

#[test]
fn order_of_checks() {
    // First checks go by gate, what the late pass of tick 2 changes does not.
    let p = played("last-reader-first");
    assert_eq!((p.main(1), p.late(2)), (vec![3, 4, 5], vec![0, 3, 5, 4]));
    let p = played("diamond");
    assert_eq!(p.main(1), [4, 5]);
    assert_eq!((p.late(2), p.late(3)), (vec![0, 5, 4], vec![0, 0, 5, 4, 5, 4]));
    for name in ["keeps-its-place", "published-once", "published-after-outputs"] {
        let p = played(name);
        assert_eq!((p.main(1), p.late(2)), (vec![3, 4], vec![0, 4, 3]), "{name}");
    }
}

#[test]
fn what_counts_as_changed() {
    // A ChangeDetector begins in tick 1 by its first check; a pin that reads nothing does not.
    let p = played("there-and-back");
    assert_eq!((p.late(1), p.main(1)), (vec![], vec![4]));
    assert_eq!([p.late(2), p.late(3), p.late(4), p.late(5)], [vec![1, 4], vec![1], vec![0, 4], vec![1]]);
    assert_eq!(played("last-after-falsy").begun_in(1), [1, 3, 7]);
    let p = played("pin-changes");
    assert_eq!((p.begun_in(1), p.begun_in(2)), (vec![2, 3, 4, 5, 6], vec![1, 2, 3, 4, 5, 6, 7, 8]));
    assert_eq!(p.shown(9, 0, 1), float(0.0));
    assert_eq!(played("pin-not-read-again").ticks[0].late, [(0, 2), (0, 2), (1, 16)]);
    assert_eq!(played("published-though-equal").begun_in(4), [1]);
    assert_eq!(played("settled-once").begun_in(3), [1, 2, 4]);
    let p = played("kinds-differ");
    assert_eq!((p.begun_in(1), p.begun_in(4)), (vec![1, 3, 6, 9, 12], vec![3]));
    assert_eq!([p.shown(6, 2, 0), p.shown(9, 2, 0), p.shown(6, 3, 0)], [yes(), yes(), no()]);
}

#[test]
fn what_is_true() {
    let p = played("what-is-true");
    let truth = [2, 3, 4, 6, 8, 10, 11, 12, 13, 14].map(|k| k + 1);
    let counted = |t: usize| p.shown(t, 2, 2) != p.shown(t - 1, 2, 2);
    assert_eq!((2..=15).filter(|&t| counted(t)).collect::<Vec<_>>(), truth);
    let chosen = |t: usize| p.shown(t, 4, 0) == int(2);
    assert_eq!((2..=15).filter(|&t| chosen(t)).collect::<Vec<_>>(), truth);
    assert_eq!(p.begun_in(6), truth);
    // The Clock reads what the tick before left, and is enabled by nothing.
    let enabled: Vec<usize> =
        [1, 2].into_iter().chain(truth.iter().map(|t| t + 1)).filter(|&t| t <= 15).collect();
    assert_eq!(p.begun_in(5), enabled);
}

#[test]
fn nothing_again() {
    let p = played("nothing-again");
    let held =
        |t: usize| [p.shown(t, 3, 1), p.shown(t, 4, 1), p.shown(t, 5, 0), p.shown(t, 7, 1), p.shown(t, 8, 0)];
    assert_eq!(held(6), [int(5); 5]);
    assert_eq!(held(10), [NOTHING; 5]);
    // The first of them is the first check; nothing neither rises nor falls there.
    assert_eq!((p.begun_in(9), p.begun_in(10)), (vec![1, 3, 7], vec![3, 7]));
    assert_eq!(p.ticks[2].late, [(0, 2), (9, 0), (10, 32)]);
    assert_eq!(p.ticks[6].late, [(0, 2), (9, 0), (10, 33)]);
    assert_eq!(p.shown(8, 8, 0), NOTHING);
}

#[test]
fn zeros() {
    let p = played("zero-slots");
    assert_eq!([p.shown(3, 0, 1), p.shown(3, 1, 1)], [(FLOAT, 0), (FLOAT, LEAST)]);
    assert_eq!([p.shown(3, 2, 0), p.shown(3, 3, 0)], [(FLOAT, LEAST), (FLOAT, 0)]);
    assert_eq!([p.shown(5, 2, 0), p.shown(5, 3, 0)], [(FLOAT, LEAST), float(0.25)]);
    // A first check of nothing, then the first zero.
    assert_eq!(p.begun_in(4), [1, 2]);
    let p = played("zero-of-a-var");
    assert_eq!(
        [p.shown(2, 1, 0), p.shown(2, 3, 1), p.shown(2, 4, 0)],
        [(FLOAT, LEAST), (FLOAT, 0), (FLOAT, LEAST)]
    );
    // Its first check alone.
    assert_eq!(p.begun_in(5), [1]);
}

#[test]
fn edges() {
    let p = played("edges-are-floats");
    assert_eq!(p.ticks[2].late[3..], [(4, 32), (10, 32)]);
    assert_eq!(p.ticks[5].late[3..], [(7, 33), (10, 33)]);
    // The pulses of the first checks have ended: nothing to 0 is a change of its own.
    assert_eq!([p.shown(6, 5, 0), p.shown(3, 8, 0), p.shown(6, 3, 0)], [yes(), yes(), no()]);
}

#[test]
fn pulses() {
    let p = played("pulse-extended");
    let shown: Vec<_> = (4..=9).map(|t| p.shown(t, 1, 0)).collect();
    assert_eq!(shown, [yes(), yes(), yes(), yes(), no(), no()]);
    let p = played("both-pulses");
    let shown: Vec<_> = (1..=5).map(|t| (p.shown(t, 1, 0), p.shown(t, 1, 1))).collect();
    assert_eq!(shown, [(NOTHING, NOTHING), (yes(), NOTHING), (yes(), yes()), (no(), yes()), (no(), no())]);
    assert_eq!(played("lowered-before-buffers").main(6), [4, 3]);
    assert_eq!(played("lowered-before-clocks").begun_in(2), [1, 2]);
    assert_eq!(played("lowered-by-gate-and-output").main(4), [6, 5, 4]);
    let p = played("ring-of-changes");
    let shown: Vec<_> = (1..=8).map(|t| (p.shown(t, 1, 0), p.shown(t, 2, 0))).collect();
    let (up, down) = ((yes(), yes()), (no(), yes()));
    assert_eq!(shown, [up, up, down, down, up, up, down, down]);
}

// ---- delays ----

/// The first tick in which the output of a gate changes after `from`.
fn lands(p: &Played, gate: usize, from: usize) -> Option<usize> {
    (from + 1..=p.ticks.len()).find(|&t| p.shown(t, gate, 0) != p.shown(t - 1, gate, 0))
}

#[test]
fn value_buffers() {
    // What a buffer's first check launched, nothing, has landed before a value is given.
    let p = played("truthy-takes-the-wait");
    assert_eq!((lands(&p, 1, 3), lands(&p, 1, 8)), (Some(6), Some(11)));
    let p = played("zero-waits");
    let landed: Vec<_> = (1..=9).map(|g| lands(&p, g, 12).unwrap()).collect();
    assert_eq!(landed, [13, 13, 14, 16, 16, 13, 14, 16, 16]);
    let p = played("latest-only");
    for gate in [1, 2] {
        let shown: Vec<_> = (1..=19).map(|t| p.shown(t, gate, 0).1).collect();
        assert_eq!(shown, [0, 0, 0, 0, 0, 0, 0, 1, 1, 1, 3, 3, 3, 6, 6, 6, 9, 9, 9]);
    }
    let p = played("queued-by-its-own-rule");
    let shown: Vec<_> = [5, 6, 7, 11, 12].map(|t| p.shown(t, 1, 0)).into();
    assert_eq!(shown, [NOTHING, int(5), int(0), int(0), int(5)]);
    assert_eq!(lands(&played("lands-though-equal"), 1, 8), Some(14));
}

#[test]
fn exec_buffers() {
    assert_eq!(played("exec-never-zero").ticks[3].late, [(1, 0), (2, 0)]);
    let p = played("fires-together");
    assert_eq!([p.late(3), p.late(4)], [vec![1, 1, 1, 2, 2, 2], vec![1, 2]]);
    assert_eq!([p.late(9), p.late(10)], [vec![1, 2, 2], vec![1]]);
}

#[test]
fn waits() {
    let p = played("tick-waits");
    for (k, due) in
        [Some(6), Some(6), Some(6), Some(7), Some(8), Some(6), Some(6), None].into_iter().enumerate()
    {
        assert_eq!(lands(&p, 1 + 2 * k, 5), due, "value buffer {k}");
        assert_eq!(p.begun_in(2 + 2 * k).first().copied(), due, "exec buffer {k}");
    }
    let p = played("second-waits");
    let due = [Some(4), Some(4), Some(4), Some(4), Some(4), None, Some(4), Some(5), Some(7)];
    for (k, due) in due.into_iter().enumerate() {
        assert_eq!(lands(&p, 1 + 2 * k, 3), due, "value buffer {k}");
        assert_eq!(p.begun_in(2 + 2 * k).first().copied(), due, "exec buffer {k}");
    }
    let p = played("sums-in-f32");
    assert_eq!([p.begun_in(1), p.begun_in(2)], [[13], [13]]);
    assert_eq!(lands(&p, 3, 3), Some(13));
    let p = played("sums-in-f64");
    assert_eq!([p.begun_in(1), p.begun_in(2)], [[11], [12]]);
    assert_eq!(p.shown(12, 2, 0), float(1.0));
    let p = played("sum-that-stalls");
    assert_eq!([p.begun_in(1), p.begun_in(2)], [[13], [2]]);
}

#[test]
fn queues() {
    let p = played("short-behind-long");
    let shown: Vec<_> = (5..=9).map(|t| p.shown(t, 1, 1)).collect();
    assert_eq!(shown, [NOTHING, int(5), int(1), int(2), int(2)]);
    assert_eq!(played("queue-counts-on").begun_in(1), [5, 6, 7]);
    let p = played("released-before-settling");
    assert_eq!((&p.ticks[2].late[..], &p.ticks[2].main[..]), (&[(0, 2), (1, 0)][..], &[(2, 0)][..]));
    let p = played("own-data");
    let shown: Vec<_> = (2..=5).map(|t| (p.shown(t, 4, 1), p.shown(t, 4, 2))).collect();
    assert_eq!(shown, [(int(1), NOTHING), (int(2), NOTHING), (int(2), int(11)), (int(2), int(22))]);
    // Waits of nothing, 2, 2.9, true, -2.0, 0.3, -7, 1e-40 and 0, six ticks of 0.5 apart.
    assert_eq!(played("queue-waits-in-ticks").begun_in(2), [2, 6, 12, 17, 23, 29, 35, 41, 47]);
    assert_eq!(played("queue-waits-in-seconds").begun_in(2), [2, 8, 16, 18, 23, 29, 35, 41, 47]);
}

#[test]
fn clocks() {
    let p = played("clock-reads-last-delta");
    assert_eq!((p.begun_in(2), p.begun_in(3)), (vec![1, 3, 4], vec![1, 4]));
    let p = played("clock-sees-this-tick");
    // The second, of interval 0.0, fires in the three ticks of no length too.
    assert_eq!((p.begun_in(3), p.begun_in(4)), (vec![6, 7, 8], vec![1, 2, 3, 4, 5]));
    assert_eq!(played("clock-before-stopwatch").begun_in(2), [2, 3]);
    let p = played("clock-inputs");
    let every: Vec<usize> = (1..=9).collect();
    let rows = [
        vec![3, 6, 9],
        vec![4, 8],
        every.clone(),
        vec![4, 8],
        every.clone(),
        every.clone(),
        vec![2, 4, 6, 8],
        every.clone(),
        every.clone(),
        vec![],
        every,
        vec![4, 8],
    ];
    for (gate, fires) in rows.into_iter().enumerate() {
        assert_eq!(p.begun_in(gate), fires, "clock {gate}");
    }
    assert_eq!(played("clock-disabled").begun_in(1), [8, 12, 16]);
}

#[test]
fn stopwatches() {
    let p = played("limits-in-gate-order");
    assert_eq!((p.begun_in(2), p.begun_in(1)), (vec![4], vec![5]));
    assert_eq!([p.shown(4, 2, 0), p.shown(5, 1, 0)], [float(0.5), float(0.5)]);
    let p = played("limit-reads-last-uptime");
    assert_eq!((p.begun_in(3), p.begun_in(4)), (vec![2], vec![2, 6]));
    let p = played("stopwatch-pins");
    let shown: Vec<_> = (1..=12).map(|t| p.shown(t, 0, 0)).collect();
    let times = [0.25, 0.5, 0.0, 0.25, 0.5, 0.75, 0.75, 0.75, 1.0, 1.25].map(float);
    assert_eq!(shown, [&[NOTHING, NOTHING], &times[..]].concat());
    let p = played("stopwatch-limits");
    assert_eq!((p.begun_in(3), p.begun_in(4)), (vec![8, 11], vec![]));
    assert_eq!((p.begun_in(5), p.begun_in(6), p.begun_in(7)), (vec![], vec![], vec![5, 11]));
    assert_eq!([p.shown(7, 3, 0), p.shown(8, 3, 0), p.shown(11, 3, 0)], [float(1.5), float(0.5), float(0.5)]);
}

#[test]
fn all_delays_full() {
    let p = played("all-delays-full");
    assert_eq!((p.stop, p.done), (0, 51));
    for t in 3..=33 {
        assert_eq!(p.late(t).len(), 64, "tick {t}");
    }
    assert_eq!(p.begun_in(1), (41..=51).collect::<Vec<_>>());
    assert_eq!([p.shown(48, 1, 1), p.shown(48, 1, 8), p.shown(49, 1, 1)], [int(100), int(100), int(101)]);
}

// ---- order ----

#[test]
fn late_and_main() {
    let p = played("order-in-a-late-rank");
    assert_eq!(p.ticks[2].carried, [(6, 0)]);
    assert_eq!(p.ticks[3].late, [(6, 0), (3, 2), (7, 2), (1, 0), (2, 0), (0, 0), (8, 1), (6, 0)]);
    let p = played("clocks-before-the-rest");
    assert_eq!(p.ticks[0].main, [(4, 0), (5, 0), (3, 0), (1, 0), (2, 32)]);
    assert_eq!(p.ticks[2].main, [(4, 0), (3, 0)]);
    assert_eq!(p.ticks[3].main, [(4, 0), (5, 0), (3, 0), (1, 0), (2, 33)]);
    // First checks go by the watcher, not by its source.
    let p = played("time-sources-ascending");
    assert_eq!([p.main(1), p.main(2)], [[2, 3], [3, 2]]);
    let p = played("start-settle-is-main");
    assert_eq!([&p.ticks[1].main, &p.ticks[3].main], [&[(1, 0), (3, 16)]; 2]);
    // A first reading of 0.0 is a change, and raises no pin.
    assert_eq!((&p.ticks[0].main[..], &p.ticks[2].main[..]), (&[(1, 0)][..], &[][..]));
    assert!(p.ticks.iter().all(|t| t.late.is_empty() && t.carried.is_empty()));
    assert_eq!(played("late-pass-has-no-cursor").late(2), [0, 4, 0, 4, 3, 3, 2, 2]);
    assert_eq!(played("ranks-fall-in-the-late-pass").late(2), [1, 3, 1, 3, 0, 3, 0, 3]);
    assert_eq!(played("oldest-of-a-rank").main(2), [0, 5, 4, 6, 3, 3]);
    let p = played("events-after-all");
    assert_eq!([p.late(3), p.late(4)], [vec![0, 3, 6, 4, 6], vec![3, 6, 4, 6]]);
}

#[test]
fn raised_again() {
    let p = played("late-unit-raises-itself");
    assert_eq!((p.late(2), p.ticks[1].steps), (vec![0, 2, 2, 2, 2, 2], 10));
    let p = played("endless-in-the-late-pass");
    assert_eq!(p.words[..7], [1, 2047, 1024, 0, 0, 12, 0]);
    let p = played("endless-by-carrying");
    assert_eq!((p.stop, p.done, p.main(1), p.main(2), p.carried(2)), (12, 2, vec![2], vec![0], vec![2]));
    assert_eq!((p.ticks[2].late.len(), p.carried(3)), (1024, vec![]));
}

#[test]
fn carried() {
    let p = played("carried-once");
    assert_eq!(p.ticks[3].carried, [(2, 0), (4, 32), (5, 16)]);
    assert_eq!(p.ticks[4].late, [(2, 0), (5, 16), (4, 32)]);
    assert_eq!([&p.ticks[7].carried, &p.ticks[8].late], [&[(2, 0), (4, 33)]; 2]);
    let p = played("carried-by-what-was-carried");
    assert_eq!((p.carried(4), p.late(5), p.carried(5)), (vec![3], vec![3, 4, 5], vec![]));
    // The first check of gate 3 calls and raises too: what it carries is over with tick 2.
    assert_eq!((p.main(1), p.carried(1), p.late(2)), (vec![4, 3, 5, 5], vec![4], vec![4]));
    let p = played("raised-in-the-main-pass");
    assert_eq!((p.main(3), p.carried(3), p.late(4)), (vec![0, 3, 4], vec![5, 6], vec![6, 5]));
    assert_eq!((p.main(1), p.carried(1), p.late(2)), (vec![6, 3, 5, 4, 4], vec![5, 6], vec![6, 5]));
}

#[test]
fn stopped_records() {
    // Two first checks and seven outputs of nothing, then the stopped record.
    let p = played("stopped-while-carrying");
    let first = [&[1, 0, 0, 2, 0, 0, 0, 2, 3, 0, 0][..], &[0; 14]].concat();
    assert_eq!(p.words, [&first[..], &[2, 257, 0, 2, 2, 12, 0, 0, 4, 0, 0, 2, 3, 0, 0]].concat());
    let p = played("stopped-before-the-main-pass");
    assert_eq!((p.carried(2), p.done), (vec![2], 2));
    assert_eq!(p.words[p.words.len() - 9..], [3, 257, 1, 0, 0, 12, 0, 2, 0]);
    // Eight times the watchers 9 to 40; the next tick moves them to late and stops there.
    let p = played("late-full-at-the-opening");
    assert_eq!((p.carried(2), p.done), (eight_times_32(), 2));
    assert_eq!(p.words[p.words.len() - 7..], [3, 0, 0, 0, 0, 12, 0]);
}

/// The watchers 9 to 40 of a Toggle that is flipped eight times.
fn eight_times_32() -> Vec<i64> {
    (9..=40).collect::<Vec<_>>().repeat(8)
}

// ---- what a record lists as carried ----

#[test]
fn the_order_carried() {
    // In tick 1 the first checks alone, by rank. In tick 2 the Clock flips 1, then 2: the watchers of 1
    // are checked first, 5 and 6, then those of 2, 3 and 4. In tick 3 the late pass goes by rank.
    let p = played("carried-against-ranks");
    let first = [&[1, 0, 0, 4, 0, 0, 0, 4, 6, 3, 5, 0, 0, 0, 0][..], &[0; 18]].concat();
    let shown = [0, 0, 3, 0, 3, 0, 0, 0, 0, 0, 0, 1, 0, 1, 0, 0, 0, 0];
    let second = [&[2, 2, 0, 1, 4, 0, 0, 0, 0, 5, 6, 3, 4, 0, 0, 0, 0][..], &shown].concat();
    let third = [&[3, 0, 4, 0, 0, 0, 0, 4, 6, 5, 3, 0, 0, 0, 0][..], &shown].concat();
    assert_eq!(p.words, [first, second, third].concat());
    // Clock 1, of rank 5, counts up 4 and flips 3; then Clock 0, of rank 6, flips 2 and counts up 4.
    let p = played("carried-by-two-units");
    let first = [&[1, 0, 0, 5, 0, 0, 0, 5, 8, 9, 7, 6][..], &[0; 5], &[0; 28]].concat();
    let shown = [0, 0, 0, 3, 0, 3, 0, 0, 1, 0, 0, 0, 0, 0, 0, 0, 0, 1, 0, 1, 0, 0, 2, 0, 0, 0, 0, 0];
    let second = [&[2, 4, 0, 2, 6, 0, 0, 1, 0, 0, 0, 9, 7, 8, 5, 6, 9][..], &[0; 6], &shown].concat();
    let third = [&[3, 0, 6, 0, 0, 0, 0, 8, 5, 9, 9, 7, 6][..], &[0; 6], &shown].concat();
    assert_eq!(p.words, [first, second, third].concat());
}

#[test]
fn every_form_that_can_be_carried() {
    let p = played("carried-forms");
    let pins: Vec<_> = (8..=14).map(|gate| (gate, 16)).collect();
    let stopwatch = [(7, 16), (7, 17), (7, 18)];
    let rest = [(15, 16), (15, 17), (16, 16), (17, 16), (4, 33)];
    assert_eq!(p.ticks[1].carried, [&[(5, 0), (6, 32)][..], &stopwatch, &pins, &rest].concat());
    // Even gates are of rank 4, odd ones of rank 5.
    let even = [(6, 32), (8, 16), (10, 16), (12, 16), (14, 16), (16, 16), (4, 33)];
    let odd = [(9, 16), (11, 16), (13, 16), (15, 16), (15, 17), (17, 16)];
    assert_eq!(p.ticks[2].late, [&even[..], &[(5, 0)], &stopwatch, &odd].concat());
    assert_eq!((p.ticks[2].steps, p.main(3), p.carried(3)), (14, vec![], vec![]));
}

#[test]
fn what_goes_out_is_listed() {
    // 1 is flipped in every tick from the second. Where it becomes true, 3 and the rising side of 5 are
    // raised; where false, the falling side and, behind the Select, 4. In tick 1 the first check of 4.
    let p = played("carried-in-and-out");
    let records: [(&[i64], [i64; 20]); 4] = [
        (&[1, 1, 0, 1, 0, 0, 0, 4, 16], [0, 0, 0, 3, 0, 0, 0, 3, 0, 0, 0, 0, 0, 1, 0, 0, 0, 1, 0, 0]),
        (
            &[2, 1, 0, 1, 2, 0, 0, 0, 0, 3, 5, 16, 32],
            [0, 0, 3, 3, 0, 0, 0, 3, 0, 0, 0, 0, 1, 0, 0, 0, 0, 1, 0, 0],
        ),
        (
            &[3, 2, 2, 1, 2, 0, 0, 5, 3, 0, 32, 16, 0, 5, 4, 33, 16],
            [0, 0, 3, 3, 0, 3, 0, 3, 0, 0, 0, 0, 0, 1, 0, 1, 0, 1, 0, 0],
        ),
        (
            &[4, 2, 2, 1, 2, 0, 0, 5, 4, 0, 33, 16, 0, 3, 5, 16, 32],
            [0, 0, 3, 3, 0, 3, 0, 3, 0, 0, 0, 0, 1, 0, 0, 1, 0, 0, 0, 0],
        ),
    ];
    let words: Vec<i64> = records.iter().flat_map(|(units, shown)| [units, &shown[..]].concat()).collect();
    assert_eq!((p.words, p.stop), (words, 0));
}

#[test]
fn what_a_stopped_record_lists() {
    // In tick 3 gate 3 begins, of the three that came in, and its chain never ends.
    let p = played("carried-in-stopped-late");
    let first = [&[1, 1, 0, 3, 0, 0, 0, 3, 4, 2, 0, 0, 0][..], &[0; 18]].concat();
    let shown = [0, 0, 3, 0, 0, 0, 0, 0, 0, 0, 0, 1, 0, 0, 0, 0, 0, 0];
    let second = [&[2, 1, 0, 1, 3, 0, 0, 0, 0, 2, 3, 4, 0, 0, 0][..], &shown].concat();
    assert_eq!(p.words, [first, second, vec![3, 257, 1, 0, 0, 12, 0, 3, 0]].concat());
    // Rank 4 carries ranks 4 and 1, and 7 and 9 wait for this tick; then the Clock of rank 5 begins.
    let p = played("carried-and-pending-12");
    let first = [&[1, 0, 0, 4, 0, 0, 0, 4, 2, 3, 5, 0, 0, 0, 0][..], &[0; 18]].concat();
    let second = vec![2, 257, 0, 2, 2, 12, 0, 0, 6, 0, 0, 2, 4, 0, 0];
    assert_eq!((p.words, p.done), ([first, second].concat(), 1));
    // The same in tick 1, where 4 and 2 begin by their first checks.
    let p = played("carried-and-pending-11");
    let first = [1, 50_000_001, 0, 4, 2, 11, 0, 4, 0, 2, 6, 0, 0, 0, 0, 2, 4, 0, 0];
    assert_eq!((&p.words[..], p.done), (&first[..], 0));
}

#[test]
fn the_printed_lines_list_it() {
    let case = case("carried-and-pending-12");
    let answer = run(&case.circuit, &case.script, &case.lent);
    let first = format!("1 0 0 4 0 0 0 4 2 3 5 0 0 0 0{}\n", " 0".repeat(18));
    assert_eq!(print(&answer), first + "2 257 0 2 2 12 0 0 6 0 0 2 4 0 0\nend 12 1\n");
}

// ---- chains ----

#[test]
fn calls() {
    let p = played("source-and-call");
    assert_eq!((p.ticks[0].steps, p.shown(1, 1, 1)), (2, no()));
    assert_eq!((p.ticks[1].steps, p.shown(2, 1, 1), p.late(2)), (1, yes(), vec![0]));
    let p = played("fan-out");
    assert_eq!([0, 1, 2, 3, 4, 5].map(|k| p.shown(1, 3 + 3 * k, 0).1), [1, 2, 3, 4, 6, 5]);
    let p = played("forks-of-forks");
    assert_eq!([0, 1, 2, 3, 4, 5].map(|k| p.shown(1, 3 + 3 * k, 0).1), [1, 3, 2, 4, 5, 6]);
    let p = played("reroute-both-ways");
    assert_eq!((p.ticks[0].steps, p.shown(1, 3, 0)), (3, int(5)));
    let p = played("ring-through-a-union");
    assert_eq!((p.ticks[0].steps, p.shown(2, 3, 1)), (4, no()));
    let p = played("union-once-a-tick");
    assert_eq!([1, 2, 3].map(|t| p.ticks[t].steps), [6, 3, 2]);
    assert_eq!(p.shown(4, 3, 2), int(3));
    // The unit of a first check is no step either.
    let p = played("what-costs-a-step");
    assert_eq!([0, 1, 2, 3].map(|t| p.ticks[t].steps), [0, 8, 0, 7]);
    assert_eq!(p.ticks[0].main, [(8, 0)]);
    assert_eq!(p.ticks[1].late, [(0, 2), (6, 16), (8, 0), (9, 32)]);
}

#[test]
fn variables() {
    let p = played("var-seen-directly");
    assert_eq!([1, 2].map(|t| (p.shown(t, 2, 0), p.shown(t, 3, 0))), [(int(5), int(0)), (int(6), int(5))]);
    let p = played("forks-before-publish");
    assert_eq!([1, 2].map(|t| (p.shown(t, 2, 0), p.shown(t, 3, 0))), [(int(1), int(9)), (int(9), int(9))]);
}

#[test]
fn sends() {
    let p = played("second-send");
    assert_eq!((p.shown(1, 2, 2), p.ticks[0].steps), (int(2), 4));
    assert_eq!([2, 3].map(|t| p.shown(t, 3, 1)), [int(1), int(3)]);
    let p = played("sends-in-order");
    assert_eq!(p.late(2), [0, 6, 8, 7, 9, 6, 8]);
    assert_eq!(p.late(3), [6, 8, 7, 9, 6, 8, 10]);
    assert_eq!([p.shown(3, 6, 1), p.shown(3, 7, 1), p.shown(3, 10, 1)], [int(2), int(3), int(4)]);
    let p = played("sent-again-next-tick");
    assert_eq!([2, 3, 4, 5].map(|t| p.shown(t, 3, 1).1), [1, 2, 3, 4]);
}

#[test]
fn cycles() {
    let p = played("cycle-counts");
    let shown = |t: usize| (2..=11).map(|g| p.shown(t, g, 2).1).collect::<Vec<_>>();
    assert_eq!(shown(1), [0, 0, 0, 0, 1, 0, 1, 0, 0, 0]);
    assert_eq!(shown(2), [0, 0, 0, 0, 2, 0, 0, 0, 0, 0]);
    assert_eq!(shown(3), [0, 0, 0, 0, 0, 0, 1, 0, 0, 0]);
    assert_eq!(shown(4), [0, 0, 0, 0, 0, 0, 0, 0, 0, 0]);
    assert_eq!(shown(5), [0, 0, 0, 0, 2, 0, 1, 0, 0, 0]);
    let p = played("cycle-ends");
    let shown: Vec<_> = (1..=7).map(|t| (p.shown(t, 3, 2).1, p.shown(t, 6, 2).1)).collect();
    let most = i64::MAX;
    let rows = [(most - 1, 9), (most - 2, 8), (0, 0), (most - 1, most - 1), (most - 1, 1022), (0, 0), (1, 1)];
    assert_eq!(shown, rows);
    assert!((1..=7).all(|t| p.shown(t, 4, 2).1 == p.shown(t, 3, 2).1 && p.shown(t, 5, 2) == int(0)));
}

/// Each number worked out by hand; between two of them the Cycle goes back to `most` - 1.
#[test]
fn a_count_that_shrinks() {
    let rows: [(&str, i64, &[i64]); 2] = [
        ("cycle-shrinks", 1_000_000, &[1, 999_998, 0, 499_998, 200_000, 199_998, 1, 6, 0, 0, 0, 0, 0, 0]),
        (
            "cycle-largest",
            i64::MAX,
            &[
                0,
                i64::MAX - 2,
                1,
                i64::MAX - 2,
                (1 << 62) - 1,
                (1 << 62) - 3,
                (1 << 32) - 1,
                (1 << 32) - 3,
                1,
                2,
                0,
                0,
            ],
        ),
    ];
    for (name, most, after) in rows {
        let p = played(name);
        assert_eq!(p.ticks.len(), 1 + 3 * after.len());
        for (k, &number) in after.iter().enumerate() {
            let shown = [1, 2, 3].map(|t| p.shown(3 * k + t, 3, 2));
            assert_eq!(shown, [int(most - 1), int(number), int(0)], "{name}, step {k}");
        }
        assert_eq!(p.shown(1 + 3 * after.len(), 3, 2), int(most - 1));
    }
}

#[test]
fn the_start() {
    // Beside the Var and the Select, only the two pulses of first checks, then what the buffers launched.
    let p = played("start-shows-nothing");
    assert_eq!((&p.ticks[0].main[..], p.begun()), (&[(9, 0), (10, 32)][..], 2));
    assert_eq!([p.shown(1, 3, 0), p.shown(1, 5, 0)], [int(4); 2]);
    assert_eq!([p.shown(1, 11, 0), p.shown(1, 12, 0)], [yes(); 2]);
    assert_eq!([p.shown(2, 7, 0), p.shown(2, 8, 0)], [int(5), float(5.0)]);
    assert_eq!([0, 1].map(|t| p.ticks[t].outputs.iter().filter(|&&o| o != NOTHING).count()), [4, 6]);
    let p = played("stored-zero");
    assert_eq!([p.shown(1, 1, 0), p.shown(1, 2, 0), p.shown(1, 4, 0), p.shown(2, 6, 1)], [(FLOAT, 0); 4]);
    assert_eq!(p.begun_in(3), [1, 2, 3]);
}

/// What the gates 4 to 16 of the circuits for watched kinds read at the start.
const AT_THE_START: [(i64, i64); 13] = [
    NOTHING,
    NOTHING,
    NOTHING,
    (INT, 5),
    (INT, 0),
    (INT, -5),
    (BOOL, 1),
    (BOOL, 0),
    (FLOAT, 1.5f64.to_bits() as i64),
    (FLOAT, LEAST),
    (FLOAT, (-1.5f64).to_bits() as i64),
    (INT, 7),
    (INT, 7),
];

/// Those that are above 0.0, and below.
const ABOVE: [i64; 5] = [7, 10, 12, 15, 16];
const BELOW: [i64; 2] = [9, 14];

#[test]
fn every_watched_kind_notices_what_it_reads_at_the_start() {
    let p = played("start-change-detector");
    assert_eq!((p.main(1), p.begun()), ((4..=16).collect(), 13));
    let p = played("start-edge-exec");
    let forms = |g| (g, if ABOVE.contains(&g) { 32 } else { 33 });
    let edges: Vec<_> = (4..=16).filter(|g| ABOVE.contains(g) || BELOW.contains(g)).map(forms).collect();
    assert_eq!((&p.ticks[0].main, p.begun()), (&edges, 7));
    let pulse = [yes(), yes(), no(), no()];
    let (edge, change) = (played("start-edge"), played("start-change"));
    for gate in 4..=16 {
        let shown = |p: &Played, out| [1, 2, 3, 4].map(|t| p.shown(t, gate, out));
        let when = |up: bool| if up { pulse } else { [NOTHING; 4] };
        assert_eq!(shown(&edge, 0), when(ABOVE.contains(&(gate as i64))), "{gate} rises");
        assert_eq!(shown(&edge, 1), when(BELOW.contains(&(gate as i64))), "{gate} falls");
        assert_eq!(shown(&change, 0), pulse, "{gate} changes");
        for name in ["start-buffer-ticks", "start-buffer-seconds"] {
            let read = AT_THE_START[gate - 4];
            assert_eq!(shown(&played(name), 0), [NOTHING, NOTHING, read, read], "{name}: {gate}");
        }
    }
    assert_eq!((edge.begun(), change.begun()), (0, 0));
}

#[test]
fn pins_that_read_true_at_the_start_are_raised() {
    let p = played("start-pins-true");
    let pins = [(2, 16), (2, 17), (2, 18), (3, 16), (4, 16), (5, 16), (6, 16), (7, 16), (8, 16), (9, 16)];
    assert_eq!(p.ticks[0].main, [&pins[..], &[(10, 16), (10, 17), (11, 16), (12, 16)]].concat());
    for name in ["start-pins-false", "start-pins-nothing"] {
        assert_eq!(played(name).begun(), 0, "{name}");
    }
    let p = played("start-two-pins");
    assert_eq!(p.ticks[0].main, [(1, 16), (1, 17), (2, 16), (2, 17), (2, 18)]);
    assert_eq!((p.shown(1, 1, 2), p.shown(1, 2, 0), p.shown(2, 2, 0)), (int(0), float(0.0), float(0.25)));
}

#[test]
fn first_checks_are_made_as_tick_1_opens() {
    assert_eq!(played("start-ascending").main(1), [8, 3, 4, 5, 6, 7]);
    assert_eq!(played("start-keeps-its-place").main(1), [2, 3, 3, 2]);
    let passes = |name| (played(name).late(1), played(name).main(1));
    assert_eq!(passes("start-main-pass"), (vec![0], vec![2]));
    assert_eq!(passes("start-second-first"), (vec![0, 1], vec![1]));
    assert_eq!(passes("start-var-set-late"), (vec![0, 6], vec![5, 6]));
    assert_eq!(passes("start-clocks-first"), (vec![], vec![2, 1, 3]));
    let p = played("start-this-ticks-time");
    assert_eq!((&p.ticks[0].main[..], p.begun()), (&[(2, 32), (5, 16)][..], 2));
    assert_eq!((p.shown(1, 3, 0), p.shown(1, 4, 0), p.shown(2, 4, 0)), (yes(), NOTHING, float(0.25)));
    let p = played("start-no-length");
    assert_eq!((p.begun(), p.shown(1, 3, 0), p.shown(2, 4, 0)), (0, NOTHING, float(0.0)));
    let p = played("start-pulses-and-watchers");
    assert_eq!([1, 2, 3, 4].map(|t| p.main(t)), [vec![0, 3, 0], vec![], vec![0, 3], vec![]]);
    let empty = played("start-no-ticks");
    assert_eq!((empty.words.len(), empty.stop, empty.done), (0, 0, 0));
}

#[test]
fn a_buffer_that_launched_nothing_is_in_flight() {
    for (name, due) in [("start-buffer-in-flight", 7), ("start-buffer-zero-wait", 5)] {
        let p = played(name);
        for gate in [1, 2] {
            let shown: Vec<_> = (1..=8).map(|t| p.shown(t, gate, 0)).collect();
            let wanted: Vec<_> = (1..=8).map(|t| if t < due { NOTHING } else { int(5) }).collect();
            assert_eq!(shown, wanted, "{name}: {gate}");
        }
    }
    let p = played("start-lands-nothing");
    assert_eq!([1, 2, 3, 4].map(|t| p.main(t)), [vec![2, 3], vec![], vec![3], vec![]]);
}

#[test]
fn units_of_first_checks_are_like_others() {
    let p = played("start-carries");
    assert_eq!((p.main(1), p.late(2), p.begun()), (vec![2, 5], vec![3, 4], 4));
    assert_eq!(p.ticks[0].carried, [(3, 32), (4, 32)]);
    let p = played("start-sends");
    assert_eq!((p.main(1), &p.ticks[1].late[..], p.shown(2, 3, 1)), (vec![1], &[(3, 1)][..], int(7)));
    let p = played("start-pending-256");
    assert_eq!((p.main(1).len(), p.begun(), p.stop), (256, 256, 0));
    assert_eq!(played("start-pending-257").words, [1, 0, 0, 0, 0, 12, 0]);
    let p = played("card-in-the-slot");
    assert_eq!([p.late(1), p.main(1), p.late(3), p.main(3)], [vec![], vec![4], vec![0, 4], vec![]]);
    assert_eq!([1, 2, 3, 4].map(|t| p.shown(t, 2, 0)), [int(7), int(7), int(9), int(9)]);
    let p = played("card-swapped-in-tick-1");
    assert_eq!((p.late(1), p.main(1), p.shown(1, 2, 0)), (vec![0, 4], vec![4], int(9)));
}

// ---- limits ----

#[test]
fn limits_pass_at_their_edge_and_stop_past_it() {
    let rows: [(&str, &[i64]); 15] = [
        ("pending", &[2, 9, 0, 8, 0, 12]),
        ("pending-at-the-opening", &[2, 0, 0, 0, 0, 12]),
        ("late", &[2, 9, 8, 0, 0, 12]),
        ("late-by-fires", &[2, 0, 0, 0, 0, 12]),
        ("carried", &[2, 9, 0, 8, 256, 12]),
        ("forks", &[1, 2, 1, 0, 0, 12]),
        ("forks-of-a-fork", &[1, 4, 1, 0, 0, 12]),
        ("chain-stack", &[1, 3, 1, 0, 0, 12]),
        ("chain-stack-from-a-pin", &[1, 256, 2, 0, 0, 12]),
        ("delivered", &[2, 0, 0, 0, 0, 12]),
        ("delivered-to-many", &[2, 0, 0, 0, 0, 12]),
        ("fires", &[1, 33, 33, 0, 0, 12]),
        ("fires-over-ticks", &[4, 1, 1, 0, 0, 12]),
        ("units-late", &[2, 65, 1024, 0, 0, 12]),
        ("units-main", &[2, 64, 1024, 0, 0, 12]),
    ];
    for (name, head) in rows {
        let names: Vec<String> = STATED.iter().map(|c| c.name.clone()).filter(|n| is_edge(n, name)).collect();
        assert_eq!(names.len(), 2, "{name}");
        assert_eq!(played(&names[0]).stop, 0, "{name}");
        let p = played(&names[1]);
        let last = p.ticks.last().unwrap();
        let [late, main, carried] = [&last.late, &last.main, &last.carried].map(|units| units.len() as i64);
        assert_eq!([last.tick, last.steps, late, main, carried, last.stop], *head, "{name}");
        assert_eq!((p.stop, p.done as i64), (12, head[0] - 1), "{name}");
    }
}

/// Whether a case is one of a limit: its name and a number.
fn is_edge(case: &str, limit: &str) -> bool {
    case.strip_prefix(limit).and_then(|rest| rest.strip_prefix('-')).is_some_and(|n| n.parse::<u64>().is_ok())
}

#[test]
fn the_edge_is_reached() {
    // All of them of form 0; the 257th is not listed.
    for name in ["carried-256", "carried-257"] {
        let carried = eight_times_32().into_iter().map(|gate| (gate, 0)).collect::<Vec<_>>();
        assert_eq!(played(name).ticks[1].carried, carried, "{name}");
    }
    // The even ones are of rank 0, the odd ones of rank 1.
    let [even, odd] = [10, 9].map(|first| (first..=40).step_by(2).collect::<Vec<_>>().repeat(8));
    assert_eq!(played("carried-256").late(3), [even, odd].concat());
    // Beside the 32 first checks of tick 1.
    let p = played("pending-at-the-opening-256");
    assert_eq!((p.main(1).len(), p.main(2).len()), (32, 256));
    assert_eq!(played("delivered-64").late(3).len(), 64);
    assert_eq!(played("fires-32").late(3).len(), 32);
    assert_eq!(played("units-late-1024").late(2).len(), 1024);
    assert_eq!(played("forks-256").ticks[0].steps, 258);
    assert_eq!(played("late-by-fires-256").late(2).len(), 256);
    assert_eq!(played("late-beside-delivered").late(2).len(), 8 + 256 + 64);
    assert_eq!(played("forks-beside-the-stack").ticks[0].steps, 2 + 150 + 200);
    assert_eq!(played("chain-stack-from-a-pin-256").ticks[0].steps, 257);
}

#[test]
fn logs() {
    let rows = [
        ("log-exact", 0, 2, 34),
        ("log-byte-short", 13, 1, 17),
        ("log-word-short", 13, 1, 17),
        ("log-byte-over", 0, 2, 34),
        ("log-one-record-short", 13, 0, 0),
        ("log-empty", 13, 0, 0),
        ("log-empty-no-ticks", 0, 0, 0),
        ("log-12-exact", 12, 0, 9),
        ("log-12-byte-short", 13, 0, 0),
        ("log-12-empty", 13, 0, 0),
        ("log-11-exact", 11, 0, 9),
        ("log-11-byte-short", 13, 0, 0),
        ("log-carried-exact", 0, 2, 68),
        ("log-carried-byte-short", 13, 1, 33),
        ("log-carried-word-short", 13, 1, 33),
        ("log-carried-12-exact", 12, 1, 48),
        ("log-carried-12-byte-short", 13, 1, 33),
        ("log-carried-12-word-short", 13, 1, 33),
    ];
    for (name, stop, done, words) in rows {
        let p = played(name);
        assert_eq!((p.stop, p.done, p.words.len()), (stop, done, words), "{name}");
    }
    assert_eq!(played("log-11-exact").words, [1, 50_000_001, 1, 0, 0, 11, 0, 0, 2]);
    assert_eq!(played("log-12-exact").words, [1, 256, 1, 0, 0, 12, 0, 0, 2]);
}

// ---- questions ----

/// The question and the answer that a case's name says.
fn named(case: &Case) -> Option<(u8, bool)> {
    let (question, rest) = case.name.strip_prefix('q')?.split_once('-')?;
    Some((question.parse().ok()?, rest.starts_with("yes-")))
}

#[test]
fn questions() {
    let mut asked = [[0; 2]; 20];
    for case in STATED.iter() {
        let Some((question, yes)) = named(case) else { continue };
        let answer = run(&case.circuit, &case.script, &case.lent);
        if yes {
            assert!(matches!(answer, Answer::Played { .. }), "{}: {answer:?}", case.name);
            assert_eq!(check(&case.circuit, &case.script), 0, "{}", case.name);
        } else {
            assert_eq!(answer, Answer::Refused(question), "{}", case.name);
            if question != 7 {
                assert_eq!(check(&case.circuit, &case.script), question, "{}", case.name);
            }
        }
        asked[question as usize][usize::from(yes)] += 1;
    }
    assert!(ASKED.iter().all(|&n| asked[n as usize][0] > 3 && asked[n as usize][1] > 0), "{asked:?}");
}

#[test]
fn without_areas_question_7_asks_the_queues_alone() {
    for case in STATED.iter().filter(|c| c.name.starts_with("q7-no-")) {
        let expected = match case.name.strip_prefix("q7-no-and-") {
            Some(other) => other.parse().unwrap(),
            None if case.name.contains("nine-queues") => 7,
            None => 0,
        };
        assert_eq!(check(&case.circuit, &case.script), expected, "{}", case.name);
    }
}

// ---- all of them ----

#[test]
fn every_log_is_made_of_whole_records() {
    for case in STATED.iter() {
        if let Some(p) = reading::read(case) {
            p.assert_whole(case);
        }
    }
}

#[test]
fn every_place_is_told_or_held_otherwise() {
    for place in 1..=circuits::PLACES.len() as u8 {
        let told = STATED.iter().any(|c| c.trap.contains(&place));
        let otherwise = circuits::HELD_OTHERWISE.iter().any(|held| held.0 == place);
        assert!(told != otherwise, "place {place}");
    }
}

#[test]
fn names_are_unique() {
    let mut names: Vec<&str> = STATED.iter().map(|c| c.name.as_str()).collect();
    let n = names.len();
    names.sort();
    names.dedup();
    assert_eq!(names.len(), n);
}

#[test]
fn every_kind_and_form_begins() {
    let mut begun = std::collections::BTreeSet::new();
    for case in circuits::groups().iter().filter(|g| g.name == "kinds").flat_map(|g| &g.cases) {
        let p = reading::read(case).unwrap();
        for tick in &p.ticks {
            for &(gate, form) in tick.late.iter().chain(&tick.main) {
                begun.insert((p.kinds[gate as usize], form));
            }
        }
    }
    let mut wanted = vec![(6, 0), (9, 32), (9, 33), (11, 0), (13, 0), (14, 0), (15, 0), (16, 0), (17, 0)];
    wanted.extend([(26, 1), (27, 1), (28, 2), (15, 16), (15, 17), (15, 18), (23, 16), (23, 17)]);
    wanted.extend((16..=22).map(|kind| (kind, 16)));
    wanted.extend([(24, 16), (25, 16), (29, 16), (31, 16)]);
    for form in wanted {
        assert!(begun.contains(&form), "{form:?}");
    }
}

#[test]
fn vehicles() {
    for case in circuits::groups().iter().filter(|g| g.name == "vehicles").flat_map(|g| &g.cases) {
        let p = reading::read(case).unwrap();
        assert!((20..=64).contains(&p.kinds.len()), "{}: {} gates", case.name, p.kinds.len());
        assert!((500..=20_000).contains(&p.ticks.len()), "{}: {} ticks", case.name, p.ticks.len());
        assert_eq!((p.stop, p.done as usize), (0, p.ticks.len()), "{}", case.name);
        assert!(records_every_activity(&p), "{}", case.name);
        let gaps = reading::gaps(case, |kind, content| kind == INT && content > 100);
        assert!((1..=12).all(|gap| gaps.contains(&gap)), "{}: {gaps:?}", case.name);
    }
}

/// Whether some Var held each of the activities 0 to 3.
fn records_every_activity(p: &Played) -> bool {
    let vars = (0..p.kinds.len()).filter(|&g| p.kinds[g] == oracle::build::VAR);
    let held = |g: usize, n: i64| (1..=p.ticks.len()).any(|t| p.shown(t, g, 0) == int(n));
    vars.into_iter().any(|g| (0..=3).all(|n| held(g, n)))
}

#[test]
fn the_list_is_up_to_date() {
    let path = concat!(env!("CARGO_MANIFEST_DIR"), "/../docs/CIRCUITS.md");
    let text = std::fs::read_to_string(path).expect("docs/CIRCUITS.md");
    assert!(text == circuits::document(), "write it again: oracle circuits > docs/CIRCUITS.md");
}

#[test]
fn the_vectors_are_up_to_date() {
    let dir = concat!(env!("CARGO_MANIFEST_DIR"), "/../vectors");
    for group in circuits::groups() {
        let name = oracle::vectors::file_name(&group);
        let text = std::fs::read_to_string(format!("{dir}/{name}")).expect("the group's vectors");
        assert!(text == oracle::vectors::text(&group), "write {name} again: oracle vectors vectors");
    }
}

#[test]
fn the_hash_is_fnv_1a() {
    // The bytes of the word spell "foobar" and two zeros.
    assert_eq!(oracle::vectors::fnv(&[]), 0xcbf2_9ce4_8422_2325);
    assert_eq!(oracle::vectors::fnv(&[i64::from_le_bytes(*b"foobar\0\0")]), 0x74c8_e7eb_4f24_5c28);
}
