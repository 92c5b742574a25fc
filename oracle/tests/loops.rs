//! Counted loops (document 02, K5): the stated circuits of the group `loops`,
//! each with its answer worked out by hand from document 02 and the source's
//! text.

mod reading;

use std::collections::BTreeSet;
use std::sync::LazyLock;

use oracle::build::{BREAK, RANKS, SELECT};
use oracle::circuits::{self, Case};
use oracle::{Answer, check, run};
use reading::{Played, circuit_of, played, read};

static LOOPS: LazyLock<Vec<Case>> = LazyLock::new(|| {
    let groups = circuits::groups();
    groups.into_iter().find(|group| group.name == "loops").unwrap().cases
});

const NOTHING: (i64, i64) = (0, 0);

fn int(n: i64) -> (i64, i64) {
    (1, n)
}

fn float(f: f64) -> (i64, i64) {
    (2, f.to_bits() as i64)
}

fn yes() -> (i64, i64) {
    (3, 1)
}

fn no() -> (i64, i64) {
    (3, 0)
}

/// The outputs of a Loop: Completed, IterationsExecuted, bAborted, bRunning.
fn loop_shows(p: &Played, tick: usize, gate: usize) -> [(i64, i64); 4] {
    [0, 1, 2, 3].map(|out| p.shown(tick, gate, out))
}

/// What a Loop shows after so many runs that were not aborted.
fn ran(runs: i64) -> [(i64, i64); 4] {
    [NOTHING, int(runs), no(), no()]
}

fn aborted_after(runs: i64) -> [(i64, i64); 4] {
    [NOTHING, int(runs), yes(), no()]
}

const NOT_YET: [(i64, i64); 4] = [NOTHING; 4];

// ---- what a Loop reads, runs and shows ----

#[test]
fn a_loop_counts() {
    // Outputs: World 2, Loop 4, entry 2, Queue 9, Toggle 2.
    let p = played("loop-counts");
    let first = [&[1, 0, 0, 0, 0, 0, 0][..], &[0; 38]].concat();
    // The Loop, the Queue three times, the Toggle.
    let kinds = [0, 0, 0, 1, 3, 3, 0, 1, 0, 0, 0, 0, 0, 0, 0, 0, 0, 0, 3];
    let contents = [0, 0, 0, 3, 0, 0, 0, 20, 0, 0, 0, 0, 0, 0, 0, 0, 0, 0, 1];
    let second = [&[2, 5, 1, 0, 0, 0, 0, 0, 2][..], &kinds, &contents].concat();
    assert_eq!(p.words[..first.len() + second.len()], [first, second].concat());
    for (tick, index) in [(3, 10), (4, 15), (5, 20)] {
        assert_eq!((p.shown(tick, 3, 1), &p.ticks[tick - 1].late[..]), (int(index), &[(3, 0)][..]));
    }
}

#[test]
fn what_the_inputs_of_a_loop_mean() {
    let p = played("loop-inputs");
    let rows = [
        (0, NOTHING),
        (2, int(1)),
        (1, int(1)),
        (0, NOTHING),
        (3, int(-2)),
        (3, int(-2)),
        (0, NOTHING),
        (0, NOTHING),
        (2, int(i64::MIN + 1)),
        (2, int(i64::MIN)),
        (0, NOTHING),
        (2, int(1)),
    ];
    for (k, (runs, index)) in rows.into_iter().enumerate() {
        assert_eq!(loop_shows(&p, 1, 1 + 2 * k), ran(runs), "Loop {k}");
        assert_eq!(p.shown(1, 2 + 2 * k, 1), index, "Loop {k}");
    }
    assert_eq!(p.ticks[0].steps, 12);
}

/// What the Queue of this number hands out in the ticks from 2 on.
fn handed_out(p: &Played, queue: usize) -> Vec<i64> {
    (2..=p.ticks.len()).map(|t| p.shown(t, queue, 1).1).collect()
}

#[test]
fn an_index_wraps() {
    let p = played("loop-index-wraps");
    let (most, least) = (i64::MAX, i64::MIN);
    assert_eq!(handed_out(&p, 3), [most - 1, most, least, least + 1]);
    assert_eq!(handed_out(&p, 6), [0, 1 << 62, least, -(1 << 62)]);
    assert_eq!(handed_out(&p, 9), [5, least + 5, 5, least + 5]);
    assert_eq!(handed_out(&p, 12), [least, most, most - 1, most - 2]);
}

#[test]
fn a_count_is_read_once_and_may_be_the_largest() {
    // The Loop, three times Cycle and Branch, the Break.
    let p = played("loop-largest-count");
    assert_eq!((loop_shows(&p, 1, 1), p.shown(1, 2, 1), p.ticks[0].steps), (ran(3), int(2), 8));
    let p = played("loop-reads-once");
    assert_eq!([2, 3, 4, 5].map(|t| p.shown(t, 6, 1)), [int(10), int(15), int(20), int(100)]);
    assert_eq!([1, 4].map(|t| loop_shows(&p, t, 4)), [ran(3), ran(1)]);
    assert_eq!([0, 3].map(|t| p.ticks[t].steps), [1 + 3 * 4, 1 + 4]);
    for pin in ["count", "firstindex", "step"] {
        let p = played(&format!("reads-loop-{pin}"));
        let runs = i64::from(pin == "count");
        assert_eq!((p.shown(1, 2, 0), loop_shows(&p, 1, 6)), (int(1), ran(runs)), "{pin}");
    }
}

#[test]
fn equal_values_mark_nothing() {
    let seen = |name| (played(name).shown(1, 2, 0), played(name).shown(1, 5, 0), played(name).shown(1, 4, 1));
    assert_eq!(seen("loop-step-0"), (int(1), int(2), int(4)));
    assert_eq!(seen("loop-step-1"), (int(2), int(2), int(5)));
    let p = played("loop-outputs-equal");
    for tick in [1, 2] {
        assert_eq!([2, 3, 4].map(|result| p.shown(tick, result, 0)), [int(1); 3]);
        assert_eq!([9, 11, 13].map(|select| p.shown(tick, select, 0)), [int(tick as i64); 3]);
    }
}

#[test]
fn what_is_shown_and_when() {
    let p = played("loop-shows-the-last");
    let kept = |t: usize| [1, 2, 3, 4].map(|out| p.shown(t, 3, out));
    assert_eq!(kept(2), [NOTHING, NOTHING, NOTHING, int(0)]);
    assert_eq!(kept(3), [NOTHING, NOTHING, NOTHING, int(1)]);
    assert_eq!(kept(4), [int(2), no(), no(), int(0)]);
    assert_eq!([1, 2, 3].map(|t| loop_shows(&p, t, 1)), [ran(2), ran(1), ran(1)]);
    let p = played("loop-order-of-checks");
    assert_eq!((p.main(1), p.late(2), p.ticks[1].steps), (vec![3, 4, 5, 6], vec![0, 6, 5, 4, 3], 1));
    // Each notes which came before: one nothing, two itself, three two, four three.
    let p = played("loop-in-its-chain");
    assert_eq!([2, 5, 8, 11, 1].map(|var| p.shown(1, var, 0)), [NOTHING, int(2), int(2), int(3), int(4)]);
    assert_eq!(p.ticks[0].steps, 2 + 1 + 2 * 2 + 2 + 2);
    let p = played("loop-empty-body");
    assert_eq!((loop_shows(&p, 1, 1), p.shown(1, 2, 1), p.ticks[0].steps), (ran(5), int(4), 1));
}

#[test]
fn how_a_loop_is_entered() {
    // The Break, of rank 2, and its Toggle; then the Loop and two runs of the Cycle.
    let p = played("loop-by-its-pin");
    assert_eq!((&p.ticks[0].late[..], p.ticks[0].steps), (&[(0, 2), (4, 16), (1, 16)][..], 5));
    assert_eq!((loop_shows(&p, 1, 1), p.shown(1, 3, 2), p.shown(1, 5, 1)), (ran(2), int(2), yes()));
    let p = played("loop-at-the-start");
    assert_eq!(p.ticks[0].main, [(2, 16), (5, 0)]);
    assert_eq!((&p.ticks[0].carried[..], p.ticks[0].steps), (&[(5, 0)][..], 3));
    assert_eq!((p.shown(1, 1, 0), &p.ticks[1].late[..], p.main(2)), (int(6), &[(5, 0)][..], vec![]));
    let p = played("loop-twice-in-a-chain");
    assert_eq!((handed_out(&p, 3), p.ticks[0].steps), (vec![7, 8, 7, 8], 6));
    // The Loop, 3, the Union, the Loop, 3, the Union, which blocks.
    let p = played("loop-again-by-its-completed");
    assert_eq!((p.shown(1, 3, 2), p.ticks[0].steps, loop_shows(&p, 1, 1)), (int(6), 10, ran(3)));
}

#[test]
fn loops_in_loops() {
    let p = played("loop-nested");
    let kept: Vec<_> = (2..=7).map(|t| (p.shown(t, 5, 1).1, p.shown(t, 5, 2).1)).collect();
    assert_eq!(kept, [(0, 0), (10, 0), (1, 1), (11, 1), (2, 2), (12, 2)]);
    assert_eq!((p.ticks[0].steps, p.shown(1, 6, 2)), (1 + 3 * (1 + 2 + 1), int(3)));
    assert_eq!([1, 3].map(|gate| loop_shows(&p, 1, gate)), [ran(3), ran(2)]);
    let p = played("loop-counted-by-an-index");
    assert_eq!((p.ticks[0].steps, p.shown(1, 5, 2)), (1 + 4 + 6, int(6)));
    assert_eq!([1, 3].map(|gate| loop_shows(&p, 1, gate)), [ran(4), ran(3)]);
    let p = played("loop-three-deep");
    assert_eq!([7, 8, 9].map(|gate| p.shown(1, gate, 2)), [int(2), int(6), int(24)]);
    assert_eq!(p.ticks[0].steps, 1 + 2 * (1 + 1 + 3 * (1 + 4 + 1)));
    assert_eq!([5, 3, 1].map(|gate| loop_shows(&p, 1, gate)), [ran(2), ran(3), ran(4)]);
}

#[test]
fn ranks_do_not_have_their_bodies() {
    let p = played("ranks-of-bodies");
    assert_eq!(p.main(1), [8, 9, 7, 10, 6, 11]);
    assert_eq!((p.main(2), p.carried(2)), (vec![4, 7, 10, 6, 11], vec![8, 9]));
    assert_eq!((p.late(3), p.main(3)), (vec![8, 9], vec![]));
    let p = played("units-of-bodies");
    assert_eq!((&p.ticks[0].late[..], p.ticks[0].steps), (&[(2, 2)][..], 3));
    assert_eq!((&p.ticks[1].late[..], p.ticks[1].steps), (&[(6, 0), (5, 0), (4, 1)][..], 3));
    assert_eq!([p.shown(2, 4, 1), p.shown(2, 6, 1), p.shown(2, 7, 2)], [int(7), int(7), int(3)]);
    assert_eq!((loop_shows(&p, 3, 0), p.shown(3, 1, 1), p.late(3)), (NOT_YET, NOTHING, vec![]));
}

#[test]
fn what_lies_in_a_body() {
    // The watchers of Index itself are checked first, the EdgeExec 7 among them, then the one behind the Select.
    let p = played("watchers-in-a-body");
    assert_eq!((p.main(1), &p.ticks[2].late[..]), (vec![4], &[(0, 2), (7, 32), (4, 0)][..]));
    assert_eq!((p.late(4), p.late(5), [2, 3].map(|t| p.ticks[t].steps)), (vec![0], vec![], [1, 1]));
    let shown = |gate, out| [1, 2, 3, 4, 5].map(|t| p.shown(t, gate, out));
    assert_eq!(shown(3, 0), [NOTHING, NOTHING, int(1), int(1), int(1)]);
    assert_eq!(shown(5, 0), [NOTHING, NOTHING, yes(), yes(), no()]);
    assert_eq!(shown(5, 1), [NOTHING; 5]);
    // The first reading is a change too; its pulse ends as tick 3 opens.
    assert_eq!(shown(6, 0), [yes(), yes(), yes(), yes(), no()]);
    assert_eq!(shown(8, 0), [NOTHING, NOTHING, NOTHING, int(1), int(1)]);
    // DeltaTime 3, ServerUptime 4, Stopwatch 5, buffer 6, Queue 7, Toggle 8. Tick 2: the Loop and twice two calls.
    let p = played("times-in-a-body");
    let shown = |gate, out| [1, 2, 3, 4].map(|t| p.shown(t, gate, out));
    assert_eq!(shown(3, 0), [0.5, 0.25, 0.125, 0.5].map(float));
    assert_eq!(shown(4, 0), [0.5, 0.75, 0.875, 1.375].map(float));
    assert_eq!(shown(5, 0), [NOTHING, float(0.0), float(0.125), float(0.5)]);
    assert_eq!(shown(6, 0), [NOTHING, NOTHING, NOTHING, int(1)]);
    assert_eq!([3, 4].map(|t| (p.shown(t, 7, 1), p.shown(t, 7, 2))), [(float(0.25), float(0.75)); 2]);
    assert_eq!((p.ticks[1].steps, &p.ticks[2].late[..], p.ticks[2].steps), (1 + 2 * 2, &[(7, 0)][..], 0));
    assert_eq!((&p.ticks[3].late[..], p.ticks[3].steps, p.shown(4, 8, 1)), (&[(7, 0), (5, 0)][..], 1, yes()));
    let p = played("global-send-in-a-body");
    assert_eq!([0, 1].map(|t| p.ticks[t].steps), [1 + 2, 1]);
    assert_eq!((&p.ticks[1].late[..], p.shown(2, 4, 1), p.shown(2, 5, 2)), (&[(4, 1)][..], int(0), int(1)));
}

/// Every kind lies in a body in one of these circuits.
#[test]
fn every_kind_in_a_body() {
    let by_hand = LOOPS.iter().filter(|case| !case.name.starts_with('q'));
    let gates = by_hand.flat_map(|case| circuit_of(case).0.gates);
    let kinds: BTreeSet<i64> = gates.filter(|gate| gate.1 >= RANKS).map(|gate| gate.0).collect();
    assert!(kinds.iter().copied().eq(SELECT..=BREAK), "{kinds:?}");
}

// ---- Breaks ----

#[test]
fn a_break_ends_its_loop_after_the_run() {
    // The Loop; the Break, x, y, the Break, x; and behind Completed the last Toggle.
    let p = played("break-goes-on");
    assert_eq!((loop_shows(&p, 1, 1), p.shown(1, 2, 1), p.ticks[0].steps), (ran(1), int(0), 1 + 5 + 1));
    assert_eq!([4, 5, 6].map(|toggle| p.shown(1, toggle, 1)), [no(), yes(), yes()]);
    // Runs of the outer Loop and of the inner one, what was counted, and steps.
    let rows = [
        ("break-inner", 2, 1, int(2), 1 + 2 * 3),
        ("break-outer", 1, 3, int(3), 1 + 1 + 3 + 1),
        ("break-before-an-inner-loop", 1, 3, int(3), 1 + 1 + 1 + 3),
        ("break-before-an-empty-loop", 1, 0, NOTHING, 1 + 1 + 1),
        ("break-by-an-inner-completed", 1, 3, int(3), 1 + 1 + 3 + 1),
        ("break-in-both", 1, 1, int(1), 1 + 1 + 1 + 1 + 1),
    ];
    for (name, outer, inner, counted, steps) in rows {
        let p = played(name);
        assert_eq!([1, 3].map(|gate| loop_shows(&p, 1, gate)), [ran(outer), ran(inner)], "{name}");
        assert_eq!((p.shown(1, 5, 2), p.ticks[0].steps), (counted, steps), "{name}");
    }
}

#[test]
fn a_break_outside_ends_nothing() {
    let p = played("break-outside");
    for tick in [1, 2] {
        assert_eq!((loop_shows(&p, tick, 1), p.shown(tick, 5, 1)), (ran(3), no()));
        assert_eq!((p.shown(tick, 3, 2), p.ticks[tick - 1].steps), (int(3 * tick as i64), 2 + 4 + 2));
    }
    let p = played("break-by-a-fork");
    for tick in [1, 2] {
        assert_eq!((loop_shows(&p, tick, 1), p.ticks[tick - 1].steps), (ran(3), 1 + 3 + 3));
        assert_eq!(p.shown(tick, 3, 2), int(3 * tick as i64));
    }
    let p = played("break-by-a-unit");
    assert_eq!(p.ticks[0].late, [(5, 2), (4, 16), (0, 2)]);
    assert_eq!((loop_shows(&p, 1, 1), p.ticks[0].steps), (ran(3), 1 + 1 + 3));
}

// ---- Unions, forks, the chain stack ----

#[test]
fn unions_in_bodies() {
    let p = played("union-in-a-body");
    assert_eq!([1, 2].map(|t| (p.shown(t, 4, 2), p.ticks[t - 1].steps)), [(int(3), 10), (int(6), 10)]);
    let p = played("union-around-a-loop");
    assert_eq!((p.shown(1, 7, 2), p.shown(1, 8, 2), p.ticks[0].steps), (int(2), int(4), 21));
    // The Loop, three times Union and Cycle; then Union, Cycle, Union, Union.
    let p = played("union-in-forks");
    assert_eq!([1, 2].map(|t| (p.shown(t, 4, 2), p.ticks[t - 1].steps)), [(int(4), 11), (int(8), 11)]);
    // The same runs, then the Union with its Cycle, then the Union alone.
    let p = played("union-as-a-unit");
    assert_eq!(p.ticks[0].late, [(0, 2), (1, 2), (1, 2), (4, 16), (4, 16)]);
    assert_eq!((p.shown(1, 5, 2), p.ticks[0].steps), (int(4), 7 + 2 + 1));
    // The Union with its Cycle, the Loop, three times both, three forks that the Union blocks.
    let p = played("union-after-a-unit");
    assert_eq!(p.ticks[0].late, [(1, 2), (4, 16), (0, 2)]);
    assert_eq!((p.shown(1, 5, 2), p.ticks[0].steps), (int(4), 2 + 1 + 6 + 3));
}

#[test]
fn forks_of_bodies() {
    let p = played("fork-of-a-body");
    assert_eq!([5, 8, 2, 11, 1].map(|var| p.shown(1, var, 0)), [NOTHING, int(2), int(3), int(1), int(4)]);
    assert_eq!(p.ticks[0].steps, 1 + 4 * 2);
    // The Loop, the Toggle, three forks of two gates.
    let p = played("forks-as-found");
    assert_eq!([2, 5, 8, 1].map(|var| p.shown(1, var, 0)), [NOTHING, int(1), int(2), int(3)]);
    assert_eq!(p.ticks[0].steps, 1 + 1 + 3 * 2);
    let p = played("forks-see-the-last-index");
    assert_eq!((handed_out(&p, 3), handed_out(&p, 4)), (vec![0, 1, 2], vec![2, 2, 2]));
    assert_eq!(p.ticks[0].steps, 1 + 3 + 3);
    let p = played("forks-of-nested-bodies");
    assert_eq!([5, 2, 8, 1].map(|var| p.shown(1, var, 0)), [NOTHING, int(2), int(1), int(3)]);
    assert_eq!(p.ticks[0].steps, 1 + 1 + 3 * 2);
}

#[test]
fn one_chain_stack() {
    // 51 times Cycle and Branch, the Loop, two runs, 255 that were left.
    let p = played("loop-stack-256");
    assert_eq!((p.stop, p.ticks[0].steps, loop_shows(&p, 1, 1)), (0, 51 + 51 + 1 + 2 + 255, ran(2)));
    assert_eq!(played("loop-stack-257").words, [1, 51 + 51 + 1, 1, 0, 0, 12, 0, 0, 2]);
    // 40 times Cycle and Branch, both Loops, 6, 50 and 200.
    let p = played("loop-stack-nested-256");
    assert_eq!((p.stop, p.ticks[0].steps), (0, 40 + 40 + 1 + 1 + 6 + 50 + 200));
    assert_eq!(played("loop-stack-nested-257").words, [1, 40 + 40 + 1 + 1, 1, 0, 0, 12, 0, 0, 2]);
    let p = played("loop-forks-256");
    assert_eq!((p.stop, p.ticks[0].steps, loop_shows(&p, 1, 1)), (0, 1 + 256 + 256, ran(256)));
    assert_eq!(played("loop-forks-257").words, [1, 1 + 256, 1, 0, 0, 12, 0, 0, 2]);
    let p = played("loop-fires-32");
    assert_eq!((p.stop, p.ticks[0].steps), (0, 1 + 32));
    assert_eq!(played("loop-fires-33").words, [1, 1 + 33, 1, 0, 0, 12, 0, 0, 2]);
    let p = played("loop-runaway");
    assert_eq!((&p.words[..], p.stop, p.done), (&[1, 50_000_001, 1, 0, 0, 11, 0, 0, 2][..], 11, 0));
}

#[test]
fn what_else_a_body_calls() {
    let p = played("send-in-a-body");
    assert_eq!((p.ticks[0].steps, &p.ticks[1].late[..], p.shown(2, 4, 1)), (4, &[(4, 1)][..], int(0)));
    let p = played("waits-in-a-body");
    assert_eq!([0, 1].map(|t| (p.ticks[t].changed, p.ticks[t].steps)), [(6, 7), (0, 0)]);
    assert_eq!(p.late(2), [3, 3, 3]);
}

// ---- 100,000 runs in a tick ----

#[test]
fn the_100_001st_run_aborts() {
    for (name, shows) in [("loop-runs-100000", ran(100_000)), ("loop-runs-100001", aborted_after(100_000))] {
        let p = played(name);
        assert_eq!((loop_shows(&p, 1, 1), p.shown(1, 2, 1)), (shows, int(99_999)), "{name}");
        assert_eq!((p.shown(1, 3, 1), p.ticks[0].steps), (yes(), 2), "{name}");
    }
    let p = played("loops-after-an-abort");
    let shows = |t: usize| [2, 4, 6, 8].map(|gate| loop_shows(&p, t, gate));
    assert_eq!(shows(1), [aborted_after(100_000), aborted_after(0), ran(0), ran(0)]);
    assert_eq!(shows(2), [aborted_after(100_000), ran(5), ran(0), ran(0)]);
    assert_eq!([1, 2].map(|t| p.shown(t, 5, 1)), [NOTHING, int(4)]);
    // What the second body counted, and what its Completed did.
    assert_eq!([1, 2].map(|t| (p.shown(t, 10, 2), p.shown(t, 11, 2))), [(NOTHING, int(1)), (int(5), int(2))]);
    assert_eq!([0, 1].map(|t| p.ticks[t].steps), [4 + 1, 1 + 5 + 1]);
    let p = played("loops-share-the-runs");
    assert_eq!([1, 2].map(|t| loop_shows(&p, t, 2)), [ran(60_000); 2]);
    assert_eq!([1, 2].map(|t| loop_shows(&p, t, 4)), [aborted_after(40_000), ran(60_000)]);
    assert_eq!([1, 2].map(|t| p.shown(t, 5, 1)), [int(39_999), int(59_999)]);
    let p = played("loops-aborted-nested");
    assert_eq!([1, 3].map(|gate| loop_shows(&p, 1, gate)), [aborted_after(991), aborted_after(9)]);
    assert_eq!((p.shown(1, 2, 1), p.shown(1, 4, 1), p.shown(1, 5, 2)), (int(990), int(8), int(991)));
    assert_eq!(p.ticks[0].steps, 1 + 2 * 991);
}

// ---- what bodies put off ----

#[test]
fn what_is_put_off() {
    // 5 and 11 watch with ranks 9 and 5, 9 with 2; 7 and 10 are pins; 6 and 8 are EdgeExecs of 2 and 9.
    let p = played("put-off");
    assert_eq!(p.main(1), [9, 11, 5]);
    assert_eq!((&p.ticks[1].main[..], p.ticks[1].steps), (&[(0, 0), (8, 32)][..], 2));
    assert_eq!(p.ticks[1].carried, [(5, 0), (6, 32), (7, 16), (9, 0), (10, 16), (11, 0)]);
    assert_eq!(p.ticks[2].late, [(6, 32), (9, 0), (10, 16), (11, 0), (5, 0), (7, 16)]);
    assert_eq!((p.ticks[2].steps, p.main(3), p.carried(3)), (2, vec![], vec![]));
    let p = played("put-off-not-late");
    assert_eq!((&p.ticks[1].late[..], p.carried(2)), (&[(0, 2), (6, 0), (5, 0), (7, 16)][..], vec![]));
    let p = played("put-off-by-an-inner-body");
    assert_eq!((p.main(1), p.main(2)), (vec![9, 10], vec![0]));
    assert_eq!((p.carried(2), p.late(3)), (vec![10, 9], vec![10, 9]));
    assert_eq!([5, 6].map(|var| p.shown(2, var, 0)), [int(1), int(1)]);
    // Watcher 5 and pin 6; the fork is the Loop, then the VarSet.
    let p = played("put-off-by-a-forked-loop");
    assert_eq!((p.main(2), &p.ticks[1].carried[..], p.ticks[1].steps), (vec![0], &[(5, 0), (6, 16)][..], 2));
    let p = played("put-off-twice");
    assert_eq!((p.main(2), p.carried(2), p.late(3)), (vec![0, 1], vec![7, 7], vec![7, 7]));
    // Edge 5, Change 6, buffer 7, EdgeExec 8, and 9 watches the Edge's pulse, which goes up before the EdgeExec is
    // checked. The Change and the buffer had a first reading of 0.
    let p = played("put-off-not-others");
    assert_eq!((&p.ticks[1].main[..], p.carried(2)), (&[(0, 0), (8, 32), (9, 0)][..], vec![]));
    assert_eq!([1, 2, 3].map(|t| p.shown(t, 5, 0)), [NOTHING, yes(), yes()]);
    assert_eq!([1, 2, 3].map(|t| p.shown(t, 6, 0)), [yes(); 3]);
    assert_eq!([1, 2, 3].map(|t| p.shown(t, 7, 0)), [NOTHING, int(0), int(7)]);
}

#[test]
fn one_write_outside_is_enough() {
    // The watchers are the gates 6, 7 and 8: ranks 9 and 2, and a pin of rank 9. Steps: the Loop and both VarSets,
    // then the pin; or the Toggle, the VarSet's own pin, the pin. Last what the Var holds, and its gate.
    let rows: [(&str, &[i64], i64, (usize, i64)); 4] = [
        ("put-off-not-outside-before", &[0, 6, 8], 4, (1, 7)),
        ("put-off-not-outside-after", &[0, 6, 8], 4, (1, 3)),
        ("put-off-not-by-a-fork", &[0, 6, 8], 4, (1, 3)),
        ("put-off-not-by-a-unit", &[0, 5, 6, 8], 3, (2, 7)),
    ];
    for (name, main, steps, (var, written)) in rows {
        let p = played(name);
        assert_eq!((&p.main(2)[..], p.carried(2), p.late(3)), (main, vec![7], vec![7]), "{name}");
        assert_eq!((p.ticks[1].steps, p.shown(2, var, 0)), (steps, int(written)), "{name}");
    }
}

#[test]
fn each_unit_for_itself() {
    // Clock 0 writes 7 inside, Clock 1 writes 3 outside; watchers 7, 8, 9 of ranks 9, 2, 9, the last a pin.
    let p = played("put-off-then-not");
    assert_eq!((p.main(2), p.carried(2)), (vec![0, 1, 7, 9], vec![7, 8, 9, 8]));
    assert_eq!(p.late(3), [8, 8, 7, 9]);
    let p = played("put-off-after-not");
    assert_eq!((p.main(2), p.carried(2)), (vec![1, 0, 7, 9], vec![8, 7, 8, 9]));
    assert_eq!(p.late(3), [8, 8, 7, 9]);
}

#[test]
fn a_mark_is_taken_by_a_check() {
    // Watcher 7 and pin 8, both of rank 9. Tick 1: the first readings of 4. Tick 2: 0 inside. Tick 3: 0 inside
    // again, then 5 outside.
    let p = played("put-off-mark-taken");
    assert_eq!((&p.ticks[0].main[..], p.carried(1)), (&[(7, 0), (8, 16)][..], vec![]));
    assert_eq!((p.main(2), &p.ticks[1].carried[..]), (vec![0], &[(7, 0)][..]));
    assert_eq!((p.late(3), &p.ticks[2].main[..]), (vec![7], &[(0, 0), (1, 0), (7, 0), (8, 16)][..]));
    assert_eq!(p.carried(3), []);
    // The same gates: 4 becomes 0, which puts off 7 alone, then 5.
    let p = played("put-off-false-pin");
    assert_eq!((&p.ticks[1].main[..], p.carried(2)), (&[(0, 0), (1, 0), (7, 0), (8, 16)][..], vec![7]));
}

#[test]
fn marking_behind_pure_gates() {
    // The watcher is gate 8, and 9 watches the Var written outside; or it is 7 under a Toggle's output.
    let rows = [
        ("put-off-inside-first", vec![0, 9], vec![8]),
        ("put-off-outside-first", vec![0, 9, 8], vec![]),
        ("put-off-hidden", vec![0, 7], vec![]),
        ("put-off-where-it-waits", vec![0], vec![7]),
        ("put-off-read-before", vec![0], vec![7]),
    ];
    for (name, main, carried) in rows {
        let p = played(name);
        assert_eq!((p.main(2), p.carried(2)), (main, carried.clone()), "{name}");
        assert_eq!(p.late(3), carried, "{name}");
    }
    // What was read in between: before the write 0, after it 7.
    assert_eq!(played("put-off-where-it-waits").shown(2, 8, 0), int(0));
    assert_eq!(played("put-off-read-before").shown(2, 8, 0), int(7));
    // The Select next to the Var has the pin 8 and, behind another, the watcher 7.
    let p = played("put-off-through-selects");
    assert_eq!((p.main(2), &p.ticks[1].carried[..]), (vec![0], &[(8, 16), (7, 0)][..]));
}

#[test]
fn what_is_not_put_off() {
    // Of Index 5 and 6, of the VarGet 7 and 8, of the Loop 9 and 10, each of ranks 9 and 2.
    let p = played("put-off-not-outputs");
    assert_eq!((p.main(2), p.carried(2)), (vec![0, 5, 7, 9], vec![6, 8, 10]));
    // Loop 6 runs in the late pass of tick 3, and the watcher of its Var with it.
    let p = played("put-off-loop");
    assert_eq!((p.main(1), p.main(2), &p.ticks[1].carried[..]), (vec![9], vec![0], &[(6, 16)][..]));
    assert_eq!((&p.ticks[2].late[..], p.carried(3)), (&[(6, 16), (9, 0)][..], vec![]));
    assert_eq!([p.shown(2, 5, 0), p.shown(3, 5, 0)], [int(0), int(7)]);
}

#[test]
fn the_carried_list_is_one() {
    // The watchers 6 to 56 of the Toggle, five times: of ranks 1 to 5, so all are carried by rank.
    let by_rank: Vec<(i64, i64)> = (6..=56).map(|gate| (gate, 0)).collect::<Vec<_>>().repeat(5);
    assert_eq!(by_rank.len(), 255);
    // What watches the Var is gate 61, then 62.
    let rows: [(&str, &[(i64, i64)], u8); 6] = [
        ("put-off-256", &[(61, 0)], 0),
        ("put-off-256-by-a-pin", &[(61, 16)], 0),
        ("put-off-257", &[(61, 16)], 12),
        ("put-off-257-by-a-pin", &[(61, 0)], 12),
        ("put-off-257-by-rank", &[(61, 0)], 12),
        ("put-off-257-behind-rank", &[(61, 32)], 12),
    ];
    for (name, last, stop) in rows {
        let p = played(name);
        assert_eq!((p.stop, p.done), (stop, if stop == 0 { 2 } else { 1 }), "{name}");
        assert_eq!(p.ticks[1].carried, [&by_rank[..], last].concat(), "{name}");
        assert_eq!((p.main(2), p.ticks[1].steps), (vec![0, 1, 2, 3, 4], 5 + 2), "{name}");
        // The buffer's first reading; then its last change, unless a full list ends the checks before it.
        assert_eq!([0, 1].map(|t| p.ticks[t].changed), [1, i64::from(stop == 0)], "{name}");
    }
}

// ---- questions ----

#[test]
fn questions() {
    let mut asked = [[0; 2]; 20];
    for case in LOOPS.iter() {
        let Some((question, rest)) = case.name.strip_prefix('q').and_then(|rest| rest.split_once('-')) else {
            continue;
        };
        let question: u8 = question.parse().unwrap();
        let answer = run(&case.circuit, &case.script, &case.lent);
        let checked = check(&case.circuit, &case.script);
        let yes = rest.starts_with("yes-");
        if yes {
            assert!(matches!(answer, Answer::Played { stop: 0, .. }), "{}: {answer:?}", case.name);
            assert_eq!(checked, 0, "{}", case.name);
        } else {
            assert_eq!((answer, checked), (Answer::Refused(question), question), "{}", case.name);
        }
        asked[question as usize][usize::from(yes)] += 1;
    }
    assert_eq!([3, 4, 5, 19].map(|n| asked[n]), [[11, 3], [16, 1], [10, 2], [36, 7]]);
}

/// 31 Loops in one another, each with one run: the steps are as many.
#[test]
fn as_deep_as_can_be() {
    let p = played("q19-yes-loops-31-loops-in-one-another");
    assert_eq!(p.ticks[0].steps, 31);
    assert!((0..31).all(|k| loop_shows(&p, 1, 1 + 2 * k) == ran(1)));
}

// ---- all of them ----

#[test]
fn every_log_is_made_of_whole_records() {
    for case in LOOPS.iter() {
        if let Some(p) = read(case) {
            p.assert_whole(case);
        }
    }
}

/// Every circuit that is not about a question stands in this file by name.
#[test]
fn every_circuit_is_worked_out() {
    let text = include_str!("loops.rs");
    let by_name = |case: &&Case| !case.name.starts_with('q') && !case.name.starts_with("reads-loop-");
    for case in LOOPS.iter().filter(by_name) {
        assert!(text.contains(&format!("\"{}\"", case.name)), "{}", case.name);
    }
}

/// The places from 59 on are those of Loops.
#[test]
fn every_place_of_loops_is_told() {
    for place in 59..=circuits::PLACES.len() as u8 {
        assert!(LOOPS.iter().any(|c| c.trap.contains(&place)), "place {place}");
    }
}
