//! Document 01's played examples, with document 01's answers.

mod common;

use common::{Pin, Plan, bytes};
use oracle::{Answer, Lent, check, print, run};

/// With the seventh word of document 02's K9: 0.25 is an f32, so 0.
#[test]
fn the_first_example_is_printed_as_document_01_prints_it() {
    let circuit = bytes(&[2, 1, 1, 1, 1, 7, 28, 22, 0, 1, -1, 0, 0, 0]);
    let script = bytes(&[1, 1, 4598175219545276416, 1, 0, 1]);
    assert_eq!(check(&circuit, &script), 0);
    let answer = run(&circuit, &script, &Lent::default());
    assert_eq!(print(&answer), "1 1 1 0 0 0 0 0 2 0 1 0 3 0 7 0 1\nend 0 1\n");
}

#[test]
fn no_tick_gives_an_empty_log() {
    let circuit = bytes(&[2, 1, 1, 1, 1, 7, 28, 22, 0, 1, -1, 0, 0, 0]);
    let answer = run(&circuit, &bytes(&[0, 0]), &Lent::default());
    assert_eq!(answer, Answer::Played { log: vec![], stop: 0, ticks: 0 });
    assert_eq!(print(&answer), "end 0 0\n");
}

#[test]
fn a_refusal_prints_its_number() {
    assert_eq!(print(&run(&[], &[], &Lent::default())), "refused 1\n");
}

/// A Clock of rank 4 raises a ChangeDetector in the main pass of tick 2; tick 1,
/// of no length, has the ChangeDetector's first check (document 02, K2).
fn clock_raises(rank: i64) -> common::Run {
    let mut plan = Plan::default();
    let clock = plan.gate(14, 4, &[Pin::Nothing, Pin::Nothing, Pin::Float(1.0)]);
    let toggle = plan.gate(22, 0, &[]);
    plan.gate(6, rank, &[Pin::From(toggle, 1)]);
    plan.call(clock, 0, toggle, 0);
    let run = plan.play(&[(0.0, &[]), (1.0, &[]), (0.5, &[])]);
    assert_eq!(run.records[0].units, [(2, 0)]);
    assert_eq!((run.records[0].main, run.records[0].carried.len()), (1, 0));
    run
}

#[test]
fn rank_4_raising_rank_4_is_carried() {
    let run = clock_raises(4);
    assert_eq!(run.records[1].units, [(0, 0)]);
    assert_eq!((run.records[1].main, &run.records[1].carried[..]), (1, &[(2, 0)][..]));
    assert_eq!(run.records[2].units, [(2, 0)]);
    assert_eq!((run.records[2].late, run.records[2].main, run.records[2].carried.len()), (1, 0, 0));
}

#[test]
fn rank_4_raising_rank_5_begins_in_this_tick() {
    let run = clock_raises(5);
    assert_eq!(run.records[1].units, [(0, 0), (2, 0)]);
    assert_eq!((run.records[1].main, run.records[1].carried.len()), (2, 0));
    assert_eq!(run.records[2].units, []);
}

#[test]
fn a_pulse_of_tick_5_is_true_in_5_and_6_and_false_in_7() {
    let mut plan = Plan::default();
    let world = plan.gate(28, 0, &[]);
    let edge = plan.gate(7, 0, &[Pin::From(world, 1)]);
    let stimulus = [(world, Pin::Int(1))];
    let run = plan.play(&[
        (0.25, &[]),
        (0.25, &[]),
        (0.25, &[]),
        (0.25, &[]),
        (0.25, &stimulus),
        (0.25, &[]),
        (0.25, &[]),
    ]);
    let shown: Vec<_> = (4..=7).map(|t| run.shown(t, edge, 0)).collect();
    assert_eq!(shown, [(0, 0), (3, 1), (3, 1), (3, 0)]);
}

#[test]
fn interval_1_with_ticks_of_a_quarter_fires_in_ticks_4_and_8() {
    let mut plan = Plan::default();
    let clock = plan.gate(14, 0, &[Pin::Nothing, Pin::Nothing, Pin::Float(1.0)]);
    let ticks: [(f64, &[(usize, Pin)]); 9] = [(0.25, &[]); 9];
    let run = plan.play(&ticks);
    assert_eq!(run.begun(clock, 0), [4, 8]);
}

#[test]
fn cycle_of_3_from_nothing_goes_up_to_1_and_down_to_2() {
    for (pin, shown) in [(0, 1), (1, 2)] {
        let mut plan = Plan::default();
        let world = plan.gate(28, 0, &[]);
        let cycle = plan.gate(23, 0, &[Pin::Nothing, Pin::Nothing, Pin::Int(3)]);
        plan.call(world, 0, cycle, pin);
        let stimulus = [(world, Pin::Nothing)];
        let run = plan.play(&[(0.25, &stimulus)]);
        assert_eq!(run.shown(1, cycle, 2), (1, shown));
    }
}

#[test]
fn narrowing_is_document_01s() {
    let narrow = |f: f64| (f as f32).to_bits();
    assert_eq!(narrow(0.1), 0x3DCC_CCCD);
    assert_eq!(narrow(1.0 + 2f64.powi(-24)), 1f32.to_bits());
    assert_eq!(narrow(1.0 + 3.0 * 2f64.powi(-24)), (1.0 + 2f32.powi(-22)).to_bits());
    assert_eq!(narrow(2f64.powi(-150)), 0);
    assert_eq!(narrow(2f64.powi(128) - 2f64.powi(103)), f32::INFINITY.to_bits());
}

#[test]
fn a_queue_keeps_256_records_and_drops_the_257th() {
    let mut plan = Plan::default();
    let world = plan.gate(28, 0, &[]);
    let mut pins = [Pin::Nothing; 10];
    pins[1] = Pin::From(world, 1);
    pins[9] = Pin::Int(10);
    let queue = plan.gate(16, 0, &pins);
    plan.call(world, 0, queue, 0);
    let kept = [(world, Pin::Int(1)); 64];
    let dropped = [(world, Pin::Int(2))];
    let mut ticks: Vec<(f64, &[(usize, Pin)])> = vec![(0.25, &kept); 4];
    ticks.push((0.25, &dropped));
    ticks.resize(300, (0.25, &[]));
    let run = plan.play(&ticks);
    assert_eq!(run.begun(queue, 0), (11..=266).collect::<Vec<i64>>());
    assert!((1..=300).all(|t| run.shown(t, queue, 1) != (1, 2)));
}

/// Reroutes R1 to R25, each calling the one before it twice, so that a call
/// of R(i) makes 2^i - 1 steps.
fn steps(extra: usize) -> common::Run {
    let mut plan = Plan::default();
    let world = plan.gate(28, 0, &[]);
    let reroutes: Vec<usize> = (1..=25).map(|_| plan.gate(2, 0, &[])).collect();
    for pair in reroutes.windows(2) {
        plan.call(pair[1], 0, pair[0], 0);
        plan.call(pair[1], 0, pair[0], 0);
    }
    for i in [25, 23, 22, 21, 20, 19, 17, 15, 14, 13, 12, 7, 3, 2, 1, 1] {
        plan.call(world, 0, reroutes[i - 1], 0);
    }
    for _ in 0..extra {
        plan.call(world, 0, reroutes[0], 0);
    }
    let stimulus = [(world, Pin::Nothing)];
    plan.play(&[(0.25, &stimulus)])
}

#[test]
fn fifty_million_steps_pass() {
    let run = steps(0);
    assert_eq!((run.stop, run.ticks), (0, 1));
    assert_eq!(run.records[0].steps, 50_000_000);
}

#[test]
fn one_step_more_stops() {
    let run = steps(1);
    assert_eq!((run.stop, run.ticks), (11, 0));
    let record = &run.records[0];
    assert_eq!((record.steps, record.stop), (50_000_001, 11));
    assert_eq!((record.late, record.main, record.carried.len()), (1, 0, 0));
    assert_eq!(record.units, [(0, 2)]);
    assert!(record.shown.is_empty());
}
