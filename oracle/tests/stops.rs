//! Stops 12 and 13: each limit of document 01 met exactly, and passed by one.

mod common;

use common::{Pin, Plan, Record, bytes};
use oracle::{Answer, Lent, run};

const TICK: (f64, &[(usize, Pin)]) = (0.25, &[]);

/// A tick of its own for the first checks, which begin every ChangeDetector;
/// Clocks do not count in it.
const FIRST: (f64, &[(usize, Pin)]) = (0.0, &[]);

/// The words of a record before its units begun.
fn head(r: &Record) -> [i64; 7] {
    [r.tick, r.steps, r.late, r.main, r.carried.len() as i64, r.stop, r.changed]
}

/// The head of the last record of a plan played on these ticks.
fn last(plan: &mut Plan, ticks: &[(f64, &[(usize, Pin)])]) -> [i64; 7] {
    head(plan.play(ticks).records.last().unwrap())
}

/// How a test's plan makes a call: local ones go to the chain stack, remote
/// ones to the forks.
type Calls = fn(&mut Plan, usize, usize, usize, usize);

const LISTS: [Calls; 2] = [Plan::call, Plan::remote];

#[test]
fn the_chain_stack_and_the_forks_hold_256_calls() {
    for call in LISTS {
        let mut plan = Plan::default();
        let world = plan.gate(28, 0, &[]);
        let toggle = plan.gate(22, 0, &[]);
        (0..256).for_each(|_| call(&mut plan, world, 0, toggle, 0));
        assert_eq!(last(&mut plan, &[(0.25, &[(world, Pin::Nothing)])]), [1, 256, 1, 0, 0, 0, 0]);
    }
}

/// A Reroute that calls itself twice leaves one call more after each step.
#[test]
fn the_257th_call_on_the_chain_stack_or_the_forks_stops() {
    for call in LISTS {
        let mut plan = Plan::default();
        let world = plan.gate(28, 0, &[]);
        let ring = plan.gate(2, 0, &[]);
        call(&mut plan, world, 0, ring, 0);
        (0..2).for_each(|_| call(&mut plan, ring, 0, ring, 0));
        assert_eq!(last(&mut plan, &[(0.25, &[(world, Pin::Nothing)])]), [1, 256, 1, 0, 0, 12, 0]);
    }
}

/// World calls a buffer, `fires` times in one tick.
fn fires(kind: i64, fires: usize) -> [i64; 7] {
    let mut plan = Plan::default();
    let world = plan.gate(28, 0, &[]);
    let buffer = plan.gate(kind, 0, &[]);
    plan.call(world, 0, buffer, 0);
    last(&mut plan, &[(0.25, &vec![(world, Pin::Nothing); fires])])
}

#[test]
fn a_buffer_holds_32_fires() {
    for kind in [11, 13] {
        assert_eq!(fires(kind, 32), [1, 32, 32, 0, 0, 0, 0]);
        assert_eq!(fires(kind, 33), [1, 33, 33, 0, 0, 12, 0]);
    }
}

/// Sends to as many receivers each, all delivered in tick 2.
fn delivered(sends: usize, receivers: usize) -> [i64; 7] {
    let mut plan = Plan::default();
    let world = plan.gate(28, 0, &[]);
    for _ in 0..sends {
        let send = plan.gate(25, 0, &[Pin::Nothing, Pin::Int(255)]);
        plan.call(world, 0, send, 0);
    }
    plan.alike(receivers, 27, 0, &[Pin::Int(255)]);
    last(&mut plan, &[(0.25, &[(world, Pin::Nothing)]), TICK])
}

#[test]
fn sixty_four_events_are_delivered() {
    assert_eq!(delivered(8, 8), [2, 0, 64, 0, 0, 0, 0]);
    assert_eq!(delivered(5, 13), [2, 0, 0, 0, 0, 12, 0]);
}

/// In tick 2, 64 Worlds of rank 1 each set off 15 ChangeDetectors of rank 0.
fn sixteen_units_each(with_clock: bool) -> [i64; 7] {
    let mut plan = Plan::default();
    let world = plan.gate(28, 1, &[]);
    let toggle = plan.gate(22, 0, &[]);
    plan.call(world, 0, toggle, 0);
    plan.alike(15, 6, 0, &[Pin::From(toggle, 1)]);
    if with_clock {
        plan.gate(14, 0, &[Pin::Nothing, Pin::Float(0.0)]);
    }
    last(&mut plan, &[FIRST, (0.25, &[(world, Pin::Nothing); 64])])
}

#[test]
fn a_tick_begins_1024_units() {
    assert_eq!(sixteen_units_each(false), [2, 64, 1024, 0, 0, 0, 0]);
    assert_eq!(sixteen_units_each(true), [2, 64, 1024, 0, 0, 12, 0]);
}

/// A ChangeDetector that toggles what it watches raises itself for ever.
#[test]
fn an_endless_value_loop_stops_at_the_1025th_unit() {
    let mut plan = Plan::default();
    let world = plan.gate(28, 0, &[]);
    let toggle = plan.gate(22, 0, &[]);
    let detector = plan.gate(6, 0, &[Pin::From(toggle, 1)]);
    plan.call(world, 0, toggle, 0);
    plan.call(detector, 0, toggle, 0);
    assert_eq!(last(&mut plan, &[(0.25, &[(world, Pin::Nothing)])]), [1, 1024, 1024, 0, 0, 12, 0]);
}

/// In tick 2, 64 Worlds each leave 4 ChangeDetectors waiting behind them;
/// with a buffer's fire of tick 1 that is one more.
fn late(with_fire: bool) -> [i64; 7] {
    let mut plan = Plan::default();
    let world = plan.gate(28, 0, &[]);
    let toggle = plan.gate(22, 0, &[]);
    plan.call(world, 0, toggle, 0);
    plan.alike(4, 6, 5, &[Pin::From(toggle, 1)]);
    let other = plan.gate(28, 0, &[]);
    let buffer = plan.gate(11, 5, &[]);
    plan.call(other, 0, buffer, 0);
    let first: &[(usize, Pin)] = if with_fire { &[(other, Pin::Nothing)] } else { &[] };
    last(&mut plan, &[(0.25, first), (0.25, &[(world, Pin::Nothing); 64])])
}

#[test]
fn late_holds_256_units_over_all_ranks() {
    assert_eq!(late(false), [2, 64, 320, 0, 0, 0, 0]);
    assert_eq!(late(true), [2, 64, 64, 0, 0, 12, 0]);
}

/// 64 delivered events wait beside 256 late units.
#[test]
fn delivered_events_are_not_on_the_late_list() {
    let mut plan = Plan::default();
    let world = plan.gate(28, 0, &[]);
    let toggle = plan.gate(22, 0, &[]);
    plan.call(world, 0, toggle, 0);
    plan.alike(4, 6, 5, &[Pin::From(toggle, 1)]);
    let other = plan.gate(28, 0, &[]);
    for _ in 0..8 {
        let send = plan.gate(24, 0, &[Pin::Nothing, Pin::Int(0)]);
        plan.call(other, 0, send, 0);
    }
    plan.alike(8, 26, 0, &[Pin::Int(0)]);
    let ticks: [(f64, &[(usize, Pin)]); 2] =
        [(0.25, &[(other, Pin::Nothing)]), (0.25, &[(world, Pin::Nothing); 64])];
    assert_eq!(last(&mut plan, &ticks), [2, 64, 384, 0, 0, 0, 0]);
}

/// 16 Clocks of rank 0, of a tick's interval, each set off 16 ChangeDetectors
/// of this rank.
fn clocks(rank: i64) -> (Plan, usize) {
    let mut plan = Plan::default();
    let toggle = plan.gate(22, 0, &[]);
    for _ in 0..16 {
        let clock = plan.gate(14, 0, &[Pin::Nothing, Pin::Float(0.25)]);
        plan.call(clock, 0, toggle, 0);
    }
    plan.alike(16, 6, rank, &[Pin::From(toggle, 1)]);
    (plan, 16)
}

#[test]
fn pending_holds_256_units_over_all_ranks() {
    let (mut plan, _) = clocks(1);
    assert_eq!(last(&mut plan, &[FIRST]), [1, 0, 0, 16, 0, 0, 0]);
    assert_eq!(last(&mut plan, &[FIRST, TICK]), [2, 16, 0, 272, 0, 0, 0]);
    let time = plan.gate(3, 0, &[]);
    plan.gate(6, 2, &[Pin::From(time, 0)]);
    assert_eq!(last(&mut plan, &[FIRST, TICK]), [2, 16, 0, 16, 0, 12, 0]);
}

#[test]
fn carried_holds_256_units() {
    let (mut plan, last_clock) = clocks(0);
    assert_eq!(last(&mut plan, &[FIRST, TICK]), [2, 16, 0, 16, 256, 0, 0]);
    let toggle = plan.gate(22, 0, &[]);
    plan.call(last_clock, 0, toggle, 0);
    plan.gate(6, 0, &[Pin::From(toggle, 1)]);
    assert_eq!(last(&mut plan, &[FIRST, TICK]), [2, 17, 0, 16, 256, 12, 0]);
}

/// What was carried fills the late list before the tick's stimuli.
#[test]
fn carried_units_and_a_stimulus_pass_the_late_list() {
    let (mut plan, _) = clocks(0);
    let world = plan.gate(28, 0, &[]);
    assert_eq!(last(&mut plan, &[FIRST, TICK, (0.25, &[(world, Pin::Nothing)])]), [3, 0, 0, 0, 0, 12, 0]);
}

/// The answer with this many bytes lent for the log.
fn with_log(plan: &mut Plan, log: usize) -> (usize, u8, u64) {
    let (circuit, script) = plan.words(&[TICK, (0.25, &[(0, Pin::Nothing)])]);
    let lent = Lent { log, ..Lent::default() };
    match run(&bytes(&circuit), &bytes(&script), &lent) {
        Answer::Played { log, stop, ticks } => (log.len(), stop, ticks),
        Answer::Refused(number) => panic!("refused {number}"),
    }
}

/// A World with its two outputs: a record of 11 words, then one of 13.
#[test]
fn a_record_that_does_not_fit_the_log_is_not_written() {
    let mut plan = Plan::default();
    plan.gate(28, 0, &[]);
    assert_eq!(with_log(&mut plan, 8 * 24), (24, 0, 2));
    assert_eq!(with_log(&mut plan, 8 * 24 - 1), (11, 13, 1));
    assert_eq!(with_log(&mut plan, 8 * 11), (11, 13, 1));
    assert_eq!(with_log(&mut plan, 8 * 11 - 1), (0, 13, 0));
}

/// Tick 1 writes 13 words, tick 2 stops with a record of 9.
#[test]
fn a_stopped_ticks_record_is_written_if_it_fits() {
    let mut plan = Plan::default();
    let world = plan.gate(28, 0, &[]);
    let ring = plan.gate(2, 0, &[]);
    plan.call(world, 0, ring, 0);
    (0..2).for_each(|_| plan.call(ring, 0, ring, 0));
    assert_eq!(with_log(&mut plan, 8 * 22), (22, 12, 1));
    assert_eq!(with_log(&mut plan, 8 * 22 - 1), (13, 13, 1));
}
