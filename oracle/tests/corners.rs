//! Corners of the source where a port goes wrong, each with the outcome that
//! was worked out by hand from the source.

mod common;

use common::{Pin, Plan};

const QUARTER: f64 = 0.25;

/// A tick of its own for the first checks, which begin every ChangeDetector.
const FIRST: (f64, &[(usize, Pin)]) = (QUARTER, &[]);

/// A gate that a pulse made stale in `settle` stays stale after it, so that
/// the next unit's VarSet shows through it at once.
#[test]
fn a_gate_left_stale_by_a_pulse_shows_a_later_write_at_once() {
    let mut plan = Plan::default();
    plan.gate(28, 0, &[]);
    plan.gate(7, 0, &[Pin::From(0, 1)]);
    plan.gate(1, 0, &[Pin::From(1, 0), Pin::Int(0), Pin::From(3, 0)]);
    plan.gate(5, 0, &[Pin::Int(1)]);
    plan.gate(28, 1, &[]);
    plan.gate(19, 0, &[Pin::Nothing, Pin::Int(3), Pin::Int(9)]);
    plan.gate(19, 0, &[Pin::Nothing, Pin::Int(7), Pin::From(2, 0)]);
    plan.gate(5, 0, &[Pin::Int(0)]);
    plan.call(4, 0, 5, 0);
    plan.call(5, 0, 6, 0);
    let run = plan.play(&[(QUARTER, &[(0, Pin::Int(5)), (4, Pin::Nothing)])]);
    assert_eq!(run.shown(1, 7, 0), (1, 9));
}

/// Reading a Select refreshes the side it does not choose too.
#[test]
fn the_side_not_chosen_is_refreshed_too() {
    let mut plan = Plan::default();
    plan.gate(28, 0, &[]);
    plan.gate(5, 0, &[Pin::Int(1)]);
    plan.gate(5, 0, &[Pin::Nothing]);
    plan.gate(1, 0, &[Pin::From(0, 1), Pin::From(1, 0), Pin::From(1, 0)]);
    plan.gate(1, 0, &[Pin::Nothing, Pin::From(0, 1), Pin::From(3, 0)]);
    plan.gate(20, 0, &[Pin::Nothing, Pin::From(4, 0)]);
    plan.gate(19, 0, &[Pin::Nothing, Pin::Int(1), Pin::Int(9)]);
    plan.gate(19, 0, &[Pin::Nothing, Pin::Int(2), Pin::From(3, 0)]);
    plan.call(0, 0, 5, 0);
    plan.call(5, 0, 6, 0);
    plan.call(5, 1, 6, 0);
    plan.call(6, 0, 7, 0);
    let run = plan.play(&[(QUARTER, &[(0, Pin::Int(5))])]);
    assert_eq!(run.shown(1, 2, 0), (1, 1));
}

/// An output's own watched readers come first, then those of its last pure
/// reader.
#[test]
fn readers_are_marked_last_pushed_first() {
    let mut plan = Plan::default();
    plan.gate(28, 0, &[]);
    plan.gate(2, 0, &[Pin::From(0, 1)]);
    plan.gate(2, 0, &[Pin::From(0, 1)]);
    plan.gate(6, 0, &[Pin::From(0, 1)]);
    plan.gate(6, 0, &[Pin::From(1, 0)]);
    plan.gate(6, 0, &[Pin::From(2, 0)]);
    let run = plan.play(&[FIRST, (QUARTER, &[(0, Pin::Int(5))])]);
    assert_eq!(run.records[0].units, [(3, 0), (4, 0), (5, 0)]);
    assert_eq!(run.records[1].units, [(0, 2), (3, 0), (5, 0), (4, 0)]);
}

/// -0.0 equals 0.0: an output keeps the one it shows, a Var takes the new
/// one, and what reads the Var shows it.
#[test]
fn minus_zero_shows_through_a_var_and_not_on_an_output() {
    const MINUS_ZERO: i64 = i64::MIN;
    let mut plan = Plan::default();
    plan.gate(28, 0, &[]);
    plan.gate(19, 0, &[Pin::Nothing, Pin::Int(2), Pin::Float(-0.0)]);
    plan.gate(5, 0, &[Pin::Float(0.0)]);
    plan.gate(2, 0, &[Pin::From(2, 0)]);
    plan.call(0, 0, 1, 0);
    let run = plan.play(&[
        (QUARTER, &[(0, Pin::Float(0.0))]),
        (-0.0, &[(0, Pin::Float(-0.0))]),
    ]);
    assert_eq!(run.shown(1, 0, 1), (2, 0));
    assert_eq!(run.shown(2, 0, 1), (2, 0));
    assert_eq!(run.shown(2, 2, 0), (2, MINUS_ZERO));
    assert_eq!(run.shown(2, 3, 0), (2, MINUS_ZERO));
}

#[test]
fn delta_time_shows_minus_zero() {
    let mut plan = Plan::default();
    plan.gate(3, 0, &[]);
    let run = plan.play(&[(-0.0, &[])]);
    assert_eq!(run.shown(1, 0, 0), (2, i64::MIN));
}

/// A record's data is out before the tick's first settle: its reader runs in
/// the main pass, the Queue itself in the late pass.
#[test]
fn a_reader_of_queue_data_runs_in_the_main_pass() {
    let mut plan = Plan::default();
    plan.gate(28, 0, &[]);
    plan.gate(16, 0, &[Pin::Nothing, Pin::Int(7)]);
    plan.gate(6, 0, &[Pin::From(1, 1)]);
    plan.call(0, 0, 1, 0);
    let run = plan.play(&[FIRST, (QUARTER, &[(0, Pin::Nothing)]), (QUARTER, &[])]);
    assert_eq!(run.begun(2, 0), [1, 3]);
    assert_eq!(run.records[2].units, [(1, 0), (2, 0)]);
    assert_eq!((run.records[2].late, run.records[2].main), (1, 1));
}

/// A Clock reads its interval before the time sources of the tick move on.
#[test]
fn a_clock_sees_the_last_ticks_delta_time() {
    let mut plan = Plan::default();
    plan.gate(3, 0, &[]);
    plan.gate(14, 0, &[Pin::Nothing, Pin::From(0, 0)]);
    let run = plan.play(&[(0.5, &[]), (0.25, &[]), (0.25, &[]), (1.0, &[]), (0.1, &[])]);
    assert_eq!(run.begun(1, 0), [1, 3, 4]);
}

/// Waits of 0 and 1 land one tick later, 2 two ticks later.
#[test]
fn tick_waits_are_at_least_one() {
    for (wait, landing) in [(Pin::Nothing, 2), (Pin::Int(0), 2), (Pin::Int(1), 2), (Pin::Int(2), 3)] {
        let mut plan = Plan::default();
        plan.gate(28, 0, &[]);
        plan.gate(11, 0, &[Pin::Nothing, wait]);
        plan.call(0, 0, 1, 0);
        let run = plan.play(&[(QUARTER, &[(0, Pin::Nothing)]), (QUARTER, &[]), (QUARTER, &[])]);
        assert_eq!(run.begun(1, 0), [landing], "{wait:?}");
    }
}

/// Int 1 to Bool true is a change; it does not rise.
#[test]
fn a_change_of_kind_alone_is_a_change() {
    let mut plan = Plan::default();
    plan.gate(28, 0, &[]);
    plan.gate(6, 0, &[Pin::From(0, 1)]);
    plan.gate(9, 0, &[Pin::From(0, 1)]);
    plan.gate(8, 0, &[Pin::From(0, 1)]);
    let run = plan.play(&[
        FIRST,
        (QUARTER, &[(0, Pin::Int(1))]),
        (QUARTER, &[]),
        (QUARTER, &[]),
        (QUARTER, &[(0, Pin::Bool(true))]),
    ]);
    assert_eq!(run.begun(1, 0), [1, 2, 5]);
    assert_eq!(run.begun(2, 32), [2]);
    assert_eq!(run.shown(4, 3, 0), (3, 0));
    assert_eq!(run.shown(5, 3, 0), (3, 1));
}

/// An event sent in a tick lands in the next, after the ranked late units.
#[test]
fn events_follow_all_ranked_late_units() {
    let mut plan = Plan::default();
    plan.gate(28, 9, &[]);
    plan.gate(24, 0, &[Pin::Nothing, Pin::Int(3), Pin::Int(42)]);
    plan.gate(26, 0, &[Pin::Int(3)]);
    plan.call(0, 0, 1, 0);
    let run = plan.play(&[(QUARTER, &[(0, Pin::Nothing)]), (QUARTER, &[(0, Pin::Nothing)])]);
    assert_eq!(run.records[1].units, [(0, 2), (2, 1)]);
    assert_eq!(run.shown(2, 2, 1), (1, 42));
}

/// A Clock reads its interval before the Stopwatches of the tick move on.
#[test]
fn a_clock_sees_a_stopwatchs_last_time() {
    let mut plan = Plan::default();
    plan.gate(28, 0, &[]);
    plan.gate(15, 0, &[]);
    plan.gate(14, 0, &[Pin::Nothing, Pin::From(1, 0)]);
    plan.call(0, 0, 1, 0);
    let run = plan.play(&[(0.5, &[(0, Pin::Nothing)]), (0.5, &[]), (0.5, &[]), (0.5, &[]), (0.5, &[])]);
    assert_eq!(run.begun(2, 0), [2, 3]);
}

/// What a unit made stale is fresh again before the next one writes a Var.
#[test]
fn settle_refreshes_what_nothing_watches() {
    let mut plan = Plan::default();
    plan.gate(28, 0, &[]);
    plan.gate(5, 0, &[Pin::Int(1)]);
    plan.gate(1, 0, &[Pin::From(0, 1), Pin::From(1, 0), Pin::From(1, 0)]);
    plan.gate(28, 1, &[]);
    plan.gate(19, 0, &[Pin::Nothing, Pin::Int(1), Pin::Int(9)]);
    plan.gate(19, 0, &[Pin::Nothing, Pin::Int(6), Pin::From(2, 0)]);
    plan.gate(5, 0, &[Pin::Nothing]);
    plan.call(3, 0, 4, 0);
    plan.call(4, 0, 5, 0);
    let run = plan.play(&[(QUARTER, &[(0, Pin::Int(5)), (3, Pin::Nothing)])]);
    assert_eq!(run.shown(1, 6, 0), (1, 1));
    assert_eq!(run.shown(1, 2, 0), (1, 9));
}

/// A wait of 0.1 becomes the f32 above it, which the f32 below does not reach.
#[test]
fn a_queues_wait_is_narrowed_to_the_nearest() {
    let below = f64::from(f32::from_bits(0x3DCC_CCCC));
    let mut plan = Plan::default();
    plan.gate(28, 0, &[]);
    let mut pins = [Pin::Nothing; 10];
    pins[9] = Pin::Float(0.1);
    plan.gate(17, 0, &pins);
    plan.call(0, 0, 1, 0);
    let run = plan.play(&[(below, &[(0, Pin::Nothing)]), (below, &[]), (below, &[])]);
    assert_eq!(run.begun(1, 0), [3]);
}

/// Vars are published in order of their first write, not of their numbers.
#[test]
fn the_var_written_first_is_published_first() {
    let mut plan = Plan::default();
    plan.gate(28, 0, &[]);
    plan.gate(19, 0, &[Pin::Nothing, Pin::Int(4), Pin::Int(1)]);
    plan.gate(19, 0, &[Pin::Nothing, Pin::Int(3), Pin::Int(1)]);
    plan.gate(5, 0, &[]);
    plan.gate(5, 0, &[]);
    plan.gate(6, 0, &[Pin::From(3, 0)]);
    plan.gate(6, 0, &[Pin::From(4, 0)]);
    plan.call(0, 0, 1, 0);
    plan.call(1, 0, 2, 0);
    let run = plan.play(&[FIRST, (QUARTER, &[(0, Pin::Nothing)])]);
    assert_eq!(run.records[0].units, [(5, 0), (6, 0)]);
    assert_eq!(run.records[1].units, [(0, 2), (6, 0), (5, 0)]);
}
