//! What a record lists as carried (document 02, K4), on every stated circuit
//! and on random ones of every family, played with a log that takes all:
//!
//! - It is the source's own list `carried` when the tick has ended or stopped,
//!   gate by gate and form by form, in its order.
//! - The late units of the next record begin each of them once, in this order:
//!   by rank, of one rank the first listed first. As long as one of them waits,
//!   every other late unit that begins is of a lower rank than it, and none is
//!   an event: so of a rank the carried ones begin first. Where the next tick
//!   is stopped, this holds of a first part of them, in that order.

mod reading;

use oracle::circuits;
use oracle::circuits::Case;
use oracle::generate::{FAMILIES, valid};
use oracle::play::start;
use oracle::questions::ask;
use reading::Played;

/// The form of a unit that an event begins.
const EVENT: i64 = 1;

/// How much was compared.
#[derive(Debug, Default)]
struct Sum {
    /// Records that list a carried unit.
    records: usize,
    /// Of them, those in which a rank stands before a lower one.
    against_ranks: usize,
    /// Carried units that began in the next record.
    begun: usize,
    /// Of these records, the last ones and those followed by a stopped one.
    last: usize,
    before_a_stop: usize,
    /// Late units that began while a carried one waited.
    between: usize,
}

/// What a case plays, and the source's own list after each tick.
fn play(case: &Case) -> Option<(Played, Vec<Vec<(i64, i64)>>)> {
    let (circuit, script) = ask(&case.circuit, &case.script, Some(&case.lent)).ok()?;
    let mut machine = start(&circuit, &script);
    let (mut log, mut lists) = (Vec::new(), Vec::new());
    let (mut stop, mut done) = (0, 0);
    while stop == 0 && lists.len() < script.lengths.len() {
        stop = machine.play_tick(&mut log);
        done += u64::from(stop == 0);
        lists.push(machine.carried().iter().map(|(gate, act)| (i64::from(*gate), form(act))).collect());
    }
    Some((reading::of_log(case, log, stop, done), lists))
}

/// The number that document 01 gives to an activation.
fn form(activation: &str) -> i64 {
    let of = |name: &str| activation.strip_prefix(name)?.strip_suffix(')')?.parse::<i64>().ok();
    match (activation, of("Pin("), of("Output(")) {
        ("Fire", ..) => 0,
        (_, Some(pin), _) => 16 + pin,
        (_, _, Some(output)) => 32 + output,
        _ => panic!("{activation} is carried"),
    }
}

fn compare(case: &Case, sum: &mut Sum) {
    let Some((p, lists)) = play(case) else { return };
    assert_eq!(p.ticks.len(), lists.len(), "{}", case.name);
    for (k, list) in lists.iter().enumerate() {
        assert_eq!(&p.ticks[k].carried, list, "{}, tick {}", case.name, k + 1);
        if !list.is_empty() {
            assert_begin_next(&p, k, case, sum);
        }
    }
}

/// What the record at `k` lists begins in the next one.
fn assert_begin_next(p: &Played, k: usize, case: &Case, sum: &mut Sum) {
    let rank = |unit: &(i64, i64)| p.ranks[unit.0 as usize];
    let mut waiting = p.ticks[k].carried.clone();
    sum.records += 1;
    sum.against_ranks += usize::from(!waiting.is_sorted_by_key(rank));
    let Some(next) = p.ticks.get(k + 1) else {
        sum.last += 1;
        return;
    };
    sum.before_a_stop += usize::from(next.stop != 0);
    // The sort is stable: those of one rank stay as they are.
    waiting.sort_by_key(rank);
    let mut waiting = &waiting[..];
    for unit in &next.late {
        let [first, rest @ ..] = waiting else { break };
        assert_ne!(unit.1, EVENT, "{}, tick {}", case.name, next.tick);
        if rank(unit) == rank(first) {
            assert_eq!(unit, first, "{}, tick {}", case.name, next.tick);
            waiting = rest;
            sum.begun += 1;
        } else {
            assert!(rank(unit) < rank(first), "{}, tick {}: {unit:?}, {first:?}", case.name, next.tick);
            sum.between += 1;
        }
    }
    assert!(waiting.is_empty() || next.stop != 0, "{}, tick {}: {waiting:?}", case.name, next.tick);
}

#[test]
fn of_the_stated_circuits() {
    let mut sum = Sum::default();
    for case in circuits::all() {
        compare(&case, &mut sum);
    }
    assert!(sum.records > 800 && sum.against_ranks > 60 && sum.begun > 1_000, "{sum:?}");
    assert!(sum.last > 20 && sum.before_a_stop > 15 && sum.between > 400, "{sum:?}");
}

#[test]
fn of_random_ones() {
    let mut sum = Sum::default();
    for family in FAMILIES {
        for seed in 0..400 {
            compare(&valid(seed, family), &mut sum);
        }
    }
    assert!(sum.records > 2_000 && sum.against_ranks > 300 && sum.begun > 4_000, "{sum:?}");
    assert!(sum.last > 100 && sum.before_a_stop > 100 && sum.between > 10_000, "{sum:?}");
}
