//! What a unit sees when it begins (document 02, K13), on every stated
//! circuit and on random ones of every family.
//!
//! A run with a witness also restores what reading for its records refreshed,
//! so that its log says whether that can be seen.

use oracle::Answer;
use oracle::circuits::{self, Case};
use oracle::generate::{FAMILIES, Family, valid};
use oracle::machine::witness::Witness;
use oracle::play::{play_into, start};
use oracle::questions::ask;

/// The log of a run with a witness, its stop and ticks, and what was seen.
fn watched(case: &Case) -> Option<(Answer, Witness)> {
    let (circuit, script) = ask(&case.circuit, &case.script, Some(&case.lent)).ok()?;
    let mut machine = start(&circuit, &script).with_witness();
    let mut log = Vec::new();
    let (stop, ticks) = play_into(&mut log, &mut machine, script.lengths.len(), case.lent.log);
    Some((Answer::Played { log, stop, ticks }, machine.take_witness()))
}

/// Every unit reads what is worked out afresh, and the log is the one of a
/// run without a witness.
fn assert_fresh(case: &Case, sum: &mut Witness) {
    let Some((answer, seen)) = watched(case) else { return };
    assert_eq!(seen.left_from_before, [String::new(); 0], "{}", case.name);
    let unwatched = oracle::run(&case.circuit, &case.script, &case.lent);
    assert!(answer == unwatched, "{}: another log", case.name);
    sum.units += seen.units;
    sum.looks += seen.looks;
    sum.stale += seen.stale;
    sum.shown_otherwise += seen.shown_otherwise;
    sum.ticks_left_stale += seen.ticks_left_stale;
}

#[test]
fn of_the_stated_circuits() {
    let mut sum = Witness::default();
    for case in circuits::all() {
        assert_fresh(&case, &mut sum);
    }
    assert!(sum.units > 100_000 && sum.looks > 200_000, "{sum:?}");
}

/// Gates that are stale when a unit begins are rare: a pulse goes up after the
/// refreshing of its settling, and nothing watches the gate. The family `Stale`
/// has them.
#[test]
fn of_random_ones() {
    let mut sum = Witness::default();
    for family in FAMILIES {
        for seed in 0..if family == Family::Stale { 2_000 } else { 200 } {
            assert_fresh(&valid(seed, family), &mut sum);
        }
    }
    assert!(sum.units > 200_000 && sum.looks > 400_000, "{sum:?}");
    assert!(sum.stale > 50_000 && sum.shown_otherwise > 30_000 && sum.ticks_left_stale > 3_000, "{sum:?}");
}
