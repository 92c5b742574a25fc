//! The proved `run` against the oracle's: every byte of the log and of the three
//! areas, which hold garbage before, on stated, random and damaged calls.
//!
//! HAZHIRUN_RUNS=100000 cargo test --offline --release --test run
//! compares as many random and as many damaged calls; by default it is fewer.

mod common;

use std::env;

use common::{format_words, garbage};
use hazhirun_host::{Answer, run};
use oracle::circuits::{self, Case};
use oracle::generate::{FAMILIES, damaged, damaged_loops, valid};

/// How many random and how many damaged calls are compared.
fn calls() -> u64 {
    env::var("HAZHIRUN_RUNS").map_or(2_800, |n| n.parse().unwrap())
}

/// Plays a case on both; whether it was refused.
fn compare(case: &Case, seed: u64) -> bool {
    let lent = &case.lent;
    let before = [lent.log, lent.values, lent.units, lent.delays];
    let before: Vec<Vec<u8>> =
        before.iter().enumerate().map(|(k, &n)| garbage(n, 4 * seed + k as u64)).collect();
    let mut after = before.clone();
    let [log, values, units, delays] = &mut after[..] else { unreachable!() };
    let ours = run(&case.circuit, &case.script, log, values, units, delays);
    let theirs = oracle::run(&case.circuit, &case.script, lent);
    match theirs {
        oracle::Answer::Refused(number) => {
            assert_eq!(ours, Answer::Refused(number.into()), "{}", case.name);
            assert!(after == before, "{}: refused, and not untouched", case.name);
            true
        }
        oracle::Answer::Played { log: words, stop, ticks } => {
            let bytes = 8 * words.len();
            assert_eq!(ours, Answer::Played { stop: stop.into(), ticks, bytes }, "{}", case.name);
            let records: Vec<u8> = words.iter().flat_map(|w| w.to_le_bytes()).collect();
            assert!(after[0][..bytes] == records[..], "{}: the records differ", case.name);
            assert!(after[0][bytes..] == before[0][bytes..], "{}: the log's rest", case.name);
            for area in &after[1..] {
                assert!(area.iter().all(|&b| b == 0), "{}: an area is not zero", case.name);
            }
            false
        }
    }
}

/// Document 01's examples, a circuit for each corner, limit and question, and
/// the vehicles.
#[test]
fn stated_ones() {
    let cases = circuits::all();
    let refused = cases.iter().zip(0..).filter(|&(case, seed)| compare(case, seed)).count();
    assert!(refused > 400 && cases.len() - refused > 800, "{refused} of {}", cases.len());
}

#[test]
fn random_ones_of_every_family() {
    let refused = (0..calls())
        .filter(|&n| {
            let family = FAMILIES[n as usize % FAMILIES.len()];
            compare(&valid(100_000 + n, family), n)
        })
        .count();
    assert_eq!(refused, 0);
}

/// One fault or two; some of them refuse nothing.
#[test]
fn damaged_ones() {
    let refused = (0..calls()).filter(|&n| compare(&damaged(100_000 + n).case, n)).count() as u64;
    assert!(refused > calls() / 2, "{refused}");
    assert!((0..calls()).all(|n| compare(&damaged_loops(100_000 + n).case, n)));
}

/// A block of docs/FORMAT.md, whose lines begin so: its log is what both write.
fn block(named: &str, ticks: u64) {
    let words = |part: &str| format_words(&format!("{named}{part}"));
    let case = Case::of_words("worked", "An example.", &words("circuit"), &words("script"));
    let log = words("log");
    let theirs = oracle::run(&case.circuit, &case.script, &case.lent);
    assert_eq!(theirs, oracle::Answer::Played { log, stop: 0, ticks });
    assert!(!compare(&case, 1));
}

#[test]
fn worked_example() {
    block("", 3);
}

#[test]
fn worked_loop() {
    block("loop ", 2);
}
