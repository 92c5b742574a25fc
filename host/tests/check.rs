//! The proved `check` against the oracle's: on damaged circuits and scripts, on
//! random ones that are not damaged, and on the stated ones.
//!
//! HAZHIRUN_RUNS=100000 cargo test --offline --release --test check
//! compares as many damaged and as many random ones; by default it is fewer.

use std::env;

use hazhirun_host::check;
use oracle::circuits::{self, Case};
use oracle::generate::{ASKED, FAMILIES, damaged, damaged_loops, valid};

/// How many damaged or random ones are compared, by default so many.
fn calls(default: u64) -> u64 {
    env::var("HAZHIRUN_RUNS").map_or(default, |n| n.parse().unwrap())
}

/// How often each number was the oracle's answer: 0, 1 to 10 and 19 are.
type Counts = [usize; 20];

/// Asks both about each case, of which the bytes stay as they are.
fn compare(cases: impl IntoIterator<Item = Case>) -> Counts {
    let mut counts = Counts::default();
    for case in cases {
        let before = (case.circuit.clone(), case.script.clone());
        let ours = check(&case.circuit, &case.script);
        let theirs = oracle::check(&case.circuit, &case.script);
        assert_eq!(ours, u64::from(theirs), "{}: {}", case.name, case.shows);
        assert!((case.circuit, case.script) == before, "{} was changed", case.name);
        counts[usize::from(theirs)] += 1;
    }
    counts
}

/// One fault or two of the ten questions of document 01. Every number is met, 7
/// the least often: where only the areas are too small, a call that is lent none
/// is not refused.
#[test]
fn damaged_ones() {
    let counts = compare((0..calls(20_000)).map(|seed| damaged(seed).case));
    assert!(counts[..11].iter().all(|&n| n as u64 > calls(20_000) / 50), "{counts:?}");
}

/// One fault or two of what is asked about Loops and bodies.
#[test]
fn damaged_ones_with_loops() {
    let counts = compare((0..calls(20_000)).map(|seed| damaged_loops(seed).case));
    assert!([3, 4, 5, 19].iter().all(|&n| counts[n] as u64 > calls(20_000) / 50), "{counts:?}");
}

#[test]
fn random_ones_of_every_family() {
    let counts = compare((0..calls(2_800)).map(|n| {
        let families = FAMILIES.len() as u64;
        valid(n / families, FAMILIES[(n % families) as usize])
    }));
    assert_eq!(counts[0] as u64, calls(2_800));
}

/// The longest scripts are among these: 100,000 ticks, 65,535 stimuli.
#[test]
fn stated_ones() {
    let counts = compare(circuits::all());
    assert!(counts[0] >= 10 && ASKED.iter().all(|&n| counts[n as usize] >= 10), "{counts:?}");
}

/// Bytes cut off at every place, and each byte changed in turn: most of these
/// are no circuits or scripts that anyone would build.
#[test]
fn one_byte_off() {
    let Case { circuit, script, .. } = valid(0, FAMILIES[0]);
    let case = |circuit: &[u8], script: &[u8]| {
        Case::of_bytes("off", "One off.", circuit.to_vec(), script.to_vec())
    };
    let changed = |bytes: &[u8], at: usize, by: u8| {
        let mut bytes = bytes.to_vec();
        bytes[at] ^= by;
        bytes
    };
    compare((0..circuit.len()).map(|n| case(&circuit[..n], &script)));
    compare((0..script.len()).map(|n| case(&circuit, &script[..n])));
    for by in [1, 2, 0x80, 0xff] {
        compare((0..circuit.len()).map(|at| case(&changed(&circuit, at, by), &script)));
        compare((0..script.len()).map(|at| case(&circuit, &changed(&script, at, by))));
    }
}
