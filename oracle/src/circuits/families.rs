//! Seeded random circuits of each family, whole and damaged.

use super::Case;
use crate::generate::{damaged, damaged_loops, stated_families, valid};

/// How many seeds of each family are stated.
const SEEDS: u64 = 36;

/// How many damaged ones.
const DAMAGED: u64 = 150;

/// How many damaged ones with Loops.
const DAMAGED_LOOPS: u64 = 40;

pub fn cases() -> Vec<Case> {
    let whole = stated_families().flat_map(|family| (0..SEEDS).map(move |seed| valid(seed, family)));
    let mut cases: Vec<Case> = whole.collect();
    cases.extend((0..DAMAGED).map(|seed| damaged(seed).case));
    cases.extend((0..DAMAGED_LOOPS).map(|seed| damaged_loops(seed).case));
    cases
}
