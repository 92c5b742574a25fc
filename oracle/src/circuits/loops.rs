//! Counted loops (document 02, K5).

mod aborted;
mod breaks;
mod chains;
mod put_off;
mod questions;
mod runs;

use super::Case;
use crate::build::{Circuit, Gate, NOTHING};

pub fn cases() -> Vec<Case> {
    [runs::cases(), breaks::cases(), chains::cases(), aborted::cases(), put_off::cases(), questions::cases()]
        .concat()
}

/// A Loop without rank, which begins at 0 and counts by 1, and its entry.
fn repeat(c: &mut Circuit, count: i64) -> (Gate, Gate) {
    let repeat = c.repeat(0, count, 0, 1);
    (repeat, c.body(repeat))
}

/// Two gates that note in a variable of their own which of these came before,
/// and then say that it was number `k`: the first of them.
fn place(c: &mut Circuit, last: Gate, k: i64) -> [Gate; 2] {
    let before = c.var(NOTHING);
    let note = c.var_set(0, before, last);
    let say = c.var_set(0, last, k);
    c.call(note, say);
    [note, say]
}
