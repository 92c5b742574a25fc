//! The bytes of a log: so many ticks, the most units and carried, and all outputs.

use super::{one_call, row, set_up, size};
use crate::build::*;
use crate::case::Size;

pub fn sizes() -> Vec<Size> {
    let mut sizes = Vec::new();
    for ticks in [0, 1, 100_000] {
        let name = format!("outputs-576-ticks-{ticks}");
        let shows = format!("64 gates of nine outputs each, {ticks} ticks.");
        let mut c = Circuit::new();
        for _ in 0..64 {
            set_up(&mut c, EVENT_CUSTOM);
        }
        sizes.push(Size { ticks, ..size(name, shows, &c) });
    }
    let mut exec = Circuit::new();
    row(&mut exec, BRANCH, 3);
    let mut values = Circuit::new();
    for _ in 0..5 {
        values.var(NOTHING);
    }
    let mut both = one_call();
    both.cycle(0, 3);
    sizes.extend([
        size("outputs-exec", "Three Branches: six exec outputs.", &exec),
        size("outputs-of-values", "Five Vars: five value outputs.", &values),
        size("outputs-of-both", "A World, a Toggle and a Cycle: four exec outputs, three of values.", &both),
        Size { ticks: 1, ..size("outputs-1", "A Var: one output, for one tick.", &var()) },
        Size { ticks: 7, ..size("outputs-1-ticks-7", "A Var: one output, for seven ticks.", &var()) },
    ]);
    sizes
}

fn var() -> Circuit {
    let mut c = Circuit::new();
    c.var(NOTHING);
    c
}
