//! The limit of 100,000 runs of bodies in a tick.

use super::super::Case;
use super::repeat;
use crate::build::{Circuit, Script};

/// The runs that all Loops together make in a tick.
const MOST: i64 = 100_000;

pub fn cases() -> Vec<Case> {
    vec![at_the_limit(0), at_the_limit(1), after_an_abort(), shared(), nested()]
}

fn at_the_limit(past: i64) -> Case {
    let mut c = Circuit::new();
    let world = c.world_event(0);
    let (repeat, _) = repeat(&mut c, MOST + past);
    let after = c.toggle(0);
    c.chain(&[world, repeat, after]);
    let mut s = Script::new();
    s.tick(0.25).fire(world);
    let shows = match past {
        0 => "100,000 runs in a tick.",
        _ => "The 100,001st run aborts its Loop, before Index is set; Completed is fired.",
    };
    Case::new(format!("loop-runs-{}", MOST + past), shows, &c, &s).tells(&[68])
}

fn after_an_abort() -> Case {
    let mut c = Circuit::new();
    let world = c.world_event(0);
    let other = c.world_event(0);
    let (first, _) = repeat(&mut c, MOST + 1);
    let (second, in_second) = repeat(&mut c, 5);
    let (none, _) = repeat(&mut c, 0);
    let (less, _) = repeat(&mut c, -1);
    let count = c.cycle(0, 100);
    let after = c.cycle(0, 100);
    c.put_inside(second, &[count]);
    c.call_all(world, &[first, second, none, less]);
    c.call(other, second);
    c.call(in_second, count);
    c.call(second, after);
    let mut s = Script::new();
    s.tick(0.25).fire(world).tick(0.25).fire(other);
    let shows = "After an abort a Loop of the same tick is aborted with 0 done, but not one that makes no run; the next tick begins anew.";
    Case::new("loops-after-an-abort", shows, &c, &s).tells(&[68])
}

fn shared() -> Case {
    let mut c = Circuit::new();
    let world = c.world_event(0);
    let clock = c.clock(0, 0.0);
    let (late, _) = repeat(&mut c, 60_000);
    let (main, _) = repeat(&mut c, 60_000);
    c.call(world, late);
    c.call(clock, main);
    let mut s = Script::new();
    s.tick(0.25).fire(world).tick(0.25);
    let shows =
        "60,000 runs in the late pass leave 40,000 for the main pass; the next tick has 100,000 again.";
    Case::new("loops-share-the-runs", shows, &c, &s).tells(&[68])
}

fn nested() -> Case {
    let mut c = Circuit::new();
    let world = c.world_event(0);
    let (outer, in_outer) = repeat(&mut c, 1_000);
    let (inner, _) = repeat(&mut c, 100);
    let after = c.cycle(0, 1_000_000);
    c.put_inside(outer, &[inner, after]);
    c.call(world, outer);
    c.chain(&[in_outer, inner, after]);
    let mut s = Script::new();
    s.tick(0.25).fire(world);
    let shows = "Runs of an inner Loop count too: 990 times 101, then the outer 991st with 9 of the inner one, and both are aborted.";
    Case::new("loops-aborted-nested", shows, &c, &s).tells(&[68])
}
