//! What a tick carries is listed in its record (document 02, K4).

use super::Case;
use super::start::drive_every_pin;
use crate::build::{Circuit, NOTHING, Script};

pub fn cases() -> Vec<Case> {
    let mut cases = vec![against_ranks(), two_units(), every_form(), in_and_out(), in_stopped_late()];
    cases.extend([and_pending_12(), and_pending_11()]);
    cases.extend(logs());
    cases
}

/// A Clock of rank 5 flips two Toggles, one after the other; the watchers of
/// the first have the higher numbers.
fn one_unit() -> Circuit {
    let mut c = Circuit::new();
    let clock = c.clock(5, 0.25);
    let first = c.toggle(0);
    let second = c.toggle(0);
    c.change_detector(4, second);
    c.change_detector(2, second);
    c.change_detector(4, first);
    c.change_detector(3, first);
    c.chain(&[clock, first, second]);
    c
}

fn against_ranks() -> Case {
    let mut s = Script::new();
    s.first_checks(1, 0.0).tick(0.25).tick(0.0);
    let shows = "Carried by one unit are 5, 6, 3, 4 of ranks 4, 3, 4, 2, and listed so; the next late pass begins 4, 6, 5, 3.";
    Case::new("carried-against-ranks", shows, &one_unit(), &s).tells(&[51])
}

/// The Clock of rank 5 has the higher number, and a watcher of both Clocks.
fn two_units() -> Case {
    let mut c = Circuit::new();
    let later = c.clock(6, 0.25);
    let sooner = c.clock(5, 0.25);
    let by_later = c.toggle(0);
    let by_sooner = c.toggle(0);
    let by_both = c.cycle(0, 100);
    c.change_detector(1, by_later);
    c.change_detector(6, by_later);
    c.change_detector(5, by_sooner);
    c.change_detector(1, by_sooner);
    c.change_detector(3, by_both);
    c.call_all(later, &[by_later, by_both]);
    c.call_all(sooner, &[by_both, by_sooner]);
    let mut s = Script::new();
    s.first_checks(1, 0.0).tick(0.25).tick(0.0);
    let shows = "Carried by two units, 9, 7, 8 by the first and 5, 6, 9 by the second: 9 twice, and 8, 5, 9, 9, 7, 6 begin late.";
    Case::new("carried-by-two-units", shows, &c, &s).tells(&[51])
}

/// A Toggle that drives every exec pin and is watched by kinds 6 and 9, of
/// ranks 5 and 4 by turns. What falls is behind a Select, so checked last.
fn every_form() -> Case {
    let mut c = Circuit::new();
    let clock = c.clock(5, 0.25);
    let flipped = c.toggle(0);
    let kept = c.var(4);
    let below = c.select(flipped, NOTHING, -1);
    c.edge_exec(4, below);
    c.change_detector(5, flipped);
    c.edge_exec(4, flipped);
    drive_every_pin(&mut c, flipped, kept, |gate| 4 + gate % 2);
    c.call(clock, flipped);
    let mut s = Script::new();
    s.first_checks(1, 0.0).tick(0.25).tick(0.0);
    let shows =
        "Every form that can be carried: 0 of kind 6, 32 and 33 of kind 9, 16, 17 and 18 of exec pins.";
    Case::new("carried-forms", shows, &c, &s).tells(&[40, 51]).delays(2 << 16)
}

/// A Toggle flipped in every tick drives one pin, its opposite another.
fn in_and_out() -> Case {
    let mut c = Circuit::new();
    let clock = c.clock(5, 0.25);
    let flipped = c.toggle(0);
    let opposite = c.select(flipped, true, false);
    let on = c.toggle(4);
    let off = c.toggle(5);
    c.feed(on.pin("Exec"), flipped);
    c.feed(off.pin("Exec"), opposite);
    c.edge_exec(3, flipped);
    c.call(clock, flipped);
    let mut s = Script::new();
    s.first_checks(1, 0.0).ticks(3, 0.25);
    let shows =
        "Two units come into a tick and two others go out, which its record lists; the last tick's too.";
    Case::new("carried-in-and-out", shows, &c, &s).tells(&[52])
}

fn in_stopped_late() -> Case {
    let mut c = Circuit::new();
    let clock = c.clock(5, 0.25);
    let toggle = c.toggle(0);
    c.change_detector(4, toggle);
    let bad = c.change_detector(2, toggle);
    c.change_detector(3, toggle);
    let flipped = c.branch(0, toggle);
    let ring = c.reroute(NOTHING);
    c.call(clock, toggle);
    c.chain(&[bad, flipped, ring]);
    c.call_all(ring, &[ring, ring]);
    let mut s = Script::new();
    s.first_checks(1, 0.0).ticks(2, 0.25);
    let shows = "Three come into a tick, and the first of them stops it: two wait late and a Clock is pending, and none is listed.";
    Case::new("carried-in-stopped-late", shows, &c, &s).tells(&[32, 52])
}

/// A Clock of rank 4 raises two units for the next tick and two for this one;
/// the chain of another, of rank 5, calls a Reroute that calls itself so often.
fn and_pending(calls: usize) -> Circuit {
    let mut c = Circuit::new();
    let clock = c.clock(4, 0.25);
    let toggle = c.toggle(0);
    for rank in [4, 7, 1, 9] {
        c.change_detector(rank, toggle);
    }
    let bad = c.clock(5, 0.25);
    let ring = c.reroute(NOTHING);
    c.call(clock, toggle);
    c.call(bad, ring);
    for _ in 0..calls {
        c.call(ring, ring);
    }
    c
}

fn and_pending_12() -> Case {
    let mut s = Script::new();
    s.first_checks(1, 0.0).ticks(2, 0.25);
    let shows = "Stopped by 12 in the main pass with 2 and 4 carried, 3 and 5 pending: 2 and 4 are listed.";
    Case::new("carried-and-pending-12", shows, &and_pending(2), &s).tells(&[32, 52])
}

fn and_pending_11() -> Case {
    let mut s = Script::new();
    s.ticks(2, 0.25);
    let shows = "Stopped by 11 in the main pass of tick 1 with 2 and 4 carried, 3 and 5 pending, twice each: 2 and 4 are listed.";
    Case::new("carried-and-pending-11", shows, &and_pending(1), &s).tells(&[32, 52])
}

/// A record of 33 words, then one of 35, which lists four carried units.
fn logged(name: &str, shows: &str, log: usize) -> Case {
    let mut s = Script::new();
    s.first_checks(1, 0.0).tick(0.25);
    Case::new(name, shows, &one_unit(), &s).tells(&[53]).log(log)
}

/// A record of 33 words, then a stopped one of 15, which lists two.
fn logged_12(name: &str, shows: &str, log: usize) -> Case {
    Case { name: name.into(), shows: shows.into(), ..and_pending_12() }.tells(&[53]).log(log)
}

fn logs() -> Vec<Case> {
    vec![
        logged(
            "log-carried-exact",
            "A record with four carried units, of 280 bytes, fills the log's rest.",
            544,
        ),
        logged("log-carried-byte-short", "A byte short for it: 13.", 543),
        logged("log-carried-word-short", "A word short for it: 13.", 536),
        logged_12(
            "log-carried-12-exact",
            "A stopped record with two, of 120 bytes, fills the log's rest.",
            384,
        ),
        logged_12("log-carried-12-byte-short", "A byte short for it: 13.", 383),
        logged_12("log-carried-12-word-short", "A word short for it: 13.", 376),
    ]
}
