//! Milliseconds and minutes: of each line, rounded to the nearest, the half
//! upwards.

use super::{NAMED, NONE, Shown, days, int, report};
use crate::case::Report;
use crate::hours::Named;

pub fn reports() -> Vec<Report> {
    let mut reports: Vec<Report> = TICKS.map(|(ticks, length)| of("driver", int(7), ticks, length)).into();
    reports.extend(TICKS.map(|(ticks, length)| of("unassigned", NONE, ticks, length)));
    reports.push(of_each_line());
    reports
}

/// How many ticks, and their length.
const TICKS: [(usize, u64); 22] = [
    (1, 1),
    (1, 29_999),
    (1, 30_000),
    (1, 30_001),
    (1, 59_999),
    (1, 60_000),
    (2, 15_000),
    (2, 29_999),
    (2, 30_000),
    (2, 44_999),
    (2, 45_000),
    (2, 45_001),
    (3, 10_000),
    (3, 29_999),
    (3, 30_000),
    (3, 30_001),
    (5, 29_999),
    (5, 30_000),
    (7, 30_000),
    (10, 3_000),
    (10, 8_999),
    (10, 60_000),
];

/// So many ticks of this length that show this driver, at work.
fn of(whose: &str, driver: Shown, ticks: usize, length: u64) -> Report {
    let shows = format!("{ticks} ticks of {length} milliseconds: {whose}.");
    let log = days(&vec![(driver, int(2)); ticks]);
    let named = Named { length, ..NAMED };
    Report { named, ..report(format!("minutes-{ticks}-of-{length}-{whose}"), shows, log) }
}

/// Half a minute in each line but one.
fn of_each_line() -> Report {
    let shown = [(int(7), int(0)), (int(8), int(3)), (NONE, NONE), (int(7), int(1)), (int(7), int(3))];
    let named = Named { length: 30_000, ..NAMED };
    Report { named, ..report("minutes-of-each-line", "Half a minute in each of five lines.", days(&shown)) }
}
