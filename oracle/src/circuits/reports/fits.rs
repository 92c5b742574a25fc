//! Whether the report fits, question 18: at most 32 drivers, and room for its
//! bytes.

use super::{NONE, Shown, days, int, report};
use crate::case::Report;

pub fn reports() -> Vec<Report> {
    let mut reports = Vec::new();
    for (drivers, room) in ROOMS {
        let shows = format!("A report of {drivers} drivers, and {room} bytes for it.");
        reports.push(of(format!("room-{room}-for-{drivers}"), shows, &seen(drivers), room));
    }
    let mut again = seen(32);
    again.extend([(int(1), int(1)), (int(32), int(3))]);
    let mut unassigned = seen(32);
    unassigned.push((int(33), int(4)));
    let mut late = unassigned.clone();
    late.push((int(33), int(0)));
    let mut once_more = seen(33);
    once_more.push((int(1), int(0)));
    reports.extend([
        of("drivers-32-again", "Two of 32 drivers come back.", &again, 5_160),
        of(
            "drivers-32-and-one-unassigned",
            "A 33rd driver is seen with activity 4 alone.",
            &unassigned,
            5_160,
        ),
        of("drivers-33-at-last", "A 33rd driver is seen with activity 4 and then appears.", &late, 6_000),
        of("drivers-33-and-the-first", "Behind the 33rd driver the first comes back.", &once_more, 6_000),
    ]);
    reports
}

/// Drivers, and bytes lent.
const ROOMS: [(i64, usize); 25] = [
    (0, 0),
    (0, 1),
    (0, 8),
    (0, 39),
    (0, 40),
    (0, 41),
    (0, 47),
    (1, 0),
    (1, 40),
    (1, 160),
    (1, 192),
    (1, 199),
    (1, 200),
    (1, 201),
    (2, 200),
    (2, 359),
    (2, 360),
    (31, 5_000),
    (32, 5_000),
    (32, 5_159),
    (32, 5_160),
    (32, 5_161),
    (33, 5_160),
    (33, 5_320),
    (34, 6_000),
];

/// Drivers from 1 up, each at rest for a tick, and one that is unassigned.
fn seen(drivers: i64) -> Vec<(Shown, Shown)> {
    (1..=drivers).map(|driver| (int(driver), int(0))).chain([(NONE, NONE)]).collect()
}

/// A log of so many drivers.
pub(super) fn drivers(drivers: i64) -> Vec<u8> {
    days(&seen(drivers))
}

fn of(name: impl AsRef<str>, shows: impl Into<String>, shown: &[(Shown, Shown)], room: usize) -> Report {
    Report { room, ..report(name, shows, days(shown)) }
}
