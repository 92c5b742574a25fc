//! Whose a tick is: drivers in order of first appearance, activities, and what
//! goes to the last line.

use super::{NAMED, NONE, Shown, days, int, log, report, shows, spelled, stopped, two, work};
use crate::build::{Record, bits};
use crate::case::Report;
use crate::hours::Named;

pub fn reports() -> Vec<Report> {
    let mut reports = Vec::new();
    for driver in [0, 1, -1, i64::MAX, i64::MIN, two(32)] {
        let name = spelled(driver);
        let shows = format!("Driver {name} at rest.");
        reports.push(of(format!("driver-{name}"), shows, &[(int(driver), int(0))]));
    }
    for activity in [0, 1, 2, 3, 4, 9, -1, i64::MAX, i64::MIN, two(32), two(32) + 1, two(63) + 1, 256] {
        let name = spelled(activity);
        let shows = format!("Activity {name}.");
        reports.push(of(format!("activity-{name}"), shows, &[(int(7), int(activity))]));
    }
    for (name, value) in NO_INTS {
        reports.push(of(format!("driver-{name}"), format!("The driver is {name}."), &[(value, int(1))]));
        reports.push(of(format!("activity-{name}"), format!("The activity is {name}."), &[(int(7), value)]));
    }
    reports.extend(orders());
    reports.extend(alike());
    reports.extend(stops());
    reports.extend(both());
    reports
}

/// What an output shows that is no Int, with contents that would do.
const NO_INTS: [(&str, Shown); 6] = [
    ("nothing", NONE),
    ("float-1.0", (2, 0x3FF0_0000_0000_0000)),
    ("float-0.0", (2, 0)),
    ("float-of-bits-1", (2, 1)),
    ("false", (3, 0)),
    ("true", (3, 1)),
];

/// Ticks of a minute, which show these drivers and activities.
fn of(name: impl AsRef<str>, shows: impl Into<String>, shown: &[(Shown, Shown)]) -> Report {
    minutes(report(name, shows, days(shown)))
}

/// Drivers and activities that are Ints.
fn ints(name: &str, shows: &str, shown: &[(i64, i64)]) -> Report {
    of(name, shows, &shown.iter().map(|&(driver, activity)| (int(driver), int(activity))).collect::<Vec<_>>())
}

/// With ticks of a minute.
fn minutes(report: Report) -> Report {
    Report { named: Named { length: 60_000, ..report.named }, ..report }
}

fn orders() -> Vec<Report> {
    let float = (2, bits(2.0));
    vec![
        ints("order-5-3-9", "Three drivers by turns.", &[(5, 0), (3, 1), (5, 2), (9, 3), (3, 1)]),
        ints("order-9-1-5", "Drivers that do not ascend.", &[(9, 0), (1, 0), (5, 0)]),
        ints("order-below-0", "Drivers below 0 among others.", &[(1, 0), (i64::MIN, 0), (-1, 0), (0, 0)]),
        ints("first-seen-with-9", "Driver 7 is first seen with activity 9.", &[(7, 9), (8, 0), (7, 0)]),
        ints("first-seen-with-4", "Driver 7 is first seen with activity 4.", &[(7, 4), (8, 3), (7, 3)]),
        of(
            "first-seen-with-a-float",
            "Driver 7 is first seen with a Float as the activity.",
            &[(int(7), float), (int(8), int(0)), (int(7), int(0))],
        ),
        of(
            "first-seen-with-nothing",
            "Driver 7 is first seen with nothing as the activity.",
            &[(int(7), NONE), (int(8), int(0)), (int(7), int(0))],
        ),
        ints(
            "never-assigned",
            "A driver who is seen with no activity does not appear.",
            &[(7, 9), (7, -1), (8, 1)],
        ),
        ints("last-unassigned", "The last driver does not appear.", &[(8, 1), (7, 4)]),
        ints("come-back", "A driver who comes back.", &[(5, 1), (6, 1), (5, 1), (6, 2), (5, 1)]),
        ints(
            "all-activities",
            "Each activity more often than the one before.",
            &[(7, 3), (7, 0), (7, 1), (7, 2), (7, 3), (7, 1), (7, 2), (7, 3), (7, 2), (7, 3)],
        ),
        of(
            "between-unassigned",
            "Ticks unassigned before, between and behind.",
            &[
                (NONE, NONE),
                (int(7), int(2)),
                (NONE, int(2)),
                (int(7), NONE),
                (int(7), int(2)),
                (float, float),
            ],
        ),
    ]
}

/// Drivers that differ in a high bit alone, or by more than 32 bits show.
fn alike() -> Vec<Report> {
    vec![
        ints("alike-in-32-bits", "Drivers 1 and 2^32 + 1.", &[(1, 0), (two(32) + 1, 1), (1, 2)]),
        ints("alike-in-63-bits", "Drivers 1 and 2^63 + 1.", &[(1, 0), (two(63) + 1, 1), (1, 2)]),
        ints("alike-but-for-the-sign", "Drivers 7 and -7.", &[(7, 0), (-7, 0), (7, 0)]),
        ints("alike-in-a-byte", "Drivers 7 and 263.", &[(7, 0), (263, 0), (7, 0)]),
    ]
}

fn stops() -> Vec<Report> {
    let ticks = [shows(1, int(7), int(1)), shows(2, int(8), int(2)), shows(3, NONE, NONE)];
    let behind = |stop| {
        let shows = format!("Three ticks, and one stopped by {stop}: it is not read.");
        minutes(report(format!("stopped-{stop}"), shows, log(&[&ticks[..], &[stopped(4, stop)]].concat())))
    };
    // The value outputs are those of the tick, not of the one before.
    let shown = Record { outputs: vec![NONE, int(8), int(3), NONE, int(1)], ..work(2) };
    vec![
        behind(11),
        behind(12),
        minutes(report("other-outputs", "Other outputs show Ints too.", log(&[work(1), shown]))),
    ]
}

/// The same output for both, and other outputs than the desk's first.
fn both() -> Vec<Report> {
    let shown =
        days(&[(int(2), int(0)), (int(5), int(1)), (int(-1), int(2)), (int(0), int(3)), (int(2), NONE)]);
    let both = |name: &str, driver, activity| {
        let shows = format!("Output {driver} is the driver, output {activity} the activity.");
        Report { named: Named { driver, activity, length: 60_000 }, ..report(name, shows, shown.clone()) }
    };
    let mut last = work(1);
    last.outputs[4] = int(3);
    let named = Named { driver: 4, activity: 4, ..NAMED };
    vec![
        both("one-output-for-both", 1, 1),
        both("the-other-output-for-both", 2, 2),
        both("outputs-swapped", 2, 1),
        both("last-output-for-the-driver", 4, 2),
        Report { named, ..report("last-output-for-both", "The last output is both.", log(&[last])) },
    ]
}
