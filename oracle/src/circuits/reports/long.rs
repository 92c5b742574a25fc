//! The most records, and one more: a Var that shows 3, as driver and as activity.

use super::Report;
use crate::build::{Circuit, NOTHING, bytes_of};
use crate::hours::Named;

pub fn reports() -> Vec<Report> {
    vec![
        of("records-100000", "100,000 records of a minute.", 100_000, None),
        of("records-100001", "100,001 records.", 100_001, None),
        of("records-100000-stopped", "100,000 records, the last one stopped.", 99_999, Some(100_000)),
        of("records-100001-stopped", "100,001 records, the last one stopped.", 100_000, Some(100_001)),
    ]
}

/// So many ticks, and one that is stopped.
fn of(name: &str, shows: &str, ticks: i64, stopped: Option<i64>) -> Report {
    let mut c = Circuit::new();
    c.var(NOTHING);
    let mut words: Vec<i64> = (1..=ticks).flat_map(|tick| [tick, 0, 0, 0, 0, 0, 0, 1, 3]).collect();
    words.extend(stopped.into_iter().flat_map(|tick| [tick, 0, 0, 0, 0, 12, 0]));
    let named = Named { driver: 0, activity: 0, length: 60_000 };
    Report::new(format!("report-{name}"), shows, c.bytes(), bytes_of(&words), named)
}
