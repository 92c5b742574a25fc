//! What is named, question 17: value outputs of the circuit, and a length from 1
//! to 60,000.

use super::forms::gate;
use super::{NAMED, log, report, spelled, two, work};
use crate::build::outputs_of;
use crate::case::Report;
use crate::hours::Named;

pub fn reports() -> Vec<Report> {
    let mut reports = Vec::new();
    for output in OUTPUTS {
        let name = spelled(output);
        let shows = format!("Output {name} is named as the driver.");
        reports.push(of(format!("driver-output-{name}"), shows, Named { driver: output as u64, ..NAMED }));
        let shows = format!("Output {name} is named as the activity.");
        reports.push(of(
            format!("activity-output-{name}"),
            shows,
            Named { activity: output as u64, ..NAMED },
        ));
    }
    for length in LENGTHS {
        let name = spelled(length);
        let shows = format!("Ticks of {name} milliseconds.");
        reports.push(of(format!("length-{name}"), shows, Named { length: length as u64, ..NAMED }));
    }
    reports.extend([
        of(
            "both-swapped",
            "Driver and activity the other way round.",
            Named { driver: 2, activity: 1, ..NAMED },
        ),
        of("both-exec", "Both outputs are exec.", Named { driver: 0, activity: 3, ..NAMED }),
        of("all-wrong", "Outputs and length are wrong.", Named { driver: 5, activity: 5, length: 0 }),
        empty("empty-driver-output-5", Named { driver: 5, ..NAMED }),
        empty("empty-activity-output-0", Named { activity: 0, ..NAMED }),
        empty("empty-length-0", Named { length: 0, ..NAMED }),
    ]);
    for kind in [2, 15, 16, 23, 29] {
        // Output 0 is the Var's.
        let outputs = outputs_of(kind).len() as u64;
        reports.extend((1..=outputs).map(|output| of_kind(kind, output)));
    }
    reports
}

const OUTPUTS: [i64; 12] = [0, 1, 2, 3, 4, 5, -1, 257, two(32) + 1, two(61) + 1, i64::MAX, two(63) + 1];

const LENGTHS: [i64; 11] =
    [0, 1, 59_999, 60_000, 60_001, 65_537, -1, two(32), two(32) + 1, i64::MAX, two(63) + 1];

/// Over two ticks of work.
fn of(name: impl AsRef<str>, shows: impl Into<String>, named: Named) -> Report {
    Report { named, ..report(format!("named-{}", name.as_ref()), shows, log(&[work(1), work(2)])) }
}

fn empty(name: &str, named: Named) -> Report {
    Report {
        named,
        ..report(format!("named-{name}"), "An empty log, and what is named is wrong.", Vec::new())
    }
}

/// An output of a gate of this kind, named as both, over an empty log.
fn of_kind(kind: i64, output: u64) -> Report {
    let (name, own) = (format!("report-named-kind-{kind}-output-{}", output - 1), output - 1);
    let shows = format!("Output {own} of a gate of kind {kind} is named.");
    let named = Named { driver: output, activity: output, ..NAMED };
    Report::new(name, shows, gate(kind, &[]).bytes(), Vec::new(), named)
}
