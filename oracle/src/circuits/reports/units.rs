//! The units of a record: gates of the circuit, each in a form it can have,
//! whether late, main or carried.

use super::{FIRE, WORLD, log, report, spelled, stopped, two, work};
use crate::build::Record;
use crate::case::Report;

pub fn reports() -> Vec<Report> {
    let mut reports = Vec::new();
    for list in LISTS {
        for gate in [4, 64, 67, -1, -3, two(32) + 3, two(63), two(63) + 3] {
            let name = spelled(gate);
            let shows = format!("A {list} unit of gate {name}, which the circuit does not have.");
            reports.push(alone(format!("{list}-gate-{name}"), shows, list, &[(gate, 2)]));
        }
        reports.extend([
            alone(format!("{list}-fire-and-world"), format!("Two {list} units."), list, &[FIRE, WORLD]),
            alone(format!("{list}-world-and-fire"), format!("Two {list} units."), list, &[WORLD, FIRE]),
            alone(
                format!("{list}-form-of-another"),
                format!("A {list} unit of gate 3 in the form of gate 0."),
                list,
                &[(3, 0)],
            ),
            alone(
                format!("{list}-second-form"),
                format!("The second {list} unit is in no form of its gate."),
                list,
                &[WORLD, (3, 0)],
            ),
            alone(
                format!("{list}-second-gate"),
                format!("The second {list} unit is of no gate."),
                list,
                &[WORLD, (4, 2)],
            ),
            behind(format!("{list}-in-tick-2"), list, with(work(2), list, &[WORLD, (3, 1)])),
            behind(format!("{list}-stopped"), list, with(stopped(2, 12), list, &[(3, 1)])),
            report(
                format!("{list}-in-a-stop"),
                format!("A stopped record with {list} units."),
                log(&[work(1), with(stopped(2, 12), list, &[WORLD, FIRE])]),
            ),
        ]);
    }
    reports.extend(orders());
    reports
}

const LISTS: [&str; 3] = ["late", "main", "carried"];

/// A record with these units in one of its lists.
fn with(mut record: Record, list: &str, units: &[(i64, i64)]) -> Record {
    let (at, units_of) = match list {
        "late" => (2, &mut record.begun),
        "main" => (3, &mut record.begun),
        _ => (4, &mut record.carried),
    };
    units_of.extend(units);
    record.head[at] = units.len() as i64;
    record
}

fn alone(name: impl AsRef<str>, shows: impl Into<String>, list: &str, units: &[(i64, i64)]) -> Report {
    report(name, shows, log(&[with(work(1), list, units)]))
}

/// A record with a fault behind one without.
fn behind(name: String, list: &str, record: Record) -> Report {
    let whole = with(work(1), list, &[WORLD, FIRE]);
    report(name, format!("A {list} unit of the second record in no form of its gate."), log(&[whole, record]))
}

/// Gates before forms, and the units begun before the carried.
fn orders() -> Vec<Report> {
    let begun = |units: &[(i64, i64)]| with(work(1), "late", units);
    let all = with(with(begun(&[FIRE, WORLD]), "main", &[WORLD]), "carried", &[FIRE, FIRE, WORLD, FIRE]);
    vec![
        report("units-of-all-lists", "Units late, main and carried.", log(&[all])),
        report(
            "units-unlike-lists",
            "Two late units, and one that is carried.",
            log(&[with(begun(&[FIRE, WORLD]), "carried", &[WORLD])]),
        ),
        report("units-forms-first", "Forms before gates.", log(&[begun(&[(2, 3), (0, 0)])])),
        report("units-by-turns", "Gate and form of each unit by turns.", log(&[begun(&[(0, 3), (0, 2)])])),
    ]
}
