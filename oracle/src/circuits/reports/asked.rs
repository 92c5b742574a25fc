//! The order of the questions: the circuit, the log, what is named, the room.

use super::{NAMED, desk, fits, log, report, work};
use crate::build::{Circuit, QUEUE_TICKS, RANKS, bytes_of};
use crate::case::Report;
use crate::hours::Named;

pub fn reports() -> Vec<Report> {
    let mut reports = Vec::new();
    for number in [1, 2, 3, 4, 5, 19, 6, 7] {
        let shows = format!("A circuit with a fault of question {number}");
        reports.push(circuit(number, good(format!("q{number}"), format!("{shows}."))));
        for other in OTHERS {
            let beside =
                with(other, good(format!("q{number}-and-{other}"), format!("{shows}, and one of {other}.")));
            reports.push(circuit(number, beside));
        }
    }
    for (first, next) in
        [("16", "17"), ("16", "18"), ("17", "18"), ("16", "33-drivers"), ("17", "33-drivers")]
    {
        let name = format!("{first}-and-{next}");
        let shows = format!("A fault of {first}, and one of {next}.");
        reports.push(with(first, with(next, good(name, shows))));
    }
    reports.push(with("all", good("16-and-17-and-18".into(), "Faults of 16, 17 and 18.".into())));
    reports.push(eight_queues());
    reports.push(Report {
        circuit: Vec::new(),
        ..good("q1-no-circuit".into(), "A circuit of no bytes.".into())
    });
    reports
}

const OTHERS: [&str; 4] = ["16", "17", "18", "all"];

fn good(name: String, shows: String) -> Report {
    report(name, shows, log(&[work(1)]))
}

/// The report with a fault of a later question.
fn with(number: &str, mut report: Report) -> Report {
    match number {
        "16" => report.log.extend([0; 8]),
        "17" => report.named.length = 0,
        "18" => report.room = 39,
        "33-drivers" => report.log = fits::drivers(33),
        _ => {
            report.log.push(0);
            report.named = Named { driver: 0, activity: 5, ..NAMED };
            report.room = 0;
        }
    }
    report
}

/// The report over a circuit with a fault of this question.
fn circuit(number: u8, mut report: Report) -> Report {
    let mut c = desk();
    match number {
        2 => c.constants.push((4, 0)),
        3 => c.gates[1].0 = 32,
        4 => c.inputs[0].0 = -2,
        5 => c.calls.push((1, 0)),
        19 => c.gates[1].1 = RANKS,
        6 => {
            let ring = c.reroute(7);
            c.feed(ring.entry(), ring);
        }
        7 => queues(&mut c, 9),
        _ => (),
    }
    report.circuit = c.bytes();
    if number == 1 {
        report.circuit.pop();
    }
    report
}

fn queues(c: &mut Circuit, many: i64) {
    for k in 0..many {
        c.gate(QUEUE_TICKS + k % 2, 0);
    }
}

/// No areas are asked for, whatever the Queues: each has 9 outputs.
fn eight_queues() -> Report {
    let mut c = desk();
    queues(&mut c, 8);
    let mut words = work(1).words();
    words.splice(12..12, [0; 72]);
    words.extend([0; 72]);
    let shows = "Eight Queues: a report is lent no areas.";
    Report { circuit: c.bytes(), log: bytes_of(&words), ..good("eight-queues".into(), shows.into()) }
}
