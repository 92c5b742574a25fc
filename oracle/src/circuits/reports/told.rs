//! What is told: the bytes written, in the first word, if there is one.

use super::{NAMED, log, report, work};
use crate::case::Report;
use crate::hours::Named;

pub fn reports() -> Vec<Report> {
    let mut reports = Vec::new();
    for told in [0, 1, 2, 5] {
        let words = format!("{told} words are lent for what is told.");
        reports.extend([
            Report { told, ..report(format!("told-{told}"), format!("A report; {words}"), log(&[work(1)])) },
            Report {
                told,
                ..report(format!("told-{told}-empty"), format!("An empty log; {words}"), Vec::new())
            },
            Report { told, ..report(format!("told-{told}-16"), format!("Refused 16; {words}"), vec![0]) },
        ]);
    }
    let of = |name, shows| report(name, shows, log(&[work(1)]));
    reports.extend([
        Report { named: Named { length: 0, ..NAMED }, ..of("told-17", "Refused 17: nothing is told.") },
        Report { room: 199, ..of("told-18", "Refused 18: nothing is told.") },
        Report { circuit: Vec::new(), ..of("told-1-refused", "Refused 1: nothing is told.") },
    ]);
    reports
}
