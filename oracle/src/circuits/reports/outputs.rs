//! What outputs show: kinds and contents as constants, or 0 0; an exec output
//! always 0 0.

use super::{NAMED, NONE, Shown, days, int, log, report, spelled, stopped, two, work};
use crate::build::{Circuit, NOTHING, Record, bits, bytes_of};
use crate::case::Report;
use crate::hours::Named;

pub fn reports() -> Vec<Report> {
    let mut reports = Vec::new();
    for (name, value) in values() {
        let shows = format!("A value output that shows {name}.");
        reports.push(place(format!("shows-{name}"), shows, 4, value));
    }
    for output in [0, 3] {
        for (kind, content) in [(0, 1), (0, -1), (1, 0), (1, 7), (2, 0), (3, 0), (3, 1), (4, 0)] {
            let name = format!("exec-{output}-shows-{kind}-{content}");
            let shows = format!("Exec output {output} shows {kind} {content}.");
            reports.push(place(name, shows, output, (kind, content)));
        }
    }
    for output in [1, 2] {
        let shows = format!("Output {output}, of which the report is made, shows 0 1.");
        reports.push(place(format!("named-{output}-shows-0-1"), shows, output, (0, 1)));
    }
    reports.extend(orders());
    reports.extend(others());
    reports
}

/// Kinds and contents that an output can show and that it cannot.
fn values() -> Vec<(String, Shown)> {
    let mut values: Vec<(String, Shown)> =
        [0, 1, -1, i64::MIN, i64::MAX].map(|number| (format!("int-{}", spelled(number)), int(number))).into();
    let floats = [
        ("0.0", bits(0.0)),
        ("-0.0", bits(-0.0)),
        ("1.5", bits(1.5)),
        ("the-least", 1),
        ("the-most", bits(f64::MAX)),
        ("minus-the-most", bits(f64::MIN)),
        ("infinity", bits(f64::INFINITY)),
        ("minus-infinity", bits(f64::NEG_INFINITY)),
        ("nan", 0x7FF8_0000_0000_0000),
        ("nan-of-1", 0x7FF0_0000_0000_0001),
        ("nan-of-all", -1),
    ];
    values.extend(floats.map(|(name, content)| (format!("float-{name}"), (2, content))));
    values.extend([0, 1, 2, -1, two(32), two(32) + 1].map(|n| (format!("bool-{}", spelled(n)), (3, n))));
    values.extend([0, 1, -1, two(63)].map(|n| (format!("nothing-of-{}", spelled(n)), (0, n))));
    values.extend(
        [4, 5, -1, 257, two(32), two(32) + 1, two(63)].map(|n| (format!("kind-{}", spelled(n)), (n, 0))),
    );
    values
}

/// A tick of work in which this output shows this.
fn place(name: String, shows: String, output: usize, value: Shown) -> Report {
    let mut record = work(1);
    record.outputs[output] = value;
    report(name, shows, log(&[record]))
}

fn orders() -> Vec<Report> {
    let mut second = work(2);
    second.outputs[4] = (0, 1);
    let first = Record { head: work(1).head, outputs: second.outputs.clone(), ..Record::default() };
    // Kind and content of each output by turns; contents before kinds.
    let turns = [[1, 0, 0, 0, 0, 0, 0], [0, 0, 1, 7, 1, 2, 0]].concat();
    let swapped = [1, 0, 0, 0, 0, 0, 0, 0, 7, 2, 0, 0, 0, 1, 1, 0, 0];
    vec![
        report("shows-in-tick-2", "The second record has the fault.", log(&[work(1), second])),
        report("shows-in-tick-1", "The first record has the fault.", log(&[first, work(2)])),
        report("shows-by-turns", "Kind and content by turns.", bytes_of(&[&turns[..], &[0, 0, 0]].concat())),
        report("shows-contents-first", "Contents before kinds.", bytes_of(&swapped)),
    ]
}

/// Logs of another circuit, with an output less or more; a Reroute's output,
/// which makes calls and shows a value.
fn others() -> Vec<Report> {
    let mut fewer = work(1);
    fewer.outputs.pop();
    let mut more = work(1);
    more.outputs.push(NONE);
    let mut c = Circuit::new();
    let reroute = c.reroute(NOTHING);
    c.call(reroute, reroute);
    let shown = bytes_of(&[1, 0, 0, 0, 0, 0, 0, 1, 3]);
    let named = Named { driver: 0, activity: 0, ..NAMED };
    vec![
        report("an-output-less", "A log of a circuit with an output less.", log(&[fewer.clone()])),
        report("an-output-less-and-a-stop", "The same, and a stop behind it.", log(&[fewer, stopped(2, 12)])),
        report("an-output-more", "A log of a circuit with an output more.", log(&[more])),
        report(
            "outputs-of-two-ticks",
            "Outputs of each tick of two.",
            days(&[(int(7), int(2)), (int(7), int(3))]),
        ),
        Report::new("report-reroute-shows-3", "A Reroute shows an Int.", c.bytes(), shown, named),
    ]
}
