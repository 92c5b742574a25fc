//! The bytes of a log, and the heads of its records: ticks, steps, counts, stop
//! and changed numbers.

use super::{FIRE, NONE, OUTPUTS, log, report, spelled, stopped, two, work};
use crate::build::{Record, bytes_of};
use crate::case::Report;

pub fn reports() -> Vec<Report> {
    let mut reports = bytes();
    reports.extend(ticks());
    reports.extend(STEPS.map(|(steps, stop)| steps_and_stop(steps, stop)));
    reports.extend(stops());
    reports.extend(STOPS.map(no_stop));
    reports.extend(CHANGED.map(|changed| changed_numbers(changed, 0)));
    reports.extend(CHANGED.map(|changed| changed_numbers(changed, 12)));
    reports.extend(COUNTS.map(counts));
    reports.extend(WRAPS.map(wraps));
    reports.extend(CUT.map(|(name, words)| cut(name, words)));
    reports
}

/// A log of one record.
fn of_one(name: impl AsRef<str>, shows: impl Into<String>, record: Record) -> Report {
    report(name, shows, log(&[record]))
}

fn bytes() -> Vec<Report> {
    let whole = log(&[work(1)]);
    let bytes = whole.len();
    let first = |length: usize| {
        report(
            format!("log-of-{length}-bytes"),
            format!("The first {length} bytes of a record."),
            whole[..length].to_vec(),
        )
    };
    let mut reports: Vec<Report> = (1..9).map(first).collect();
    let more = |name, shows, more: Vec<u8>| report(name, shows, [whole.clone(), more].concat());
    reports.extend([
        report("log-empty", "A log of no records is whole: a last line alone.", Vec::new()),
        report("log-of-a-record", "A log of one record.", whole.clone()),
        report("log-a-byte-short", "A record cut short by a byte.", whole[..bytes - 1].to_vec()),
        report("log-a-word-short", "A record cut short by a word.", whole[..bytes - 8].to_vec()),
        more("log-a-byte-more", "A byte behind the last record.", vec![0]),
        more("log-seven-bytes-more", "Seven bytes behind the last record.", vec![0; 7]),
        more("log-a-word-more", "A word behind the last record.", vec![0; 8]),
        more(
            "log-a-head-more",
            "A head without outputs behind the last record.",
            bytes_of(&[2, 0, 0, 0, 0, 0, 0]),
        ),
        more(
            "log-as-lent",
            "A log that is longer than its records: it is to be cut to them.",
            vec![165; 400],
        ),
        more("log-as-lent-in-zeros", "The same with zeros behind the records.", vec![0; 400]),
    ]);
    reports
}

fn ticks() -> Vec<Report> {
    let of = |ticks: &[i64]| {
        let record = |&tick: &i64| {
            let mut record = work(1);
            record.head[0] = tick;
            record
        };
        log(&ticks.iter().map(record).collect::<Vec<_>>())
    };
    let mut reports: Vec<Report> = [0, 2, -1, 100_000, two(32) + 1, i64::MIN, i64::MIN + 1]
        .map(|tick| {
            let name = spelled(tick);
            report(format!("tick-{name}-first"), format!("The first tick is {name}."), of(&[tick]))
        })
        .into();
    reports.extend([
        report("ticks-1-2-3", "Ticks from 1 up by 1.", of(&[1, 2, 3])),
        report("ticks-1-3", "A tick is missing.", of(&[1, 3])),
        report("ticks-1-1", "A tick twice.", of(&[1, 1])),
        report("ticks-1-2-1", "A tick again.", of(&[1, 2, 1])),
        report("ticks-1-2-4", "The last tick is one too high.", of(&[1, 2, 4])),
        report("ticks-1-0", "The second tick is 0.", of(&[1, 0])),
    ]);
    reports
}

/// Steps and stops.
const STEPS: [(i64, i64); 20] = [
    (0, 0),
    (1, 0),
    (50_000_000, 0),
    (50_000_001, 0),
    (50_000_002, 0),
    (0, 11),
    (1, 11),
    (50_000_000, 11),
    (50_000_001, 11),
    (50_000_002, 11),
    (0, 12),
    (50_000_000, 12),
    (50_000_001, 12),
    (-1, 0),
    (-1, 11),
    (-1, 12),
    (two(32), 0),
    (two(32) + 1, 11),
    (i64::MIN, 0),
    (i64::MAX, 11),
];

/// Behind a tick of work, so that a stop is in the last record.
fn steps_and_stop(steps: i64, stop: i64) -> Report {
    let mut record = if stop == 0 { work(2) } else { stopped(2, stop) };
    record.head[1] = steps;
    let name = spelled(steps);
    let shows = format!("{name} steps with stop {stop}.");
    report(format!("steps-{name}-stop-{stop}"), shows, log(&[work(1), record]))
}

fn stops() -> Vec<Report> {
    let mut reports = Vec::new();
    for stop in [11, 12] {
        let mut shown = stopped(2, stop);
        shown.outputs = vec![NONE; OUTPUTS];
        reports.extend([
            report(
                format!("stop-{stop}-alone"),
                format!("Nothing but a record stopped by {stop}."),
                log(&[stopped(1, stop)]),
            ),
            report(
                format!("stop-{stop}-between"),
                format!("A stop {stop} that is not in the last record."),
                log(&[work(1), stopped(2, stop), work(3)]),
            ),
            report(
                format!("stop-{stop}-twice"),
                format!("A stop {stop} behind a stop {stop}."),
                log(&[stopped(1, stop), stopped(2, stop)]),
            ),
            report(
                format!("stop-{stop}-with-outputs"),
                format!("A record stopped by {stop} that has outputs."),
                log(&[work(1), shown]),
            ),
        ]);
    }
    reports.push(report(
        "stop-0-without-outputs",
        "A tick that was not stopped, without outputs.",
        log(&[work(1), stopped(2, 0)]),
    ));
    reports
}

/// What is no stop of a record.
const STOPS: [i64; 10] = [1, 2, 10, 13, 14, -1, 256, 267, two(32), two(32) + 11];

/// The last record has this stop, and no outputs.
fn no_stop(stop: i64) -> Report {
    let name = spelled(stop);
    report(format!("stop-{name}"), format!("A stop of {name}."), log(&[work(1), stopped(2, stop)]))
}

const CHANGED: [i64; 6] = [1, 430_000_000, two(32), i64::MAX, -1, i64::MIN];

/// Changed numbers in a record with this stop.
fn changed_numbers(changed: i64, stop: i64) -> Report {
    let mut record = if stop == 0 { work(1) } else { stopped(1, stop) };
    record.head[6] = changed;
    let name = spelled(changed);
    let shows = format!("{name} numbers were changed, with stop {stop}.");
    of_one(format!("changed-{name}-stop-{stop}"), shows, record)
}

/// Late units, main units and carried, as many as the head says.
const COUNTS: [[i64; 3]; 20] = [
    [1, 0, 0],
    [0, 1, 0],
    [0, 0, 1],
    [3, 2, 1],
    [256, 0, 0],
    [257, 0, 0],
    [0, 257, 0],
    [1_023, 0, 0],
    [1_024, 0, 0],
    [0, 1_024, 0],
    [512, 512, 0],
    [1_023, 1, 0],
    [1_024, 0, 256],
    [1_025, 0, 0],
    [0, 1_025, 0],
    [1_024, 1, 0],
    [1, 1_024, 0],
    [513, 512, 0],
    [0, 0, 256],
    [0, 0, 257],
];

fn counts([late, main, carried]: [i64; 3]) -> Report {
    let mut record = work(1);
    record.head[2..5].copy_from_slice(&[late, main, carried]);
    record.begun = vec![FIRE; (late + main) as usize];
    record.carried = vec![FIRE; carried as usize];
    let shows = format!("{late} late units, {main} main units and {carried} carried.");
    of_one(format!("units-{late}-{main}-{carried}"), shows, record)
}

/// Counts for which a head and its outputs would do, if their sums or their
/// bytes were worked out in 64 bits, or a count were no word.
const WRAPS: [[i64; 3]; 20] = [
    [two(63), two(63), 0],
    [-1, 1, 0],
    [1, -1, 0],
    [1_025, -1_025, 0],
    [-1, 0, 1],
    [0, 1, -1],
    [0, 0, -1],
    [-1, 0, 0],
    [0, -1, 0],
    [two(63), 0, 0],
    [0, two(63), 0],
    [0, 0, two(63)],
    [two(62), two(62), 0],
    [two(60), 0, 0],
    [0, two(60), 0],
    [0, 0, two(60)],
    [two(61), 0, 0],
    [0, 0, two(61)],
    [two(32), 0, 0],
    [0, 0, two(32)],
];

fn wraps(counts: [i64; 3]) -> Report {
    let mut record = work(1);
    record.head[2..5].copy_from_slice(&counts);
    let [late, main, carried] = counts.map(spelled);
    let shows = format!("{late} late units, {main} main units and {carried} carried, and none there.");
    of_one(format!("no-units-{late}-{main}-{carried}"), shows, record)
}

/// Records that end too soon, of these words.
const CUT: [(&str, &[i64]); 8] = [
    ("before-the-units", &[1, 0, 1, 0, 0, 12, 0]),
    ("before-the-forms", &[1, 0, 1, 0, 0, 12, 0, 0]),
    ("in-the-gates", &[1, 0, 1, 1, 0, 12, 0, 0]),
    ("in-the-forms", &[1, 0, 1, 1, 0, 12, 0, 0, 0, 0]),
    ("before-the-carried", &[1, 0, 0, 0, 1, 12, 0]),
    ("in-the-carried", &[1, 0, 0, 0, 1, 12, 0, 0]),
    ("in-the-kinds", &[1, 0, 0, 0, 0, 0, 0, 0, 0]),
    ("before-the-contents", &[1, 0, 0, 0, 0, 0, 0, 0, 0, 0, 0, 0]),
];

fn cut(name: &str, words: &[i64]) -> Report {
    let what = name.replace('-', " ");
    report(format!("cut-{name}"), format!("A record that ends {what}."), bytes_of(words))
}
