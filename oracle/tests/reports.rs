//! Hours per driver (document 02, K3): the stated logs, each with its report
//! worked out by hand from document 02, the logs of all stated circuits, and
//! random ones.

use std::sync::LazyLock;

use oracle::build::{self, bits, bytes_of};
use oracle::case::{Class, Report};
use oracle::circuit::Circuit;
use oracle::class::ClassAnswer;
use oracle::generate::{FAMILIES, Random, report, valid};
use oracle::hours::{Held, Named, call, hours};
use oracle::questions::ask_circuit;
use oracle::{Answer, Lent, circuits, run, whole};

static REPORTS: LazyLock<Vec<Report>> = LazyLock::new(circuits::reports);

/// The stated report of this name.
fn stated(name: &str) -> &'static Report {
    REPORTS.iter().find(|report| report.name == name).unwrap_or_else(|| panic!("no report {name}"))
}

// ---- the stated reports, by hand ----

/// What a call is due: a refusal, or the lines of a report.
#[derive(Clone)]
enum Due {
    Refused(u8),
    Lines(Vec<[i64; 5]>),
}

use Due::{Lines, Refused};

type Rows = Vec<(String, Due)>;

/// Milliseconds and minutes.
type Time = (i64, i64);

const NO: Time = (0, 0);
const MINUTE: Time = (60_000, 1);

/// The last line alone.
fn last((milliseconds, minutes): Time) -> Due {
    Lines(vec![[0, 0, 0, milliseconds, minutes]])
}

/// Four lines for each driver, and the last one.
fn drivers(drivers: &[(i64, [Time; 4])], unassigned: Time) -> Due {
    let mut lines = Vec::new();
    for &(driver, [rest, available, work, driving]) in drivers {
        lines.push([1, driver, 0, rest.0, rest.1]);
        lines.push([1, driver, 1, available.0, available.1]);
        lines.push([1, driver, 2, work.0, work.1]);
        lines.push([1, driver, 3, driving.0, driving.1]);
    }
    lines.push([0, 0, 0, unassigned.0, unassigned.1]);
    Lines(lines)
}

/// One second of driver 7 at work.
fn one() -> Due {
    drivers(&[(7, [NO, NO, (1_000, 0), NO])], NO)
}

/// Two of them.
fn two() -> Due {
    drivers(&[(7, [NO, NO, (2_000, 0), NO])], NO)
}

/// Rows of these names that are due the same.
fn alike(rows: &mut Rows, due: Due, names: &[&str]) {
    rows.extend(names.iter().map(|name| (name.to_string(), due.clone())));
}

/// The stated reports that are not random, each with what it is due.
fn by_hand() -> Rows {
    let mut rows = asked();
    rows.extend(bytes_and_ticks());
    rows.extend(heads());
    rows.extend(counts());
    rows.extend(units());
    rows.extend(forms());
    rows.extend(outputs());
    rows.extend(named());
    rows.extend(of_drivers());
    rows.extend(orders());
    rows.extend(minutes());
    rows.extend(fits());
    rows.extend(told());
    rows.extend(long());
    rows.into_iter().map(|(name, due)| (format!("report-{name}"), due)).collect()
}

fn asked() -> Rows {
    let mut rows = Vec::new();
    for number in [1, 2, 3, 4, 5, 19, 6, 7] {
        rows.push((format!("q{number}"), Refused(number)));
        for other in ["16", "17", "18", "all"] {
            rows.push((format!("q{number}-and-{other}"), Refused(number)));
        }
    }
    alike(&mut rows, Refused(1), &["q1-no-circuit"]);
    alike(&mut rows, Refused(16), &["16-and-17", "16-and-18", "16-and-33-drivers", "16-and-17-and-18"]);
    alike(&mut rows, Refused(17), &["17-and-18", "17-and-33-drivers"]);
    alike(&mut rows, one(), &["eight-queues"]);
    rows
}

fn bytes_and_ticks() -> Rows {
    let mut rows: Rows = (1..9).map(|bytes| (format!("log-of-{bytes}-bytes"), Refused(16))).collect();
    alike(&mut rows, last(NO), &["log-empty"]);
    alike(&mut rows, one(), &["log-of-a-record"]);
    let short = ["log-a-byte-short", "log-a-word-short"];
    let more = ["log-a-byte-more", "log-seven-bytes-more", "log-a-word-more", "log-a-head-more"];
    alike(&mut rows, Refused(16), &[&short[..], &more, &["log-as-lent", "log-as-lent-in-zeros"]].concat());
    for first in ["0", "2", "-1", "100000", "2^32+1", "2^63", "2^63+1"] {
        rows.push((format!("tick-{first}-first"), Refused(16)));
    }
    alike(&mut rows, drivers(&[(7, [NO, NO, (3_000, 0), NO])], NO), &["ticks-1-2-3"]);
    alike(&mut rows, Refused(16), &["ticks-1-3", "ticks-1-1", "ticks-1-2-1", "ticks-1-2-4", "ticks-1-0"]);
    let cut = ["before-the-units", "before-the-forms", "in-the-gates", "in-the-forms", "before-the-carried"];
    let cut = cut.into_iter().chain(["in-the-carried", "in-the-kinds", "before-the-contents"]);
    rows.extend(cut.map(|name| (format!("cut-{name}"), Refused(16))));
    rows
}

fn heads() -> Rows {
    let mut rows = Vec::new();
    // Behind a tick of work; where the stop is 0, the record is one too.
    alike(&mut rows, two(), &["steps-0-stop-0", "steps-1-stop-0", "steps-50000000-stop-0"]);
    let eleven = ["steps-0-stop-11", "steps-1-stop-11", "steps-50000000-stop-11", "steps-50000001-stop-11"];
    alike(&mut rows, one(), &eleven);
    alike(&mut rows, one(), &["steps-0-stop-12", "steps-50000000-stop-12"]);
    let steps = ["50000001-stop-0", "50000002-stop-0", "50000002-stop-11", "50000001-stop-12", "-1-stop-0"];
    let more = ["-1-stop-11", "-1-stop-12", "2^32-stop-0", "2^32+1-stop-11", "2^63-stop-0", "2^63-1-stop-11"];
    for name in steps.into_iter().chain(more) {
        rows.push((format!("steps-{name}"), Refused(16)));
    }
    for stop in [11, 12] {
        rows.push((format!("stop-{stop}-alone"), last(NO)));
        for name in ["between", "twice", "with-outputs"] {
            rows.push((format!("stop-{stop}-{name}"), Refused(16)));
        }
    }
    let stops = ["0-without-outputs", "1", "2", "10", "13", "14", "-1", "256", "267", "2^32", "2^32+11"];
    rows.extend(stops.map(|stop| (format!("stop-{stop}"), Refused(16))));
    for changed in ["1", "430000000", "2^32", "2^63-1"] {
        rows.push((format!("changed-{changed}-stop-0"), one()));
        rows.push((format!("changed-{changed}-stop-12"), last(NO)));
    }
    for changed in ["-1-stop-0", "-1-stop-12", "2^63-stop-0", "2^63-stop-12"] {
        rows.push((format!("changed-{changed}"), Refused(16)));
    }
    rows
}

/// Late, main, carried.
fn counts() -> Rows {
    let mut rows = Vec::new();
    let some = ["1-0-0", "0-1-0", "0-0-1", "3-2-1", "256-0-0", "257-0-0", "0-257-0", "1023-0-0"];
    let most = ["1024-0-0", "0-1024-0", "512-512-0", "1023-1-0", "1024-0-256", "0-0-256"];
    rows.extend(some.into_iter().chain(most).map(|name| (format!("units-{name}"), one())));
    let more = ["1025-0-0", "0-1025-0", "1024-1-0", "1-1024-0", "513-512-0", "0-0-257"];
    rows.extend(more.map(|name| (format!("units-{name}"), Refused(16))));
    let sums = ["2^63-2^63-0", "-1-1-0", "1--1-0", "1025--1025-0", "-1-0-1", "0-1--1", "2^62-2^62-0"];
    let below = ["0-0--1", "-1-0-0", "0--1-0", "2^63-0-0", "0-2^63-0", "0-0-2^63"];
    let sizes = ["2^60-0-0", "0-2^60-0", "0-0-2^60", "2^61-0-0", "0-0-2^61", "2^32-0-0", "0-0-2^32"];
    for name in sums.into_iter().chain(below).chain(sizes) {
        rows.push((format!("no-units-{name}"), Refused(16)));
    }
    rows
}

fn units() -> Rows {
    let mut rows = Vec::new();
    for list in ["late", "main", "carried"] {
        for gate in ["4", "64", "67", "-1", "-3", "2^32+3", "2^63", "2^63+3"] {
            rows.push((format!("{list}-gate-{gate}"), Refused(16)));
        }
        for name in ["form-of-another", "second-form", "second-gate", "in-tick-2", "stopped"] {
            rows.push((format!("{list}-{name}"), Refused(16)));
        }
        rows.push((format!("{list}-fire-and-world"), one()));
        rows.push((format!("{list}-world-and-fire"), one()));
        rows.push((format!("{list}-in-a-stop"), one()));
    }
    alike(&mut rows, one(), &["units-of-all-lists", "units-unlike-lists"]);
    alike(&mut rows, Refused(16), &["units-forms-first", "units-by-turns"]);
    rows
}

/// The forms of each kind, with all its Es driven; other kinds have none.
const FORMS: [(i64, &[i64]); 22] = [
    (6, &[0]),
    (9, &[32, 33]),
    (11, &[0]),
    (13, &[0]),
    (14, &[0]),
    (15, &[0, 16, 17, 18]),
    (16, &[0, 16]),
    (17, &[0, 16]),
    (18, &[16]),
    (19, &[16]),
    (20, &[16]),
    (21, &[16]),
    (22, &[16]),
    (23, &[16, 17]),
    (24, &[16]),
    (25, &[16]),
    (26, &[1]),
    (27, &[1]),
    (28, &[2]),
    (29, &[16]),
    (31, &[16]),
    (30, &[]),
];

/// The record is stopped: where it is whole, no tick is read.
fn forms() -> Rows {
    let due = |whole: bool| if whole { last(NO) } else { Refused(16) };
    let mut rows = Vec::new();
    for kind in 1..=31 {
        let has = FORMS.iter().find(|row| row.0 == kind).map_or(&[][..], |row| row.1);
        for form in [0, 1, 2, 16, 17, 18, 32, 33] {
            rows.push((format!("form-{form}-of-kind-{kind}"), due(has.contains(&form))));
        }
    }
    let of_15 = ["-1", "3", "15", "19", "20", "31", "34", "48", "256", "-16"];
    let of_15 = of_15.into_iter().chain(["2^32", "2^32+16", "2^63", "2^63+16"]);
    rows.extend(of_15.map(|form| (format!("form-{form}-of-kind-15"), Refused(16))));
    let of_9 = ["31", "34", "35", "48", "-32", "2^32+32", "2^63+32"];
    rows.extend(of_9.map(|form| (format!("form-{form}-of-kind-9"), Refused(16))));
    rows.extend(["-1", "3", "2^32+1"].map(|form| (format!("form-{form}-of-kind-26"), Refused(16))));
    rows.extend(["-1", "3", "2^32+2", "2^63+2"].map(|form| (format!("form-{form}-of-kind-28"), Refused(16))));
    for kind in [2, 15, 16, 17, 18, 19, 20, 21, 22, 23, 24, 25, 29, 31] {
        rows.push((format!("form-16-of-kind-{kind}-called"), Refused(16)));
    }
    for (kind, pins) in [(15, 3), (23, 2)] {
        for driven in 0..pins {
            for pin in 0..pins {
                rows.push((format!("form-{}-of-kind-{kind}-driven-{driven}", 16 + pin), due(pin == driven)));
            }
        }
    }
    alike(&mut rows, Refused(16), &["form-16-of-gate-2"]);
    rows
}

fn outputs() -> Rows {
    let mut rows = Vec::new();
    let ints = ["int-0", "int-1", "int--1", "int-2^63", "int-2^63-1"];
    let floats = ["0.0", "-0.0", "1.5", "the-least", "the-most", "minus-the-most"];
    rows.extend(ints.map(|name| (format!("shows-{name}"), one())));
    rows.extend(floats.map(|name| (format!("shows-float-{name}"), one())));
    rows.extend(["bool-0", "bool-1", "nothing-of-0"].map(|name| (format!("shows-{name}"), one())));
    let floats = ["infinity", "minus-infinity", "nan", "nan-of-1", "nan-of-all"];
    rows.extend(floats.map(|name| (format!("shows-float-{name}"), Refused(16))));
    let others = ["bool-2", "bool--1", "bool-2^32", "bool-2^32+1", "nothing-of-1", "nothing-of--1"];
    let kinds = ["nothing-of-2^63", "kind-4", "kind-5", "kind--1", "kind-257", "kind-2^32", "kind-2^32+1"];
    let orders = ["in-tick-1", "in-tick-2", "by-turns", "contents-first"];
    for name in others.into_iter().chain(kinds).chain(["kind-2^63"]).chain(orders) {
        rows.push((format!("shows-{name}"), Refused(16)));
    }
    for output in [0, 3] {
        for shown in ["0-1", "0--1", "1-0", "1-7", "2-0", "3-0", "3-1", "4-0"] {
            rows.push((format!("exec-{output}-shows-{shown}"), Refused(16)));
        }
    }
    alike(&mut rows, Refused(16), &["named-1-shows-0-1", "named-2-shows-0-1"]);
    alike(&mut rows, Refused(16), &["an-output-less", "an-output-less-and-a-stop", "an-output-more"]);
    let both = drivers(&[(7, [NO, NO, (1_000, 0), (1_000, 0)])], NO);
    alike(&mut rows, both, &["outputs-of-two-ticks"]);
    alike(&mut rows, drivers(&[(3, [NO, NO, NO, (1_000, 0)])], NO), &["reroute-shows-3"]);
    rows
}

/// Two ticks in which output 1 shows 7 and output 2 shows 2; 0 and 3 are exec.
fn named() -> Rows {
    let mut rows = Vec::new();
    let unassigned = last((2_000, 0));
    for whose in ["driver", "activity"] {
        for output in ["0", "3", "5", "-1", "257", "2^32+1", "2^61+1", "2^63-1", "2^63+1"] {
            rows.push((format!("named-{whose}-output-{output}"), Refused(17)));
        }
    }
    alike(&mut rows, two(), &["named-driver-output-1", "named-activity-output-2"]);
    alike(&mut rows, drivers(&[(2, [NO, NO, (2_000, 0), NO])], NO), &["named-driver-output-2"]);
    let nobody = ["named-driver-output-4", "named-activity-output-1", "named-activity-output-4"];
    alike(&mut rows, unassigned.clone(), &nobody);
    for length in ["0", "60001", "65537", "-1", "2^32", "2^32+1", "2^63-1", "2^63+1"] {
        rows.push((format!("named-length-{length}"), Refused(17)));
    }
    let at_work = |time| drivers(&[(7, [NO, NO, time, NO])], NO);
    alike(&mut rows, at_work((2, 0)), &["named-length-1"]);
    alike(&mut rows, at_work((119_998, 2)), &["named-length-59999"]);
    alike(&mut rows, at_work((120_000, 2)), &["named-length-60000"]);
    alike(&mut rows, unassigned, &["named-both-swapped"]);
    let empty = ["named-empty-driver-output-5", "named-empty-activity-output-0", "named-empty-length-0"];
    alike(&mut rows, Refused(17), &[&["named-both-exec", "named-all-wrong"][..], &empty].concat());
    let exec: [(i64, &[i64], &[i64]); 5] = [
        (2, &[], &[0]),
        (15, &[1], &[0]),
        (16, &[0], &[1, 2, 3, 4, 5, 6, 7, 8]),
        (23, &[0, 1], &[2]),
        (29, &[0], &[1, 2, 3]),
    ];
    for (kind, exec, values) in exec {
        rows.extend(exec.iter().map(|own| (format!("named-kind-{kind}-output-{own}"), Refused(17))));
        rows.extend(values.iter().map(|own| (format!("named-kind-{kind}-output-{own}"), last(NO))));
    }
    rows
}

/// Ticks of a minute.
fn of_drivers() -> Rows {
    let mut rows = Vec::new();
    let at_rest = |driver| drivers(&[(driver, [MINUTE, NO, NO, NO])], NO);
    for (name, driver) in [("0", 0), ("1", 1), ("-1", -1), ("2^32", 4_294_967_296)] {
        rows.push((format!("driver-{name}"), at_rest(driver)));
    }
    rows.push(("driver-2^63-1".into(), at_rest(9_223_372_036_854_775_807)));
    rows.push(("driver-2^63".into(), at_rest(-9_223_372_036_854_775_808)));
    rows.push(("activity-0".into(), drivers(&[(7, [MINUTE, NO, NO, NO])], NO)));
    rows.push(("activity-1".into(), drivers(&[(7, [NO, MINUTE, NO, NO])], NO)));
    rows.push(("activity-2".into(), drivers(&[(7, [NO, NO, MINUTE, NO])], NO)));
    rows.push(("activity-3".into(), drivers(&[(7, [NO, NO, NO, MINUTE])], NO)));
    for activity in ["4", "9", "-1", "2^63-1", "2^63", "2^32", "2^32+1", "2^63+1", "256"] {
        rows.push((format!("activity-{activity}"), last(MINUTE)));
    }
    for value in ["nothing", "float-1.0", "float-0.0", "float-of-bits-1", "false", "true"] {
        rows.push((format!("driver-{value}"), last(MINUTE)));
        rows.push((format!("activity-{value}"), last(MINUTE)));
    }
    rows
}

/// Ticks of a minute, of several drivers.
fn orders() -> Rows {
    let (m, mm) = (MINUTE, (120_000, 2));
    let rest = |driver| (driver, [m, NO, NO, NO]);
    let eight_then_seven = drivers(&[rest(8), rest(7)], m);
    let (far, low) = (4_294_967_297, -9_223_372_036_854_775_807);
    let stopped = drivers(&[(7, [NO, m, NO, NO]), (8, [NO, NO, m, NO])], m);
    let rows = [
        ("order-5-3-9", drivers(&[(5, [m, NO, m, NO]), (3, [NO, mm, NO, NO]), (9, [NO, NO, NO, m])], NO)),
        ("order-9-1-5", drivers(&[rest(9), rest(1), rest(5)], NO)),
        ("order-below-0", drivers(&[rest(1), rest(-9_223_372_036_854_775_808), rest(-1), rest(0)], NO)),
        ("first-seen-with-9", eight_then_seven.clone()),
        ("first-seen-with-4", drivers(&[(8, [NO, NO, NO, m]), (7, [NO, NO, NO, m])], m)),
        ("first-seen-with-a-float", eight_then_seven.clone()),
        ("first-seen-with-nothing", eight_then_seven),
        ("never-assigned", drivers(&[(8, [NO, m, NO, NO])], mm)),
        ("last-unassigned", drivers(&[(8, [NO, m, NO, NO])], m)),
        ("come-back", drivers(&[(5, [NO, (180_000, 3), NO, NO]), (6, [NO, m, m, NO])], NO)),
        ("all-activities", drivers(&[(7, [m, mm, (180_000, 3), (240_000, 4)])], NO)),
        ("between-unassigned", drivers(&[(7, [NO, NO, mm, NO])], (240_000, 4))),
        ("alike-in-32-bits", drivers(&[(1, [m, NO, m, NO]), (far, [NO, m, NO, NO])], NO)),
        ("alike-in-63-bits", drivers(&[(1, [m, NO, m, NO]), (low, [NO, m, NO, NO])], NO)),
        ("alike-but-for-the-sign", drivers(&[(7, [mm, NO, NO, NO]), rest(-7)], NO)),
        ("alike-in-a-byte", drivers(&[(7, [mm, NO, NO, NO]), rest(263)], NO)),
        ("stopped-11", stopped.clone()),
        ("stopped-12", stopped),
        ("other-outputs", drivers(&[(7, [NO, NO, m, NO]), (8, [NO, NO, NO, m])], NO)),
        // Output 1 shows 2, 5, -1, 0, 2, and output 2 shows 0, 1, 2, 3 and nothing.
        ("one-output-for-both", drivers(&[(2, [NO, NO, mm, NO]), rest(0)], mm)),
        (
            "the-other-output-for-both",
            drivers(&[rest(0), (1, [NO, m, NO, NO]), (2, [NO, NO, m, NO]), (3, [NO, NO, NO, m])], m),
        ),
        ("outputs-swapped", drivers(&[(0, [NO, NO, m, NO]), rest(3)], (180_000, 3))),
        ("last-output-for-the-driver", last((300_000, 5))),
        // A tick of a second.
        ("last-output-for-both", drivers(&[(3, [NO, NO, NO, (1_000, 0)])], NO)),
    ];
    rows.map(|(name, due)| (name.to_string(), due)).into()
}

/// Ticks and their length; milliseconds and minutes.
const MINUTES: [(&str, Time); 22] = [
    ("1-of-1", (1, 0)),
    ("1-of-29999", (29_999, 0)),
    ("1-of-30000", (30_000, 1)),
    ("1-of-30001", (30_001, 1)),
    ("1-of-59999", (59_999, 1)),
    ("1-of-60000", (60_000, 1)),
    ("2-of-15000", (30_000, 1)),
    ("2-of-29999", (59_998, 1)),
    ("2-of-30000", (60_000, 1)),
    ("2-of-44999", (89_998, 1)),
    ("2-of-45000", (90_000, 2)),
    ("2-of-45001", (90_002, 2)),
    ("3-of-10000", (30_000, 1)),
    ("3-of-29999", (89_997, 1)),
    ("3-of-30000", (90_000, 2)),
    ("3-of-30001", (90_003, 2)),
    ("5-of-29999", (149_995, 2)),
    ("5-of-30000", (150_000, 3)),
    ("7-of-30000", (210_000, 4)),
    ("10-of-3000", (30_000, 1)),
    ("10-of-8999", (89_990, 1)),
    ("10-of-60000", (600_000, 10)),
];

fn minutes() -> Rows {
    let mut rows = Vec::new();
    for (name, time) in MINUTES {
        rows.push((format!("minutes-{name}-driver"), drivers(&[(7, [NO, NO, time, NO])], NO)));
        rows.push((format!("minutes-{name}-unassigned"), last(time)));
    }
    let half = (30_000, 1);
    let due = drivers(&[(7, [half, half, NO, half]), (8, [NO, NO, NO, half])], half);
    rows.push(("minutes-of-each-line".into(), due));
    rows
}

/// Drivers from 1 up, each a second at rest, and a second unassigned.
fn seen(many: i64) -> Vec<(i64, [Time; 4])> {
    (1..=many).map(|driver| (driver, [(1_000, 0), NO, NO, NO])).collect()
}

fn fits() -> Rows {
    let second = (1_000, 0);
    let mut rows = Vec::new();
    for (many, room) in
        [(0, 40), (0, 41), (0, 47), (1, 200), (1, 201), (2, 360), (31, 5_000), (32, 5_160), (32, 5_161)]
    {
        rows.push((format!("room-{room}-for-{many}"), drivers(&seen(many), second)));
    }
    let none = ["0-for-0", "1-for-0", "8-for-0", "39-for-0"];
    let one = ["0-for-1", "40-for-1", "160-for-1", "192-for-1", "199-for-1", "200-for-2", "359-for-2"];
    let many = ["5000-for-32", "5159-for-32", "5160-for-33", "5320-for-33", "6000-for-34"];
    for name in none.into_iter().chain(one).chain(many) {
        rows.push((format!("room-{name}"), Refused(18)));
    }
    let mut again = seen(32);
    again[0].1[1] = second;
    again[31].1[3] = second;
    rows.push(("drivers-32-again".into(), drivers(&again, second)));
    rows.push(("drivers-32-and-one-unassigned".into(), drivers(&seen(32), (2_000, 0))));
    alike(&mut rows, Refused(18), &["drivers-33-at-last", "drivers-33-and-the-first"]);
    rows
}

fn told() -> Rows {
    let mut rows = vec![
        ("told-17".into(), Refused(17)),
        ("told-18".into(), Refused(18)),
        ("told-1-refused".into(), Refused(1)),
        // Card 7 in two ticks with an activity, card 9 in three.
        (
            "of-a-run".into(),
            drivers(&[(7, [NO, (500, 0), NO, NO]), (9, [NO, (250, 0), (500, 0), NO])], (250, 0)),
        ),
    ];
    for words in [0, 1, 2, 5] {
        rows.push((format!("told-{words}"), one()));
        rows.push((format!("told-{words}-empty"), last(NO)));
        rows.push((format!("told-{words}-16"), Refused(16)));
    }
    rows
}

fn long() -> Rows {
    let driving = |time| drivers(&[(3, [NO, NO, NO, time])], NO);
    vec![
        ("records-100000".into(), driving((6_000_000_000, 100_000))),
        ("records-100001".into(), Refused(16)),
        ("records-100000-stopped".into(), driving((5_999_940_000, 99_999))),
        ("records-100001-stopped".into(), Refused(16)),
    ]
}

/// What was lent with 165 in each byte, and what of it is due.
fn left_by_hand(report: &Report, due: &Due) -> (u8, Held) {
    let mut held = Held { report: vec![165; report.room], told: vec![0xA5A5_A5A5_A5A5_A5A5; report.told] };
    match due {
        Refused(number) => (*number, held),
        Lines(lines) => {
            let words = bytes_of(&lines.concat());
            held.report.splice(..words.len(), words);
            held.told.iter_mut().take(1).for_each(|word| *word = 40 * lines.len() as u64);
            (0, held)
        }
    }
}

#[test]
fn the_stated_reports_by_hand() {
    for (name, due) in by_hand() {
        let report = stated(&name);
        let (number, left) = report.call(165);
        let (due_number, due) = left_by_hand(report, &due);
        assert_eq!((number, &left.told), (due_number, &due.told), "{name}");
        assert!(left == due, "{name}");
    }
}

/// Every stated report but the random ones is worked out by hand.
#[test]
fn every_stated_report_is_worked_out() {
    let mut by_hand: Vec<String> = by_hand().into_iter().map(|row| row.0).collect();
    let names = REPORTS.iter().map(|report| report.name.clone());
    let mut names: Vec<String> = names.filter(|name| !name.starts_with("random-report-")).collect();
    by_hand.sort();
    names.sort();
    assert_eq!(by_hand, names);
    names.extend(circuits::all().into_iter().map(|case| case.name));
    names.extend(circuits::classes().into_iter().map(|class| class.name));
    names.sort();
    assert!(names.windows(2).all(|pair| pair[0] != pair[1]), "a name is given twice");
}

/// The log that is said to be a run's is one.
#[test]
fn the_log_of_a_run() {
    let report = stated("report-of-a-run");
    // Constants 2 and 3 are the cards 7 and 9; constant 1 is the Cycle's Count.
    let lengths = [bits(0.25); 6];
    let script = [&[6, 5][..], &lengths, &[1, 1, 0, 1, 1, 1], &[0, 1, 0, 1, 0], &[2, 0, 3, 0, 0]].concat();
    let answer = run(&report.circuit, &bytes_of(&script), &Lent::default());
    let Answer::Played { log, stop: 0, ticks: 6 } = answer else { panic!("{answer:?}") };
    assert_eq!(bytes_of(&log), report.log);
}

#[test]
fn the_vectors_are_up_to_date() {
    let path = concat!(env!("CARGO_MANIFEST_DIR"), "/../vectors/reports.txt");
    let text = std::fs::read_to_string(path).expect("the reports' vectors");
    assert!(text == oracle::vectors::text_of_reports(), "write them again: oracle vectors vectors");
    assert!(text.len() < 400_000, "{}", text.len());
    // Of the longest logs alone the sum is given.
    assert_eq!(text.matches("-sum").count(), 4);
}

// ---- the definition once more, over words ----

fn words(bytes: &[u8]) -> Vec<i64> {
    bytes.chunks_exact(8).map(|word| i64::from_le_bytes(word.try_into().unwrap())).collect()
}

/// A circuit's words, cut up.
struct Cut {
    kinds: Vec<i64>,
    /// Gate, pin and source of each input, as KINDS has the pin.
    inputs: Vec<(usize, usize, &'static str, i64)>,
    outputs: Vec<&'static str>,
}

fn cut(circuit: &[u8]) -> Cut {
    let words = words(circuit);
    let (gates, constants) = (words[0] as usize, words[1] as usize);
    let kinds = words[4 + 2 * constants..][..gates].to_vec();
    let sources = &words[4 + 2 * constants + 2 * gates..];
    let pins = kinds.iter().enumerate().flat_map(|(gate, &kind)| {
        build::inputs_of(kind).into_iter().enumerate().map(move |(pin, name)| (gate, pin, name))
    });
    let inputs = pins.zip(sources).map(|((gate, pin, name), &source)| (gate, pin, name, source)).collect();
    let outputs = kinds.iter().flat_map(|&kind| build::outputs_of(kind)).collect();
    Cut { kinds, inputs, outputs }
}

/// The outputs of each tick read, and how many records there are; nothing if the
/// log is not whole records.
fn read(circuit: &Cut, log: &[u8]) -> Option<(Vec<Vec<(i64, i64)>>, usize)> {
    if log.len() % 8 != 0 {
        return None;
    }
    let words = words(log);
    let outputs = circuit.outputs.len();
    let (mut at, mut ticks, mut records) = (0, Vec::new(), 0);
    while at < words.len() {
        let head: Vec<i128> = words.get(at..at + 7)?.iter().map(|&word| word.into()).collect();
        let [tick, steps, late, main, carried, stop, changed] = head[..] else { unreachable!() };
        records += 1;
        let last = if stop == 0 { 2 * outputs as i128 } else { 0 };
        let size = 7 + 2 * (late + main) + 2 * carried + last;
        let wrong = [
            tick != records || records > 100_000,
            late < 0 || main < 0 || late + main > 1_024,
            !(0..=256).contains(&carried),
            ![0, 11, 12].contains(&stop),
            steps < 0 || steps > 50_000_000 && (steps, stop) != (50_000_001, 11),
            changed < 0,
            size > (words.len() - at) as i128,
            stop != 0 && size != (words.len() - at) as i128,
        ];
        if wrong.contains(&true) {
            return None;
        }
        let begun = (late + main) as usize;
        let carried = carried as usize;
        let units = at + 7;
        for (first, many) in [(units, begun), (units + 2 * begun, carried)] {
            for k in 0..many {
                if !may_begin(circuit, words[first + k], words[first + many + k]) {
                    return None;
                }
            }
        }
        let shown = units + 2 * begun + 2 * carried;
        at += size as usize;
        if stop != 0 {
            continue;
        }
        let pairs: Vec<(i64, i64)> =
            (0..outputs).map(|o| (words[shown + o], words[shown + outputs + o])).collect();
        if !pairs.iter().zip(&circuit.outputs).all(|(&pair, output)| may_show(pair, output)) {
            return None;
        }
        ticks.push(pairs);
    }
    Some((ticks, records as usize))
}

fn may_begin(circuit: &Cut, gate: i64, form: i64) -> bool {
    if gate < 0 || gate >= circuit.kinds.len() as i64 {
        return false;
    }
    let kind = circuit.kinds[gate as usize];
    let fixed = [(0, &[6, 11, 13, 14, 15, 16, 17][..]), (1, &[26, 27]), (2, &[28]), (32, &[9]), (33, &[9])];
    let driven = |&(of, pin, name, source): &(usize, usize, &str, i64)| {
        of as i64 == gate && name.starts_with("E:") && source >= 0 && [16, 17, 18][pin] == form
    };
    fixed.iter().any(|&(of, kinds)| of == form && kinds.contains(&kind))
        || circuit.inputs.iter().filter(|input| input.1 < 3).any(driven)
}

fn may_show((kind, content): (i64, i64), output: &str) -> bool {
    let value = match kind {
        1 => true,
        2 => (content as u64 >> 52) & 2_047 != 2_047,
        3 => content == 0 || content == 1,
        _ => false,
    };
    (kind == 0 && content == 0) || (value && !output.ends_with('!'))
}

/// A report says what it has to of these ticks: each line by itself, the order of
/// the drivers, and their sum.
fn assert_says(report: &[u8], ticks: &[Vec<(i64, i64)>], named: &Named, name: &str) {
    let of = |tick: &Vec<(i64, i64)>| (tick[named.driver as usize], tick[named.activity as usize]);
    let length = named.length as i64;
    let lines = words(report);
    let lines: Vec<&[i64]> = lines.chunks(5).collect();
    assert!(report.len() % 160 == 40, "{name}");
    let (unassigned, drivers) = lines.split_last().expect("a last line");
    assert_eq!(unassigned[..3], [0, 0, 0], "{name}");
    let mut assigned = 0;
    for (at, line) in drivers.iter().enumerate() {
        assert_eq!((line[0], line[2]), (1, at as i64 % 4), "{name}");
        let whose = ((1, line[1]), (1, line[2]));
        let many = ticks.iter().filter(|tick| of(tick) == whose).count() as i64;
        assert_eq!(line[3], many * length, "{name}");
        assigned += many;
    }
    assert_eq!(unassigned[3], (ticks.len() as i64 - assigned) * length, "{name}");
    let sum: i64 = lines.iter().map(|line| line[3]).sum();
    assert_eq!(sum, ticks.len() as i64 * length, "{name}");
    for line in &lines {
        // Above half a minute less, and up to half a minute more.
        let beyond = line[4] * 60_000 - line[3];
        assert!(-30_000 < beyond && beyond <= 30_000, "{name}");
    }
    let firsts: Vec<usize> = drivers
        .chunks(4)
        .map(|four| {
            assert!(four.iter().all(|line| line[1] == four[0][1]), "{name}");
            let mut of_driver = ticks.iter().map(of);
            of_driver
                .position(|((k, driver), (l, activity))| {
                    k == 1 && l == 1 && driver == four[0][1] && (0..4).contains(&activity)
                })
                .unwrap_or_else(|| panic!("{name}: a driver who does not appear"))
        })
        .collect();
    assert!(firsts.is_sorted_by(|a, b| a < b) && firsts.len() <= 32, "{name}");
}

/// How many drivers appear in these ticks.
fn appear(ticks: &[Vec<(i64, i64)>], named: &Named) -> usize {
    let of = |tick: &Vec<(i64, i64)>| (tick[named.driver as usize], tick[named.activity as usize]);
    let assigned = |((k, driver), (l, activity)): ((i64, i64), (i64, i64))| {
        (k == 1 && l == 1 && (0..4).contains(&activity)).then_some(driver)
    };
    ticks.iter().map(of).filter_map(assigned).collect::<std::collections::BTreeSet<i64>>().len()
}

// ---- the logs of runs ----

/// The log of a run is whole records, and what is reported of it adds up, for a
/// few choices of outputs. The answer is how many drivers were reported.
fn assert_reported(circuit: &[u8], log: &[u8], name: &str) -> usize {
    let decoded: Circuit = ask_circuit(circuit, None).unwrap_or_else(|_| panic!("{name} is refused"));
    assert!(whole::records(&decoded, log).is_some(), "{name}: not whole records");
    let cut = cut(circuit);
    let (ticks, _) = read(&cut, log).unwrap_or_else(|| panic!("{name}: not whole records"));
    let values: Vec<u64> =
        (0..cut.outputs.len() as u64).filter(|&o| !cut.outputs[o as usize].ends_with('!')).collect();
    if values.is_empty() {
        return 0;
    }
    let shows_int = |&&o: &&u64| ticks.iter().any(|tick| tick[o as usize].0 == 1);
    let mut ints: Vec<u64> = values.iter().filter(shows_int).copied().collect();
    ints.extend([values[0], values[values.len() - 1]]);
    let mut r = Random::new(name.len() as u64);
    let mut drivers = 0;
    for _ in 0..4 {
        let (driver, activity) = (r.pick(&ints), r.pick(&ints));
        let named = Named { driver, activity, length: r.pick(&[1, 250, 30_000, 60_000]) };
        match hours(circuit, log, &named, 5_160) {
            Ok(report) => {
                assert_says(&report, &ticks, &named, name);
                drivers += report.len() / 160;
            }
            Err(number) => assert!(number == 18 && appear(&ticks, &named) > 32, "{name}: {number}"),
        }
    }
    drivers
}

#[test]
fn the_logs_of_the_stated_circuits_are_whole() {
    let (mut logs, mut drivers) = (0, 0);
    for case in circuits::all() {
        let Answer::Played { log, .. } = run(&case.circuit, &case.script, &case.lent) else { continue };
        drivers += assert_reported(&case.circuit, &bytes_of(&log), &case.name);
        logs += 1;
    }
    assert!(logs > 1_000 && drivers > 500, "{logs} {drivers}");
}

#[test]
fn the_logs_of_the_stated_classes_are_whole() {
    let of = |class: &Class| match class.answer() {
        ClassAnswer::Refused(_) => Vec::new(),
        ClassAnswer::Answered(answers) => answers,
    };
    let mut logs = 0;
    for class in circuits::classes() {
        for answer in of(&class) {
            let Answer::Played { log, .. } = answer else { continue };
            assert_reported(&class.circuit, &bytes_of(&log), &class.name);
            logs += 1;
        }
    }
    assert!(logs > 500, "{logs}");
}

#[test]
fn the_logs_of_random_circuits_are_whole() {
    let mut drivers = 0;
    for family in FAMILIES {
        for seed in 0..200 {
            let case = valid(seed, family);
            let Answer::Played { log, .. } = run(&case.circuit, &case.script, &case.lent) else { panic!() };
            drivers += assert_reported(&case.circuit, &bytes_of(&log), &case.name);
        }
    }
    assert!(drivers > 500, "{drivers}");
}

// ---- random reports ----

/// How many random reports are looked at.
const RANDOM: u64 = 6_000;

/// What a report is lent, with garbage in it.
fn garbage(report: &Report, seed: u64) -> Held {
    let mut r = Random::new(seed);
    let bytes = (0..report.room).map(|_| r.number() as u8).collect();
    Held { report: bytes, told: (0..report.told).map(|_| r.number()).collect() }
}

/// The number due, and the ticks that are read.
fn due(report: &Report) -> (u8, Vec<Vec<(i64, i64)>>) {
    if let Err(number) = ask_circuit(&report.circuit, None) {
        return (number, Vec::new());
    }
    let cut = cut(&report.circuit);
    let Some((ticks, _)) = read(&cut, &report.log) else { return (16, Vec::new()) };
    let named = &report.named;
    let value = |output: u64| cut.outputs.get(output as usize).is_some_and(|name| !name.ends_with('!'));
    if !value(named.driver) || !value(named.activity) || named.length == 0 || named.length > 60_000 {
        return (17, ticks);
    }
    let drivers = appear(&ticks, named);
    let number = if drivers > 32 || 40 + 160 * drivers > report.room { 18 } else { 0 };
    (number, ticks)
}

#[test]
fn random_reports_say_what_they_have_to() {
    for seed in 0..RANDOM {
        let report = report(seed);
        let name = &report.name;
        let before = garbage(&report, seed);
        let (number, after) = call(&report.circuit, &report.log, &report.named, before.clone());
        let (due, ticks) = due(&report);
        assert_eq!(number, due, "{name}");
        if number != 0 {
            assert_eq!(report.answer(), Err(number), "{name}");
            assert!(after == before, "{name}: refused, and not untouched");
            continue;
        }
        let written = report.answer().unwrap_or_else(|_| panic!("{name}: refused"));
        assert_says(&written, &ticks, &report.named, name);
        let mut left = before;
        left.report[..written.len()].copy_from_slice(&written);
        left.told.iter_mut().take(1).for_each(|word| *word = written.len() as u64);
        assert!(after == left, "{name}: what is left");
    }
}

/// Every number is answered, and reports have few and many drivers.
#[test]
fn random_reports_come_to_everything() {
    let mut numbers = [0; 20];
    let (mut none, mut one, mut several, mut many, mut full) = (0, 0, 0, 0, 0);
    for seed in 0..RANDOM {
        match report(seed).answer() {
            Err(number) => numbers[number as usize] += 1,
            Ok(report) => match report.len() / 160 {
                0 => none += 1,
                1 => one += 1,
                2..=9 => several += 1,
                32 => full += 1,
                _ => many += 1,
            },
        }
    }
    let random = (0..RANDOM).map(report).filter(|report| report.answer() == Err(18));
    let too_many = random.filter(|report| report.room >= 5_160).count();
    assert!([16, 17, 18].iter().all(|&n| numbers[n] > 200), "{numbers:?}");
    assert!([1, 2, 3, 4, 5, 6, 19].iter().all(|&n| numbers[n] > 5), "{numbers:?}");
    assert!([none, one, several].iter().all(|&n| n > 300), "{none} {one} {several}");
    assert!(many > 50 && full > 0 && too_many > 10, "{many} {full} {too_many}");
}

#[test]
fn a_seed_gives_one_report() {
    for seed in 0..50 {
        let (a, b) = (report(seed), report(seed));
        assert_eq!((a.circuit, a.log, a.named, a.room, a.told), (b.circuit, b.log, b.named, b.room, b.told));
    }
    assert_ne!(report(0).circuit, report(1).circuit);
}
