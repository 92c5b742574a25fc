//! The proved `hours` against the oracle's plain version: the number, and every
//! byte of the report and of what is told, which hold garbage before, on stated
//! logs, on the logs of all stated circuits and classes, on these changed in one
//! place, and on random ones. And the typed report against the words.
//!
//! HAZHIRUN_RUNS=100000 cargo test --offline --release --test hours
//! compares as many random logs, and as many of random runs; by default it is
//! fewer. With --nocapture it says how often which number was answered.

mod changed;
mod common;
mod played;

use std::env;

use changed::{Due, Shape, changes, log_of, records};
use common::{format_words, garbage};
use hazhirun_host::{
    Answer, ClassAnswer, HoursError, REPORT_BYTES, Report, Spent, class, hours, hours_into, parts,
};
use oracle::build::{Circuit, NOTHING, Record};
use oracle::circuits::{self, Case};
use oracle::generate::{self, FAMILIES, valid};
use oracle::hours::{self as theirs, Held, Named};
use played::log_of_run;

unsafe extern "C" {
    fn hazhirun_hours(
        circuit: *const u8,
        circuit_length: usize,
        log: *const u8,
        log_length: usize,
        driver: u64,
        activity: u64,
        length: u64,
        report: *mut u8,
        report_length: usize,
        told: *mut u64,
        told_length: usize,
    ) -> u64;
}

/// A log with its circuit, what is named of it, and what is lent.
type Asked = circuits::Report;

/// The C function itself, which may be lent any number of words for what it
/// tells.
fn call(asked: &Asked, held: &mut Held) -> u64 {
    let Named { driver, activity, length } = asked.named;
    // SAFETY: pointers and lengths are those of slices that are apart.
    unsafe {
        hazhirun_hours(
            asked.circuit.as_ptr(),
            asked.circuit.len(),
            asked.log.as_ptr(),
            asked.log.len(),
            driver,
            activity,
            length,
            held.report.as_mut_ptr(),
            held.report.len(),
            held.told.as_mut_ptr(),
            held.told.len(),
        )
    }
}

/// How many random logs are compared.
fn calls() -> u64 {
    env::var("HAZHIRUN_RUNS").map_or(2_800, |n| n.parse().unwrap())
}

/// How often which number was answered.
#[derive(Debug, Default)]
struct Counts {
    numbers: [u64; 20],
    /// The reports by their drivers.
    drivers: Vec<u64>,
    /// Ticks that are nobody's in some report.
    unassigned: u64,
    /// Reports that no word was lent for.
    untold: u64,
}

impl Counts {
    fn count(&mut self, asked: &Asked, answer: &Result<Vec<u8>, u8>) {
        let report = match answer {
            Err(number) => {
                self.numbers[usize::from(*number)] += 1;
                return;
            }
            Ok(report) => words(report),
        };
        self.numbers[0] += 1;
        let drivers = report.len() / 20;
        self.drivers.resize(self.drivers.len().max(drivers + 1), 0);
        self.drivers[drivers] += 1;
        self.unassigned += u64::from(report[report.len() - 2] > 0);
        self.untold += u64::from(asked.told == 0);
    }

    /// Whether each of these numbers was answered more than so often.
    fn with(&self, numbers: &[usize], often: u64) -> bool {
        numbers.iter().all(|&n| self.numbers[n] > often)
    }

    fn reports_with(&self, drivers: usize) -> u64 {
        self.drivers.get(drivers).copied().unwrap_or(0)
    }
}

fn words(bytes: &[u8]) -> Vec<u64> {
    bytes.as_chunks().0.iter().map(|&word| u64::from_le_bytes(word)).collect()
}

/// What is lent, with garbage in it.
fn held(asked: &Asked, seed: u64) -> Held {
    let told = words(&garbage(8 * asked.told, 2 * seed + 1));
    Held { report: garbage(asked.room, 2 * seed), told }
}

/// Asks both; the number that they answer.
fn compare(asked: &Asked, seed: u64, counts: &mut Counts) -> u8 {
    let name = &asked.name;
    let before = held(asked, seed);
    let (number, due) = theirs::call(&asked.circuit, &asked.log, &asked.named, before.clone());
    let mut left = before.clone();
    assert_eq!(call(asked, &mut left), u64::from(number), "{name}");
    assert_eq!(left.told, due.told, "{name}: what is told");
    assert!(left.report == due.report, "{name}: the report");
    let answer = asked.answer();
    assert_eq!(answer.as_ref().err().copied().unwrap_or(0), number, "{name}");
    assert_lent(asked, &before, &due, &answer);
    assert_typed(asked, &answer);
    counts.count(asked, &answer);
    number
}

/// The safe function that is lent a buffer leaves in it what is due.
fn assert_lent(asked: &Asked, before: &Held, due: &Held, answer: &Result<Vec<u8>, u8>) {
    let Named { driver, activity, length } = asked.named;
    let mut report = before.report.clone();
    let ours = hours_into(&asked.circuit, &asked.log, driver, activity, length, &mut report);
    let due_answer = answer.as_ref().map(Vec::len).map_err(|&number| error(number, asked.room));
    assert_eq!(ours, due_answer, "{}", asked.name);
    assert!(report == due.report, "{}: what `hours_into` leaves", asked.name);
    if let Err(error) = ours {
        assert_eq!(
            Err(error.number()),
            answer.as_ref().map_err(|&n| u64::from(n)),
            "{}",
            asked.name
        );
    }
}

/// The typed report has the words that are due where there is room for any.
fn assert_typed(asked: &Asked, answer: &Result<Vec<u8>, u8>) {
    let Named { driver, activity, length } = asked.named;
    let ours = hours(&asked.circuit, &asked.log, driver, activity, length);
    let with_room = match answer {
        Err(18) => theirs::hours(&asked.circuit, &asked.log, &asked.named, REPORT_BYTES),
        same => same.clone(),
    };
    let due = with_room.map(|report| words(&report)).map_err(|number| error(number, REPORT_BYTES));
    assert_eq!(ours.as_ref().map(lines).map_err(|&error| error), due, "{}", asked.name);
    if let (Ok(report), Ok(words)) = (ours, due) {
        assert_printed(&report, &words);
    }
}

/// The words of a typed report.
fn lines(report: &Report) -> Vec<u64> {
    let mut words = Vec::new();
    for of_driver in &report.drivers {
        for (activity, &Spent { milliseconds, minutes }) in of_driver.activities.iter().enumerate()
        {
            words.extend([1, of_driver.driver as u64, activity as u64, milliseconds, minutes]);
        }
    }
    let Spent { milliseconds, minutes } = report.unassigned;
    words.extend([0, 0, 0, milliseconds, minutes]);
    words
}

/// A report is printed as a line for each five words.
fn assert_printed(report: &Report, words: &[u64]) {
    let line = |line: &[u64; 5]| match *line {
        [0, _, _, ms, min] => format!("unassigned: {ms} ms, {min} min"),
        [_, driver, activity, ms, min] => {
            format!("driver {}, activity {activity}: {ms} ms, {min} min", driver as i64)
        }
    };
    let lines: Vec<String> = words.as_chunks().0.iter().map(line).collect();
    assert_eq!(report.to_string(), lines.join("\n"));
}

/// The error of a number, for a buffer of so many bytes.
fn error(number: u8, room: usize) -> HoursError {
    match number {
        1..=7 | 19 => HoursError::Circuit(number.into()),
        16 => HoursError::NotWhole,
        17 => HoursError::WrongNames,
        18 if room < REPORT_BYTES => HoursError::NoRoom,
        18 => HoursError::TooManyDrivers,
        _ => panic!("number {number}"),
    }
}

/// A log for each clause of 16, each name, order, limit and room; random ones.
#[test]
fn stated_ones() {
    let mut counts = Counts::default();
    for (asked, seed) in circuits::reports().iter().zip(0..) {
        compare(asked, seed, &mut counts);
    }
    println!("stated: {counts:?}");
    assert!(counts.with(&[1, 2, 3, 4, 5, 6, 7, 19], 0), "{counts:?}");
    assert!(counts.with(&[0, 16], 100) && counts.with(&[17, 18], 10), "{counts:?}");
    assert!(counts.reports_with(32) > 1 && counts.untold > 0, "{counts:?}");
}

#[test]
fn random_ones() {
    let mut counts = Counts::default();
    for n in 0..calls() {
        compare(&generate::report(100_000 + n), n, &mut counts);
    }
    println!("random: {counts:?}");
    if calls() >= 1_000 {
        assert!(counts.with(&[1, 3, 4, 5], calls() / 2_000), "{counts:?}");
    }
    assert!(
        counts.with(&[0, 16], calls() / 10) && counts.with(&[17, 18], calls() / 50),
        "{counts:?}"
    );
    assert!(
        counts.reports_with(1) > calls() / 50 && counts.unassigned > calls() / 20,
        "{counts:?}"
    );
}

/// What may be named of records: the first and the last of the value outputs that
/// show Ints, and those that show an activity; without these any value output.
fn names(shape: &Shape, records: &[Record]) -> Vec<(u64, u64)> {
    let shown = |wanted: &dyn Fn((i64, i64)) -> bool| -> Vec<u64> {
        let some =
            |o: &usize| records.iter().any(|r| r.outputs.get(*o).is_some_and(|&v| wanted(v)));
        (0..shape.values.len()).filter(some).map(|o| o as u64).collect()
    };
    let values: Vec<u64> =
        (0..shape.values.len()).filter(|&o| shape.values[o]).map(|o| o as u64).collect();
    let ints = shown(&|(kind, _)| kind == 1);
    let activities = shown(&|value| matches!(value, (1, 0..=3)));
    let from = |some: Vec<u64>| if some.is_empty() { values.clone() } else { some };
    let (drivers, activities) = (from(ints), from(activities));
    let both = [(drivers.first(), activities.last()), (drivers.last(), activities.first())];
    let mut names: Vec<(u64, u64)> = both.iter().filter_map(|&(d, a)| Some((*d?, *a?))).collect();
    names.extend(activities.first().map(|&a| (a, a)));
    names.dedup();
    names
}

/// A log that a run wrote passes 16, whatever is named of it.
fn compare_log(name: &str, circuit: &[u8], log: &[u8], seed: u64, counts: &mut Counts) {
    const LENGTHS: [u64; 6] = [1, 250, 999, 15_000, 30_000, 60_000];
    let shape = Shape::of(circuit);
    let names = names(&shape, &records(&shape, log));
    let lengths = LENGTHS.iter().cycle().skip(seed as usize % LENGTHS.len());
    let good =
        names.iter().zip(lengths).map(|(&(driver, activity), &length)| (driver, activity, length));
    let mut asked: Vec<(u64, u64, u64)> = good.collect();
    let outputs = shape.values.len() as u64;
    let exec = shape.values.iter().position(|value| !value).map_or(outputs, |o| o as u64);
    let &(driver, activity) = names.first().unwrap_or(&(0, 0));
    let wrong =
        [(exec, activity, 1), (driver, exec, 1), (driver, activity, 0), (driver, activity, 60_001)];
    let rightly_named = asked.len();
    asked.extend(if log.len() > 1 << 20 { &wrong[..1] } else { &wrong[..] });
    for (k, (driver, activity, length)) in asked.into_iter().enumerate() {
        let named = Named { driver, activity, length };
        let asked = Asked::new(name, "The log of a run.", circuit.to_vec(), log.to_vec(), named);
        let number = compare(&asked, seed + k as u64, counts);
        let due: &[u8] = if k < rightly_named { &[0, 18] } else { &[17] };
        assert!(due.contains(&number), "{name}: {named:?} answers {number}");
    }
}

/// The logs of all stated circuits, and of all scripts of the stated classes.
#[test]
fn logs_of_runs() {
    let mut counts = Counts::default();
    let mut logs = 0;
    for (case, seed) in circuits::all().iter().zip(0..) {
        if let Some(log) = log_of_run(case) {
            compare_log(&case.name, &case.circuit, &log, seed, &mut counts);
            logs += 1;
        }
    }
    println!("logs of {logs} runs: {counts:?}");
    assert!(logs > 800 && counts.with(&[0, 17], 1_000), "{counts:?}");
    assert!(counts.drivers[1..].iter().sum::<u64>() > 300, "{counts:?}");
    assert_eq!(counts.numbers[16], 0);
}

#[test]
fn logs_of_classes() {
    let mut counts = Counts::default();
    let mut logs = 0;
    for (one, seed) in circuits::classes().iter().zip(0..) {
        let mut log = vec![0; one.lent.log];
        let [mut values, mut units, mut delays] =
            [one.lent.values, one.lent.units, one.lent.delays].map(|length| vec![0; length]);
        let answer = class(&one.circuit, &one.book, &mut log, &mut values, &mut units, &mut delays);
        let ClassAnswer::Answered(answers) = answer else { continue };
        for (part, answer) in parts(&log, answers.len()).zip(&answers) {
            if let &Answer::Played { bytes, .. } = answer {
                compare_log(&one.name, &one.circuit, &part[..bytes], seed, &mut counts);
                logs += 1;
            }
        }
    }
    println!("logs of {logs} scripts of classes: {counts:?}");
    assert!(logs > 300 && counts.with(&[0, 17], 300), "{counts:?}");
    assert_eq!(counts.numbers[16], 0);
}

/// A changed log of records, and the number that it has to have.
fn compare_changed(asked: &Asked, what: &str, due: Due, seed: u64, counts: &mut Counts) {
    let number = compare(asked, seed, counts);
    let right = match due {
        Due::Broken => number == 16,
        Due::Whole => number != 16,
        Due::Asked => true,
    };
    assert!(right, "{}: changed in {what}, which answers {number}", asked.name);
}

/// The records of a case that is played, and what is named of them.
fn named_records(case: &Case) -> Option<(Shape, Vec<Record>, Named)> {
    let log = log_of_run(case)?;
    let shape = Shape::of(&case.circuit);
    let records = records(&shape, &log);
    let (driver, activity) = names(&shape, &records).first().copied().unwrap_or((0, 0));
    Some((shape, records, Named { driver, activity, length: 30_000 }))
}

/// Every clause of 16 on its own, on logs of stated circuits that are not long: in
/// the first record, the last, or one between. All changes of each, or by default a
/// third of them, another third for the next log.
#[test]
fn changed_ones() {
    let mut counts = Counts::default();
    let (mut logs, mut whats) = (0, Vec::new());
    let one_in = if calls() >= 10_000 { 1 } else { 3 };
    for (case, seed) in circuits::all().iter().zip(0..) {
        let Some((shape, records, named)) = named_records(case) else { continue };
        let size: usize = records.iter().map(|record| record.words().len()).sum();
        if records.is_empty() || size > 400 {
            continue;
        }
        let at = [0, records.len() / 2, records.len() - 1][logs / 3 % 3];
        for change in changes(&shape, &records, at).iter().skip(logs % one_in).step_by(one_in) {
            let log = change.log(&records);
            let asked = Asked::new(&case.name, "A changed log.", case.circuit.clone(), log, named);
            compare_changed(&asked, change.what, change.due, seed, &mut counts);
            whats.push(change.what);
        }
        logs += 1;
    }
    whats.sort();
    whats.dedup();
    println!("{logs} logs changed in {whats:?}: {counts:?}");
    assert!(logs > 400 && whats.len() == 17, "{logs} logs, {whats:?}");
    assert!(counts.with(&[0], 5_000) && counts.with(&[16], 20_000), "{counts:?}");
}

/// Random runs, and each with one change of one record.
#[test]
fn random_runs() {
    let mut counts = [Counts::default(), Counts::default()];
    for n in 0..calls() {
        let case = valid(200_000 + n, FAMILIES[n as usize % FAMILIES.len()]);
        let (shape, records, named) = named_records(&case).expect("a run");
        let name = case.name.clone();
        let mut asked = Asked::new(name, "A random run.", case.circuit, log_of(&records), named);
        compare_changed(&asked, "nothing", Due::Whole, n, &mut counts[0]);
        if records.is_empty() {
            continue;
        }
        let at = (n as usize).wrapping_mul(0x9E37_79B9) % records.len();
        let changes = changes(&shape, &records, at);
        let change = &changes[n as usize % changes.len()];
        asked.log = change.log(&records);
        compare_changed(&asked, change.what, change.due, n, &mut counts[1]);
    }
    println!("runs: {:?}\nchanged: {:?}", counts[0], counts[1]);
    assert_eq!(counts[0].numbers[16], 0);
    assert!(counts[0].with(&[0], calls() / 2), "{counts:?}");
    assert!(counts[1].with(&[0, 16], calls() / 20), "{counts:?}");
}

/// Two Vars, whose Values are the driver and the activity.
fn two_vars() -> Circuit {
    let mut c = Circuit::new();
    c.var(NOTHING);
    c.var(NOTHING);
    c
}

/// Ticks that show these drivers and activities.
fn days(shown: &[(i64, i64)]) -> Asked {
    let tick = |(&(driver, activity), tick): (&(i64, i64), i64)| Record {
        head: [tick, 0, 0, 0, 0, 0, 0],
        outputs: vec![(1, driver), (1, activity)],
        ..Record::default()
    };
    let log = log_of(&shown.iter().zip(1..).map(tick).collect::<Vec<_>>());
    let named = Named { driver: 0, activity: 1, length: 45_000 };
    Asked::new(format!("{} ticks", shown.len()), "Days.", two_vars().bytes(), log, named)
}

/// None to 40 drivers, with just the bytes for them, more and fewer: from the
/// 33rd on it is 18, whatever is lent.
#[test]
fn drivers_up_to_40() {
    let mut counts = Counts::default();
    for n in 0..=40_usize {
        let mut asked = days(&(0..n as i64).map(|k| (7 - k, k % 4)).collect::<Vec<_>>());
        let fit = 160 * n + 40;
        for room in [0, fit - 1, fit, fit + 1, REPORT_BYTES - 1, REPORT_BYTES, 10_000] {
            asked.room = room;
            let due = if n <= 32 && fit <= room { 0 } else { 18 };
            assert_eq!(compare(&asked, n as u64, &mut counts), due, "{n} drivers, {room} bytes");
        }
    }
    // A 33rd one who is in no activity does not appear.
    let mut shown: Vec<(i64, i64)> = (0..32).map(|k| (k, 2)).collect();
    shown.push((32, 4));
    assert_eq!(compare(&days(&shown), 1, &mut counts), 0);
    shown.push((33, 3));
    assert_eq!(compare(&days(&shown), 2, &mut counts), 18);
    let Named { driver, activity, length } = days(&shown).named;
    let ours = hours(&days(&shown).circuit, &days(&shown).log, driver, activity, length);
    assert_eq!(ours, Err(HoursError::TooManyDrivers));
}

/// With none, one and three words for what is told.
#[test]
fn buffers_of_every_small_length() {
    let mut counts = Counts::default();
    let logs = [
        days(&[]),
        days(&[(1, 4), (2, -1)]),
        days(&[(-3, 0), (-3, 2), (-3, 9)]),
        days(&[(1, 0), (2, 1)]),
    ];
    for (mut asked, drivers) in logs.into_iter().zip([0, 0, 1, 2]) {
        for room in 0..=250 {
            for told in [0, 1, 3] {
                (asked.room, asked.told) = (room, told);
                let due = if 160 * drivers + 40 <= room { 0 } else { 18 };
                assert_eq!(compare(&asked, room as u64, &mut counts), due, "{room} bytes");
            }
        }
    }
    // The most that a report has, and around it.
    let mut asked = days(&(0..32).map(|k| (k, 1)).collect::<Vec<_>>());
    for room in REPORT_BYTES - 50..=REPORT_BYTES + 50 {
        asked.room = room;
        let due = if room < REPORT_BYTES { 18 } else { 0 };
        assert_eq!(compare(&asked, room as u64, &mut counts), due, "{room} bytes");
    }
    assert!(counts.untold > 300, "{counts:?}");
}

/// A number for each error, and what the office reads.
#[test]
fn errors_in_words() {
    let texts = [
        (HoursError::Circuit(2), "question 2: a constant is none"),
        (HoursError::NotWhole, "question 16: the log is not whole records of this circuit"),
        (HoursError::WrongNames, "question 17: the driver or the activity is no value output"),
        (HoursError::TooManyDrivers, "question 18: there are more than 32 drivers"),
        (HoursError::NoRoom, "question 18: the report does not fit"),
    ];
    for (error, text) in texts {
        let printed = error.to_string();
        assert!(printed.starts_with(&format!("refused by {text}")), "{printed}");
        assert!(text.starts_with(&format!("question {}:", error.number())));
    }
}

/// The report of docs/FORMAT.md, with what it is lent there.
#[test]
fn worked_report() {
    let bytes = |named: &str| -> Vec<u8> {
        format_words(named).iter().flat_map(|word| word.to_le_bytes()).collect()
    };
    let named = Named { driver: 0, activity: 1, length: 30_000 };
    let mut asked =
        Asked::new("worked", "An example.", bytes("hours circuit"), bytes("hours log"), named);
    (asked.room, asked.told) = (208, 2);
    assert_eq!(compare(&asked, 1, &mut Counts::default()), 0);
    let mut left = held(&asked, 2);
    let before = left.clone();
    assert_eq!(call(&asked, &mut left), 0);
    let report = bytes("hours report");
    assert_eq!(report.len(), 200);
    assert!(left.report == [&report, &before.report[200..]].concat());
    let told: Vec<i64> = left.told.iter().map(|&word| word as i64).collect();
    assert_eq!(told, [format_words("hours told"), vec![before.told[1] as i64]].concat());
}
