//! Reports: the log of a random circuit's run, as it is or with other drivers and
//! activities, whole or damaged, and what is named of it.

use super::{FAMILIES, Family, Random, damaged, damaged_loops, valid};
use crate::build::{Record, bytes_of, is_value, outputs_of};
use crate::case::{Case, Report};
use crate::hours::Named;
use crate::words::{Parts, words};
use crate::{Answer, run};

/// The report of a seed.
pub fn report(seed: u64) -> Report {
    let mut r = Random::new(seed ^ 0x4E90_0000_0000_0000);
    let family = r.pick(&FAMILIES);
    let own = valid(seed, family);
    let shape = Shape::of(&own);
    let mut records = records(&shape, &own);
    records.truncate(r.pick(&[0, 1, 2, 3, 4, 6, 6, 10]));
    if r.chance(20) {
        repeat(&mut r, &mut records);
    }
    shorten(&mut records);
    let mut named = name(&mut r, &shape, &records);
    if r.chance(75) {
        show(&mut r, &mut records, &named);
    }
    let faults = r.pick(&[0, 0, 0, 1, 1, 2]);
    for _ in 0..faults {
        damage(&mut r, &shape, &mut records);
    }
    let mut log = bytes_of(&records.iter().flat_map(Record::words).collect::<Vec<_>>());
    if r.chance(8) {
        spoil(&mut r, family, &mut log);
    }
    if r.chance(10) {
        misname(&mut r, &shape, &mut named);
    }
    let mut report =
        Report::new(format!("random-report-{seed}"), "A random report.", own.circuit, log, named);
    if r.chance(5) {
        report.circuit = other_circuit(&mut r);
    }
    lend(&mut r, &mut report);
    report
}

/// What is asked of a circuit here.
struct Shape {
    gates: usize,
    /// Whether each output is a value output.
    values: Vec<bool>,
}

impl Shape {
    fn of(case: &Case) -> Self {
        let circuit = words(&case.circuit).expect("whole words");
        let (gates, constants) = (circuit[0] as usize, circuit[1] as usize);
        let kinds = &circuit[4 + 2 * constants..][..gates];
        let values = kinds.iter().flat_map(|&kind| outputs_of(kind)).map(is_value).collect();
        Self { gates, values }
    }
}

/// The records that a case's run writes.
fn records(shape: &Shape, case: &Case) -> Vec<Record> {
    let Answer::Played { log, .. } = run(&case.circuit, &case.script, &case.lent) else { return Vec::new() };
    let mut parts = Parts(&log);
    let mut records = Vec::new();
    while !parts.0.is_empty() {
        let head: [i64; 7] = parts.next(7).try_into().expect("seven words");
        let shown = if head[5] == 0 { shape.values.len() } else { 0 };
        let [begun, carried, outputs] = [(head[2] + head[3]) as usize, head[4] as usize, shown]
            .map(|length| parts.next(length).into_iter().zip(parts.next(length)).collect());
        records.push(Record { head, begun, carried, outputs });
    }
    records
}

/// The most words of a log, so that the vectors give all of it.
const WORDS: usize = 3_500;

/// Leaves out the last records, until the log has no more words than that.
fn shorten(records: &mut Vec<Record>) {
    while records.iter().map(|record| record.words().len()).sum::<usize>() > WORDS {
        records.pop();
    }
}

/// More ticks, which do what the last one did.
fn repeat(r: &mut Random, records: &mut Vec<Record>) {
    records.retain(|record| record.head[5] == 0);
    let Some(last) = records.last().cloned() else { return };
    for _ in 0..r.between((5, 50)) {
        let mut next = last.clone();
        next.head[0] = records.len() as i64 + 1;
        records.push(next);
    }
}

/// Two value outputs, often ones that show Ints, and a length.
fn name(r: &mut Random, shape: &Shape, records: &[Record]) -> Named {
    let values: Vec<usize> = (0..shape.values.len()).filter(|&output| shape.values[output]).collect();
    let shows_ints = |&output: &usize| {
        records.iter().any(|record| record.outputs.get(output).is_some_and(|&(kind, _)| kind == 1))
    };
    let ints: Vec<usize> = values.iter().copied().filter(shows_ints).collect();
    let from = if ints.is_empty() || r.chance(30) { &values } else { &ints };
    let (driver, activity) = (r.pick(from) as u64, r.pick(from) as u64);
    Named {
        driver,
        activity,
        length: r.pick(&[1, 250, 1_000, 7_919, 15_000, 29_999, 30_000, 30_001, 60_000]),
    }
}

/// Other drivers and activities in place of what was shown.
fn show(r: &mut Random, records: &mut [Record], named: &Named) {
    let most = r.pick(&[1, 2, 3, 31, 32, 33, 40]);
    let by_turns = r.chance(60);
    let assigned = r.pick(&[50, 80, 100, 100]);
    for record in records.iter_mut().filter(|record| record.head[5] == 0) {
        let driver = match by_turns {
            true => record.head[0] % most,
            false => r.pick(&[0, -1, i64::MIN]) + r.below(3 * most as usize) as i64,
        };
        record.outputs[named.driver as usize] = (1, driver);
        record.outputs[named.activity as usize] = (1, r.below(4) as i64);
        if !r.chance(assigned) {
            let other = [(0, 0), (1, 4), (1, -1), (1, 9), (2, 0), (2, 1), (3, 0), (3, 1), (1, 1 << 32)];
            let output = r.pick(&[named.driver, named.activity]);
            record.outputs[output as usize] = r.pick(&other);
        }
    }
}

/// Words that stand at the edges of what a record may have.
const EDGES: [i64; 20] = [
    -1,
    0,
    1,
    2,
    3,
    4,
    11,
    12,
    13,
    16,
    32,
    256,
    257,
    1_024,
    1_025,
    50_000_000,
    50_000_001,
    i64::MAX,
    i64::MIN,
    1 << 60,
];

/// A change of a record, which may leave the log whole.
fn damage(r: &mut Random, shape: &Shape, records: &mut Vec<Record>) {
    if records.is_empty() {
        return;
    }
    let at = r.below(records.len());
    let record = &mut records[at];
    match r.below(11) {
        0 => record.head[r.below(7)] = r.pick(&EDGES),
        1 => record.head[r.pick(&[1, 5, 6])] = r.pick(&EDGES),
        2 => record.head[r.pick(&[2, 3])] += r.pick(&[-1, 1]),
        3 | 4 => change_unit(r, shape, record),
        5 | 6 => change_output(r, record),
        7 => stop(r, record),
        8 => drop(records.remove(at)),
        9 => records.insert(at, records[at].clone()),
        _ => stop(r, records.last_mut().expect("a record")),
    }
}

/// Another gate or form, or one more unit.
fn change_unit(r: &mut Random, shape: &Shape, record: &mut Record) {
    let gate = r.below(shape.gates + 1) as i64;
    let form = r.pick(&[0, 1, 2, 3, 16, 16, 17, 18, 19, 32, 33, 34, -1]);
    let carried = r.chance(40);
    let (at, units) = if carried { (4, &mut record.carried) } else { (2 + r.below(2), &mut record.begun) };
    if units.is_empty() || r.chance(30) {
        units.push((gate, form));
        record.head[at] += 1;
        return;
    }
    let place = r.below(units.len());
    let unit = &mut units[place];
    if r.chance(50) { unit.0 = gate } else { unit.1 = form }
}

/// Another kind, content or both; or an output less or more.
fn change_output(r: &mut Random, record: &mut Record) {
    if record.outputs.is_empty() || r.chance(10) {
        record.outputs.push((0, 0));
        return;
    }
    let at = r.below(record.outputs.len());
    let output = &mut record.outputs[at];
    let content = r.pick(&[0, 1, 2, -1, i64::MIN, 0x7FF0_0000_0000_0000, 0x7FEF_FFFF_FFFF_FFFF, 1 << 32]);
    let kind = r.pick(&[0, 1, 2, 3, 3, 4, -1]);
    match r.below(4) {
        0 => output.0 = kind,
        1 => output.1 = content,
        2 => *output = (kind, content),
        _ => drop(record.outputs.remove(at)),
    }
}

fn stop(r: &mut Random, record: &mut Record) {
    record.head[5] = r.pick(&[11, 11, 12, 12, 13, 1]);
    record.head[1] = r.pick(&[0, 1, 50_000_000, 50_000_001, 50_000_002]);
    if r.chance(80) {
        record.outputs.clear();
    }
}

/// Bytes or words more or less, a word changed, or another circuit's log.
fn spoil(r: &mut Random, family: Family, log: &mut Vec<u8>) {
    match r.below(6) {
        0 => log.extend(vec![0; r.pick(&[1, 7, 8, 16, 56])]),
        1 => log.truncate(r.below(log.len() + 1)),
        2 => log.truncate(log.len().saturating_sub(8)),
        3 | 4 if !log.is_empty() => {
            let at = 8 * r.below(log.len() / 8);
            log[at..][..8].copy_from_slice(&r.pick(&EDGES).to_le_bytes());
        }
        _ => {
            let other = valid(r.number(), family);
            let records = records(&Shape::of(&other), &other);
            *log = bytes_of(&records.iter().take(3).flat_map(Record::words).collect::<Vec<_>>());
        }
    }
}

/// An output that is exec or none, or a length that is none.
fn misname(r: &mut Random, shape: &Shape, named: &mut Named) {
    let outputs = shape.values.len() as u64;
    let exec = shape.values.iter().position(|value| !value).unwrap_or(0) as u64;
    let output = r.pick(&[exec, exec, outputs, u64::MAX, 1 << 63, named.driver + (1 << 32)]);
    match r.below(3) {
        0 => named.driver = output,
        1 => named.activity = output,
        _ => named.length = r.pick(&[0, 60_001, u64::MAX, 1 << 63, (1 << 32) + 1_000]),
    }
}

fn other_circuit(r: &mut Random) -> Vec<u8> {
    match r.below(4) {
        0 => valid(r.number(), r.pick(&FAMILIES)).circuit,
        1 => damaged_loops(r.number()).case.circuit,
        _ => damaged(r.number()).case.circuit,
    }
}

/// Room that is enough, just enough for some drivers, or hardly not; words for
/// what is told.
fn lend(r: &mut Random, report: &mut Report) {
    if r.chance(40) {
        let fit = 40 + 160 * r.pick(&[0, 0, 1, 1, 2, 3, 32]);
        report.room = fit + r.pick(&[0, 0, 1, 7]) - r.pick(&[0, 0, 1]);
    }
    report.told = r.pick(&[0, 1, 1, 2, 3]);
}
