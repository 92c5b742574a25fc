//! Hours per driver (document 02, K3): a report that reads a finished log and
//! gives, for each driver and each activity, the milliseconds and the minutes.

use crate::circuit::Circuit;
use crate::questions;
use crate::whole::{self, Record};

/// The longest tick, in milliseconds.
const LONGEST: u64 = 60_000;
/// The most drivers of a report.
const DRIVERS: usize = 32;
/// The activities, from 0 up.
const ACTIVITIES: usize = 4;
/// The milliseconds of a minute.
const MINUTE: u64 = 60_000;

/// What the trainer names: the outputs that show the driver and the activity,
/// and the length of a tick in milliseconds.
#[derive(Clone, Copy, Debug, PartialEq, Eq)]
pub struct Named {
    pub driver: u64,
    pub activity: u64,
    pub length: u64,
}

/// Ask about the circuit as a call that is lent no areas, then about the log,
/// then about what is named, and then whether the report fits. The answer is the
/// bytes of the report, or the number of the first question answered no.
pub fn hours(circuit: &[u8], log: &[u8], named: &Named, room: usize) -> Result<Vec<u8>, u8> {
    let circuit = questions::ask_circuit(circuit, None)?;
    let records = whole::records(&circuit, log).ok_or(16)?;
    let driver = value_output(&circuit, named.driver).ok_or(17)?;
    let activity = value_output(&circuit, named.activity).ok_or(17)?;
    if !(1..=LONGEST).contains(&named.length) {
        return Err(17);
    }
    let ticks = Ticks::of(&records, driver, activity);
    let words = ticks.lines(named.length).concat();
    let report: Vec<u8> = words.iter().flat_map(|word| word.to_le_bytes()).collect();
    if ticks.drivers.len() > DRIVERS || report.len() > room {
        return Err(18);
    }
    Ok(report)
}

/// The output of this number, if there is one and it is a value output.
fn value_output(circuit: &Circuit, number: u64) -> Option<usize> {
    let number = usize::try_from(number).ok()?;
    circuit.outputs.get(number).filter(|output| !output.port.is_exec()).map(|_| number)
}

/// How many of the ticks read are whose.
#[derive(Default)]
struct Ticks {
    /// Each driver, in order of first appearance, with the ticks of each activity.
    drivers: Vec<(i64, [u64; ACTIVITIES])>,
    unassigned: u64,
}

impl Ticks {
    /// Stopped records are not ticks read.
    fn of(records: &[Record], driver: usize, activity: usize) -> Self {
        let mut ticks = Self::default();
        for record in records.iter().filter(|record| record.stop == 0) {
            match assigned(record.outputs[driver], record.outputs[activity]) {
                Some((driver, activity)) => ticks.of_driver(driver)[activity] += 1,
                None => ticks.unassigned += 1,
            }
        }
        ticks
    }

    /// The ticks of this driver, who appears here if not before.
    fn of_driver(&mut self, driver: i64) -> &mut [u64; ACTIVITIES] {
        let known = self.drivers.iter().position(|known| known.0 == driver);
        let at = known.unwrap_or_else(|| {
            self.drivers.push((driver, [0; ACTIVITIES]));
            self.drivers.len() - 1
        });
        &mut self.drivers[at].1
    }

    /// A line for each driver and activity, and the last one.
    fn lines(&self, length: u64) -> Vec<[u64; 5]> {
        let mut lines = Vec::new();
        for (driver, activities) in &self.drivers {
            for (activity, ticks) in activities.iter().enumerate() {
                lines.push(line([1, *driver as u64, activity as u64], ticks * length));
            }
        }
        lines.push(line([0, 0, 0], self.unassigned * length));
        lines
    }
}

/// Driver and activity of a tick where both outputs show an Int and the activity
/// is 0 to 3.
fn assigned(driver: (i64, i64), activity: (i64, i64)) -> Option<(i64, usize)> {
    match (driver, activity) {
        ((1, driver), (1, activity @ 0..=3)) => Some((driver, activity as usize)),
        _ => None,
    }
}

fn line([first, driver, activity]: [u64; 3], milliseconds: u64) -> [u64; 5] {
    [first, driver, activity, milliseconds, minutes(milliseconds)]
}

/// Rounded to the nearest, the half upwards.
fn minutes(milliseconds: u64) -> u64 {
    (milliseconds + MINUTE / 2) / MINUTE
}

/// What a call is lent, with what it holds.
#[derive(Clone, Debug, PartialEq, Eq)]
pub struct Held {
    pub report: Vec<u8>,
    pub told: Vec<u64>,
}

impl Held {
    /// So many bytes and words, with this byte everywhere.
    pub fn filled(room: usize, told: usize, byte: u8) -> Self {
        Self { report: vec![byte; room], told: vec![u64::from_le_bytes([byte; 8]); told] }
    }
}

/// The number that the call answers, and what it leaves in what it is lent.
pub fn call(circuit: &[u8], log: &[u8], named: &Named, before: Held) -> (u8, Held) {
    let mut held = before;
    match hours(circuit, log, named, held.report.len()) {
        Err(number) => (number, held),
        Ok(report) => {
            leave(&report, &mut held);
            (0, held)
        }
    }
}

/// The report stands at the front of its buffer, and its bytes are told in the
/// first word, if there is one.
fn leave(report: &[u8], held: &mut Held) {
    held.report[..report.len()].copy_from_slice(report);
    if let Some(word) = held.told.first_mut() {
        *word = report.len() as u64;
    }
}
