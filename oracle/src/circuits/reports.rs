//! Hours per driver (document 02, K3): the stated logs, each with what is named
//! of it. Most are no run's: a log is asked whether it is whole records of the
//! circuit, not whether a run wrote it.

mod asked;
mod drivers;
mod fits;
mod forms;
mod heads;
mod long;
mod minutes;
mod named;
mod outputs;
mod played;
mod told;
mod units;

use crate::build::{Circuit, NOTHING, Record, bytes_of};
use crate::case::Report;
use crate::generate::report as random;
use crate::hours::Named;

/// How many random ones are stated.
const RANDOM: u64 = 40;

/// Every stated log with its circuit.
pub fn reports() -> Vec<Report> {
    let mut reports = asked::reports();
    reports.extend(heads::reports());
    reports.extend(units::reports());
    reports.extend(forms::reports());
    reports.extend(outputs::reports());
    reports.extend(named::reports());
    reports.extend(drivers::reports());
    reports.extend(minutes::reports());
    reports.extend(fits::reports());
    reports.extend(told::reports());
    reports.extend(played::reports());
    reports.extend(long::reports());
    reports.extend((0..RANDOM).map(random));
    reports
}

/// A report over the desk whose name begins with `report-`.
fn report(name: impl AsRef<str>, shows: impl Into<String>, log: Vec<u8>) -> Report {
    Report::new(format!("report-{}", name.as_ref()), shows, desk().bytes(), log, NAMED)
}

/// What is named of the desk, with ticks of a second.
const NAMED: Named = Named { driver: DRIVER as u64, activity: ACTIVITY as u64, length: 1_000 };

/// The desk: ChangeDetector 0, the Vars 1 and 2, and World 3. Its outputs are 0
/// OnChanged!, 1 Value, 2 Value, 3 ExecOut! and 4 Value.
fn desk() -> Circuit {
    let mut c = Circuit::new();
    c.change_detector(0, NOTHING);
    c.var(NOTHING);
    c.var(NOTHING);
    c.world_event(0);
    c
}

/// The desk's outputs, and those that show the driver and the activity.
const OUTPUTS: usize = 5;
const DRIVER: usize = 1;
const ACTIVITY: usize = 2;

/// Units of the desk: its ChangeDetector's, and its World's.
const FIRE: (i64, i64) = (0, 0);
const WORLD: (i64, i64) = (3, 2);

/// Kind and content of what an output shows.
type Shown = (i64, i64);

const NONE: Shown = (0, 0);

fn int(number: i64) -> Shown {
    (1, number)
}

/// A tick of the desk that shows this driver and this activity.
fn shows(tick: usize, driver: Shown, activity: Shown) -> Record {
    let mut outputs = vec![NONE; OUTPUTS];
    (outputs[DRIVER], outputs[ACTIVITY]) = (driver, activity);
    Record { head: [tick as i64, 0, 0, 0, 0, 0, 0], outputs, ..Record::default() }
}

/// A tick of driver 7 at work.
fn work(tick: usize) -> Record {
    shows(tick, int(7), int(2))
}

/// A record of a tick that was stopped.
fn stopped(tick: usize, stop: i64) -> Record {
    Record { head: [tick as i64, 0, 0, 0, 0, stop, 0], ..Record::default() }
}

/// A log of these records.
fn log(records: &[Record]) -> Vec<u8> {
    bytes_of(&records.iter().flat_map(Record::words).collect::<Vec<_>>())
}

/// A log of ticks that show these drivers and activities.
fn days(shown: &[(Shown, Shown)]) -> Vec<u8> {
    let ticks = shown.iter().zip(1..).map(|(&(driver, activity), tick)| shows(tick, driver, activity));
    log(&ticks.collect::<Vec<_>>())
}

/// 2 to this power.
const fn two(power: u32) -> i64 {
    1 << power
}

/// A number in words: as it is, or as a power of two and a little.
fn spelled(number: i64) -> String {
    for power in [32_u32, 60, 61, 62, 63] {
        let beyond = number.wrapping_sub(two(power));
        match beyond {
            0 => return format!("2^{power}"),
            1..=4_096 => return format!("2^{power}+{beyond}"),
            -1 if power == 63 => return "2^63-1".into(),
            _ => (),
        }
    }
    number.to_string()
}
