//! Hours per driver: a report on a finished log.

use std::fmt;

use crate::player::Answer;

unsafe extern "C" {
    fn hazhirun_hours(
        circuit: *const u8,
        circuit_length: usize,
        log: *const u8,
        log_length: usize,
        driver: u64,
        activity: u64,
        length: u64,
        report: *mut u8,
        report_length: usize,
        told: *mut u64,
        told_length: usize,
    ) -> u64;
}

/// The most drivers of a report.
const DRIVERS: usize = 32;

/// The activities of a driver, from 0 up.
const ACTIVITIES: usize = 4;

/// The words of a line: 1, driver, activity, milliseconds, minutes. The last line
/// has 0 0 0 first.
const LINE: usize = 5;

/// The most bytes of a report: the four lines of each driver, and the last line.
pub const REPORT_BYTES: usize = 8 * LINE * (ACTIVITIES * DRIVERS + 1);

/// A time, exactly and in minutes.
#[derive(Clone, Copy, Debug, PartialEq, Eq)]
pub struct Spent {
    pub milliseconds: u64,
    /// The milliseconds to the nearest minute, the half upwards.
    pub minutes: u64,
}

/// What a driver spent in each activity.
#[derive(Clone, Debug, PartialEq, Eq)]
pub struct DriverHours {
    /// The Int that the driver's output shows.
    pub driver: i64,
    /// The activities 0 to 3, also those in which no time was spent.
    pub activities: [Spent; ACTIVITIES],
}

/// The hours per driver of a log. All milliseconds together are the ticks read
/// times their length.
#[derive(Clone, Debug, PartialEq, Eq)]
pub struct Report {
    /// In order of first appearance.
    pub drivers: Vec<DriverHours>,
    /// The ticks in which driver or activity shows no Int, or the activity is not
    /// 0 to 3.
    pub unassigned: Spent,
}

/// Why there is no report.
#[derive(Clone, Copy, Debug, PartialEq, Eq)]
pub enum HoursError {
    /// The circuit's own refusal: 1 to 7 or 19.
    Circuit(u64),
    /// The log is not whole records of this circuit: 16.
    NotWhole,
    /// The driver or the activity is no value output of the circuit, or a tick is
    /// not 1 to 60,000 milliseconds long: 17.
    WrongNames,
    /// There is a 33rd driver: 18.
    TooManyDrivers,
    /// The report does not fit the bytes that are lent for it, or there is a 33rd
    /// driver: 18 where fewer than [`REPORT_BYTES`] are lent.
    NoRoom,
}

/// The report on a finished log: the time of each driver in each activity.
///
/// The outputs numbered `driver` and `activity` show whose each tick is, and a
/// tick is `length` milliseconds long, 1 to 60,000. A stopped record is no tick.
///
/// The log has to be cut to the bytes that the run told ([`Answer::Played`]):
/// with anything behind its records it is not whole, and refused.
///
/// ```
/// use hazhirun_host::{Answer, HoursError, Spent, hours, run};
///
/// // A WorldEvent is the card slot, whose Value is output 1; a Var, output 2,
/// // shows the Int 3. Three ticks; in the second card 7 is put in.
/// let words = |ws: &[u64]| ws.iter().flat_map(|w| w.to_le_bytes()).collect::<Vec<u8>>();
/// let circuit = words(&[2, 2, 1, 0, 1, 1, 7, 3, 28, 5, 0, 0, u64::MAX, 2]);
/// let l = 30_f64.to_bits();
/// let script = words(&[3, 1, l, l, l, 0, 1, 0, 0, 1]);
/// let mut log = vec![0; 4096];
/// let mut areas = [vec![0; 65536], vec![0; 65536], vec![0; 65536]];
/// let [values, units, delays] = &mut areas;
/// let answer = run(&circuit, &script, &mut log, values, units, delays);
/// let Answer::Played { bytes, .. } = answer else { panic!("{answer}") };
///
/// let report = hours(&circuit, &log[..bytes], 1, 2, 30_000).unwrap();
/// assert_eq!(report.drivers[0].driver, 7);
/// assert_eq!(report.drivers[0].activities[3], Spent { milliseconds: 60_000, minutes: 1 });
/// assert_eq!(
///     report.to_string(),
///     "driver 7, activity 0: 0 ms, 0 min\n\
///      driver 7, activity 1: 0 ms, 0 min\n\
///      driver 7, activity 2: 0 ms, 0 min\n\
///      driver 7, activity 3: 60000 ms, 1 min\n\
///      unassigned: 30000 ms, 1 min",
/// );
///
/// // The log as it was lent, and an output that makes calls.
/// assert_eq!(hours(&circuit, &log, 1, 2, 30_000), Err(HoursError::NotWhole));
/// assert_eq!(hours(&circuit, &log[..bytes], 0, 2, 30_000), Err(HoursError::WrongNames));
/// ```
pub fn hours(
    circuit: &[u8],
    log: &[u8],
    driver: u64,
    activity: u64,
    length: u64,
) -> Result<Report, HoursError> {
    let mut report = [0; REPORT_BYTES];
    let bytes = hours_into(circuit, log, driver, activity, length, &mut report)?;
    Ok(read(&report[..bytes]))
}

/// The report of [`hours`] as words in bytes that are lent for it: how many of
/// them it has, the first ones. The others stay as they were, and all do where
/// there is none.
///
/// A line is five words, 1, driver, activity, milliseconds, minutes, four lines
/// for each driver; the last line has 0 0 0 first. A report of n drivers takes
/// 160 n + 40 bytes.
pub fn hours_into(
    circuit: &[u8],
    log: &[u8],
    driver: u64,
    activity: u64,
    length: u64,
    report: &mut [u8],
) -> Result<usize, HoursError> {
    let mut told = [0];
    // SAFETY: a slice goes to the proved function as its pointer and length,
    // and it is proved for all bytes and numbers. The slices that it writes to
    // are apart from the others, as Rust's rules ask of `&mut`.
    let number = unsafe {
        hazhirun_hours(
            circuit.as_ptr(),
            circuit.len(),
            log.as_ptr(),
            log.len(),
            driver,
            activity,
            length,
            report.as_mut_ptr(),
            report.len(),
            told.as_mut_ptr(),
            told.len(),
        )
    };
    decode(number, told[0], report.len())
}

/// The contract of `hazhirun_hours` says which numbers there are (`numbers`,
/// crates/hours/specs/Call.antt): 0, 1 to 7, and 16 to 19.
fn decode(number: u64, bytes: u64, room: usize) -> Result<usize, HoursError> {
    match number {
        0 => Ok(bytes as usize),
        16 => Err(HoursError::NotWhole),
        17 => Err(HoursError::WrongNames),
        18 if room < REPORT_BYTES => Err(HoursError::NoRoom),
        18 => Err(HoursError::TooManyDrivers),
        _ => Err(HoursError::Circuit(number)),
    }
}

/// The report that these bytes are: four lines for each driver, and the last.
fn read(bytes: &[u8]) -> Report {
    let words = bytes.as_chunks().0.iter().map(|&word| u64::from_le_bytes(word));
    let words: Vec<u64> = words.collect();
    let (last, lines) = words.as_chunks::<LINE>().0.split_last().expect("a last line");
    let of_driver = |four: &[[u64; LINE]; ACTIVITIES]| {
        let [_, driver, ..] = four[0];
        DriverHours { driver: driver as i64, activities: four.map(spent) }
    };
    let drivers = lines.as_chunks().0.iter().map(of_driver).collect();
    Report { drivers, unassigned: spent(*last) }
}

/// The time that a line gives.
fn spent([.., milliseconds, minutes]: [u64; LINE]) -> Spent {
    Spent { milliseconds, minutes }
}

impl HoursError {
    /// The number that the call answers.
    pub fn number(self) -> u64 {
        match self {
            HoursError::Circuit(number) => number,
            HoursError::NotWhole => 16,
            HoursError::WrongNames => 17,
            HoursError::TooManyDrivers | HoursError::NoRoom => 18,
        }
    }
}

impl fmt::Display for HoursError {
    fn fmt(&self, f: &mut fmt::Formatter<'_>) -> fmt::Result {
        match self {
            HoursError::TooManyDrivers => {
                write!(f, "refused by question 18: there are more than {DRIVERS} drivers")
            }
            other => Answer::Refused(other.number()).fmt(f),
        }
    }
}

impl std::error::Error for HoursError {}

impl fmt::Display for Spent {
    fn fmt(&self, f: &mut fmt::Formatter<'_>) -> fmt::Result {
        write!(f, "{} ms, {} min", self.milliseconds, self.minutes)
    }
}

/// A line for each activity.
impl fmt::Display for DriverHours {
    fn fmt(&self, f: &mut fmt::Formatter<'_>) -> fmt::Result {
        let line = |(activity, spent): (usize, &Spent)| {
            format!("driver {}, activity {activity}: {spent}", self.driver)
        };
        let lines: Vec<String> = self.activities.iter().enumerate().map(line).collect();
        f.write_str(&lines.join("\n"))
    }
}

/// A line for each driver and activity, and the last one.
impl fmt::Display for Report {
    fn fmt(&self, f: &mut fmt::Formatter<'_>) -> fmt::Result {
        self.drivers.iter().try_for_each(|driver| writeln!(f, "{driver}"))?;
        write!(f, "unassigned: {}", self.unassigned)
    }
}
