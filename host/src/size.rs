//! How large a run can get: two figures of a circuit, without a run.

use std::fmt;

use crate::player::Answer;

unsafe extern "C" {
    fn hazhirun_size(
        circuit: *const u8,
        circuit_length: usize,
        ticks: u64,
        told: *mut u64,
        told_length: usize,
    ) -> u64;
}

/// The steps of a tick at the most; one more stops it with 11.
const MOST_STEPS: u64 = 50_000_000;

/// The two figures of a circuit. No run of it exceeds either, whatever its script.
#[derive(Clone, Copy, Debug, PartialEq, Eq)]
pub struct Size {
    /// The most steps that any one unit can cause, forks included.
    pub unit_steps: UnitSteps,
    /// The most bytes that the log of a run has, of as many ticks as were asked
    /// about: a log of so many bytes is never full.
    pub log_bytes: u64,
}

/// The most steps that any one unit can cause, counted as if every gate passed on
/// to all its calls.
#[derive(Clone, Copy, Debug, PartialEq, Eq)]
pub enum UnitSteps {
    /// At most so many, which a tick may make. Its other units make steps too.
    AtMost(u64),
    /// More than the 50,000,000 that a tick may make.
    MoreThanATick,
}

/// Why there are no figures.
#[derive(Clone, Copy, Debug, PartialEq, Eq)]
pub enum SizeError {
    /// The circuit's own refusal: 1 to 7 or 19.
    Circuit(u64),
    /// The calls form a ring, or the circuit has a Loop: 23.
    RingOrLoop,
    /// There are more than 100,000 ticks: 24.
    WrongTicks,
}

/// How large a run of a circuit can get, of so many ticks, 0 to 100,000.
///
/// ```
/// use hazhirun_host::{Size, SizeError, UnitSteps, size};
///
/// // A WorldEvent calls a Toggle, twice.
/// let words = |ws: &[u64]| ws.iter().flat_map(|w| w.to_le_bytes()).collect::<Vec<u8>>();
/// let circuit = words(&[2, 0, 1, 2, 28, 22, 0, 0, u64::MAX, 0, 0, 0, 0, 0]);
/// let figures = size(&circuit, 10).unwrap();
/// assert_eq!(figures, Size { unit_steps: UnitSteps::AtMost(2), log_bytes: 206_000 });
/// assert_eq!(figures.to_string(), "at most 2 steps a unit, at most 206000 bytes of log");
///
/// assert_eq!(size(&circuit, 100_001), Err(SizeError::WrongTicks));
/// ```
pub fn size(circuit: &[u8], ticks: u64) -> Result<Size, SizeError> {
    let mut told = [0; 2];
    // SAFETY: a slice goes to the proved function as its pointer and length,
    // and it is proved for all bytes and numbers. It writes to `told` alone.
    let number = unsafe {
        hazhirun_size(circuit.as_ptr(), circuit.len(), ticks, told.as_mut_ptr(), told.len())
    };
    decode(number, told)
}

/// The contract of `hazhirun_size` says which numbers there are (`numbers`,
/// crates/size/specs/Call.antt): 0, 1 to 7, 19, 23 and 24.
fn decode(number: u64, [steps, log_bytes]: [u64; 2]) -> Result<Size, SizeError> {
    match number {
        0 => Ok(Size { unit_steps: UnitSteps::from(steps), log_bytes }),
        23 => Err(SizeError::RingOrLoop),
        24 => Err(SizeError::WrongTicks),
        _ => Err(SizeError::Circuit(number)),
    }
}

impl From<u64> for UnitSteps {
    fn from(steps: u64) -> Self {
        if steps <= MOST_STEPS { UnitSteps::AtMost(steps) } else { UnitSteps::MoreThanATick }
    }
}

impl SizeError {
    /// The number that the call answers.
    pub fn number(self) -> u64 {
        match self {
            SizeError::Circuit(number) => number,
            SizeError::RingOrLoop => 23,
            SizeError::WrongTicks => 24,
        }
    }
}

impl fmt::Display for SizeError {
    fn fmt(&self, f: &mut fmt::Formatter<'_>) -> fmt::Result {
        Answer::Refused(self.number()).fmt(f)
    }
}

impl std::error::Error for SizeError {}

impl fmt::Display for UnitSteps {
    fn fmt(&self, f: &mut fmt::Formatter<'_>) -> fmt::Result {
        match self {
            UnitSteps::AtMost(1) => write!(f, "at most 1 step a unit"),
            UnitSteps::AtMost(steps) => write!(f, "at most {steps} steps a unit"),
            UnitSteps::MoreThanATick => write!(f, "more than {MOST_STEPS} steps a unit"),
        }
    }
}

impl fmt::Display for Size {
    fn fmt(&self, f: &mut fmt::Formatter<'_>) -> fmt::Result {
        write!(f, "{}, at most {} bytes of log", self.unit_steps, self.log_bytes)
    }
}
