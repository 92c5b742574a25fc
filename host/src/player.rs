//! The functions of the Rattle crate `player`.

use std::fmt;

unsafe extern "C" {
    fn hazhirun_check(
        circuit: *const u8,
        circuit_length: usize,
        script: *const u8,
        script_length: usize,
    ) -> u64;

    fn hazhirun_run(
        circuit: *const u8,
        circuit_length: usize,
        script: *const u8,
        script_length: usize,
        log: *mut u8,
        log_length: usize,
        values: *mut u8,
        values_length: usize,
        units: *mut u8,
        units_length: usize,
        delays: *mut u8,
        delays_length: usize,
        told: *mut u64,
        told_length: usize,
    ) -> u64;
}

/// The number of the first question whose answer is no for a call that is lent
/// no areas, or 0.
pub fn check(circuit: &[u8], script: &[u8]) -> u64 {
    // SAFETY: a slice goes to the proved function as its pointer and length,
    // and it is proved for all bytes. It only reads them.
    unsafe { hazhirun_check(circuit.as_ptr(), circuit.len(), script.as_ptr(), script.len()) }
}

/// What a run came to.
#[derive(Clone, Copy, Debug, PartialEq, Eq)]
pub enum Answer {
    /// Refused, with the number of the first question whose answer is no. Log
    /// and areas are untouched.
    Refused(u64),
    /// Played. The first `bytes` bytes of the log hold the records, its rest is
    /// untouched, and the areas are zero.
    Played {
        /// 0 for a run to the script's end, or the stop: 11, 12 or 13.
        stop: u64,
        /// The records with stop 0.
        ticks: u64,
        /// The bytes of the log that hold records.
        bytes: usize,
    },
}

/// Plays a script over a circuit.
///
/// The areas `values` and `units` are of at least 65,536 bytes, `delays` of as
/// many for each Queue of the circuit, and for none; else the call is refused
/// with 7. What they hold does not matter.
///
/// ```
/// use hazhirun_host::{Answer, run};
///
/// // One WorldEvent of rank 0 without constants, inputs and calls, and a
/// // script of one tick of 0.05 s without stimuli.
/// let words = |ws: &[u64]| ws.iter().flat_map(|w| w.to_le_bytes()).collect::<Vec<u8>>();
/// let circuit = words(&[1, 0, 0, 0, 28, 0]);
/// let script = words(&[1, 0, 0.05_f64.to_bits(), 0]);
/// let mut log = vec![0; 4096];
/// let mut areas = [vec![0; 65536], vec![0; 65536], vec![0; 65536]];
/// let [values, units, delays] = &mut areas;
/// let answer = run(&circuit, &script, &mut log, values, units, delays);
/// assert_eq!(answer, Answer::Played { stop: 0, ticks: 1, bytes: 88 });
/// assert_eq!(answer.to_string(), "1 tick played");
/// ```
pub fn run(
    circuit: &[u8],
    script: &[u8],
    log: &mut [u8],
    values: &mut [u8],
    units: &mut [u8],
    delays: &mut [u8],
) -> Answer {
    let mut told = [0; 2];
    // SAFETY: a slice goes to the proved function as its pointer and length,
    // and it is proved for all bytes. The slices are apart, as Rust's rules ask
    // of `&mut`.
    let number = unsafe {
        hazhirun_run(
            circuit.as_ptr(),
            circuit.len(),
            script.as_ptr(),
            script.len(),
            log.as_mut_ptr(),
            log.len(),
            values.as_mut_ptr(),
            values.len(),
            units.as_mut_ptr(),
            units.len(),
            delays.as_mut_ptr(),
            delays.len(),
            told.as_mut_ptr(),
            told.len(),
        )
    };
    let [ticks, bytes] = told;
    answer(number, ticks, bytes)
}

/// A script's answer from what is told of it. The contracts of `hazhirun_run` and
/// `hazhirun_class` say which numbers there are: 1 to 10 and 19 for a refusal, 0
/// and 11 to 13 for a run (`numbers`, crates/model/specs/Promises.antt).
pub(crate) fn answer(number: u64, ticks: u64, bytes: u64) -> Answer {
    match number {
        1..=10 | 19 => Answer::Refused(number),
        stop => Answer::Played { stop, ticks, bytes: bytes as usize },
    }
}

/// What a number says: a question that refuses a call, or a stop.
pub fn text(number: u64) -> &'static str {
    match number {
        1 => "the circuit is not of whole words, or its sizes are out of range",
        2 => "a constant is none",
        3 => "a gate has no kind or rank, or the inputs are not those of the gates",
        4 => "an input has a source or a constant that it may not have",
        5 => "a call does not go from an exec output to an exec input",
        6 => "pure gates read each other in a ring",
        7 => "there are more than 8 Queues, or an area is too small",
        8 => "the script is not of whole words, its sizes are out of range, or it leaves its book",
        9 => "a tick's length or its number of stimuli is out of range",
        10 => "a stimulus has a gate that is no WorldEvent, or no constant",
        11 => "a tick makes more steps than it may",
        12 => "a list is full",
        13 => "a record does not fit the log",
        15 => "the book has not 1 to 16 scripts, or is too short for their starts and lengths",
        16 => "the log is not whole records of this circuit, or not cut to the bytes told",
        17 => "the driver or the activity is no value output, or a tick is not 1 to 60,000 ms long",
        18 => "the report does not fit, or there are more than 32 drivers",
        19 => "a call leaves its body, a Loop has no entry of its own, or bodies form a ring",
        23 => "the calls form a ring, or the circuit has a Loop",
        24 => "there are more than 100,000 ticks",
        _ => "no such number",
    }
}

impl fmt::Display for Answer {
    fn fmt(&self, f: &mut fmt::Formatter<'_>) -> fmt::Result {
        let ticks = |n: u64| if n == 1 { "1 tick".to_string() } else { format!("{n} ticks") };
        match *self {
            Answer::Refused(n) => write!(f, "refused by question {n}: {}", text(n)),
            Answer::Played { stop: 0, ticks: n, .. } => write!(f, "{} played", ticks(n)),
            Answer::Played { stop, ticks: n, .. } => {
                write!(f, "stopped by {stop} after {}: {}", ticks(n), text(stop))
            }
        }
    }
}
