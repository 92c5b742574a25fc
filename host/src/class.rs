//! A whole class in one call: the scripts of a book over one circuit.

use std::{fmt, iter};

use crate::player::{Answer, answer};

unsafe extern "C" {
    fn hazhirun_class(
        circuit: *const u8,
        circuit_length: usize,
        book: *const u8,
        book_length: usize,
        log: *mut u8,
        log_length: usize,
        values: *mut u8,
        values_length: usize,
        units: *mut u8,
        units_length: usize,
        delays: *mut u8,
        delays_length: usize,
        told: *mut u64,
        told_length: usize,
    ) -> u64;
}

/// The most scripts of a book.
const SCRIPTS: usize = 16;

/// What a class came to.
#[derive(Clone, Debug, PartialEq, Eq)]
pub enum ClassAnswer {
    /// The whole call is refused, with the number of the first question about
    /// the circuit and the areas whose answer is no, or else with 15. Log and
    /// areas are untouched.
    Refused(u64),
    /// What each script came to, in the book's order, as [`run`](crate::run)
    /// answers it with its part as the log. A refused one leaves its part
    /// untouched. The areas are zero once a script was played, else untouched.
    Answered(Vec<Answer>),
}

/// Plays up to 16 scripts over a circuit, each as alone.
///
/// [`book`] makes a book of scripts. The log is cut into equal parts of whole
/// words, one for each script; [`parts`] finds them. The areas are those of
/// [`run`](crate::run), lent once for all scripts.
///
/// ```
/// use hazhirun_host::{Answer, ClassAnswer, book, class, parts};
///
/// // One WorldEvent, as for `run`, and three scripts: of one tick, cut short,
/// // and of two ticks.
/// let words = |ws: &[u64]| ws.iter().flat_map(|w| w.to_le_bytes()).collect::<Vec<u8>>();
/// let circuit = words(&[1, 0, 0, 0, 28, 0]);
/// let l = 0.05_f64.to_bits();
/// let scripts = [words(&[1, 0, l, 0]), words(&[2, 0, l]), words(&[2, 0, l, l, 0, 0])];
/// let mut log = vec![0; 4096];
/// let mut areas = [vec![0; 65536], vec![0; 65536], vec![0; 65536]];
/// let [values, units, delays] = &mut areas;
/// let answer = class(&circuit, &book(&scripts), &mut log, values, units, delays);
/// let ClassAnswer::Answered(answers) = &answer else { panic!("{answer}") };
/// assert_eq!(answers[0], Answer::Played { stop: 0, ticks: 1, bytes: 88 });
/// assert_eq!(answers[1], Answer::Refused(8));
/// assert_eq!(answers[2], Answer::Played { stop: 0, ticks: 2, bytes: 176 });
/// assert_eq!(answer.to_string().lines().next(), Some("script 0: 1 tick played"));
///
/// // The records of the third script begin with their ticks.
/// let part = parts(&log, 3).nth(2).unwrap();
/// assert_eq!((part[0], part[88]), (1, 2));
/// ```
pub fn class(
    circuit: &[u8],
    book: &[u8],
    log: &mut [u8],
    values: &mut [u8],
    units: &mut [u8],
    delays: &mut [u8],
) -> ClassAnswer {
    let mut told = [[0; 3]; SCRIPTS];
    let words = told.as_flattened_mut();
    // SAFETY: a slice goes to the proved function as its pointer and length,
    // and it is proved for all bytes. The slices are apart, as Rust's rules ask
    // of `&mut`.
    let number = unsafe {
        hazhirun_class(
            circuit.as_ptr(),
            circuit.len(),
            book.as_ptr(),
            book.len(),
            log.as_mut_ptr(),
            log.len(),
            values.as_mut_ptr(),
            values.len(),
            units.as_mut_ptr(),
            units.len(),
            delays.as_mut_ptr(),
            delays.len(),
            words.as_mut_ptr(),
            words.len(),
        )
    };
    decode(number, book, &told)
}

/// The contract of `hazhirun_class` says which numbers there are (`numbers`,
/// crates/class/specs/Call.antt; `Class-answers`, crates/model/specs/Class.antt):
/// the call is refused with 1 to 7, 15 or 19, or it answers 0. Then the book has
/// 1 to 16 scripts, and of each are told its number, 0 or 8 to 13, the ticks done
/// and the bytes of its part that hold records.
fn decode(number: u64, book: &[u8], told: &[[u64; 3]; SCRIPTS]) -> ClassAnswer {
    if number != 0 {
        return ClassAnswer::Refused(number);
    }
    let each = told.iter().take(count(book));
    ClassAnswer::Answered(each.map(|&[n, ticks, bytes]| answer(n, ticks, bytes)).collect())
}

/// How many scripts a book says to hold.
fn count(book: &[u8]) -> usize {
    book.first_chunk().map_or(0, |&word| u64::from_le_bytes(word) as usize)
}

/// A book of these scripts, one behind the other. One of no script or of more
/// than 16 is made like any other, and [`class`] refuses it with 15.
pub fn book<S: AsRef<[u8]>>(scripts: &[S]) -> Vec<u8> {
    let n = scripts.len();
    let lengths = scripts.iter().map(|script| script.as_ref().len());
    let starts = lengths.clone().scan(8 * (1 + 2 * n), |end, length| {
        *end += length;
        Some(*end - length)
    });
    let words = iter::once(n).chain(starts).chain(lengths);
    let mut book: Vec<u8> = words.flat_map(|word| (word as u64).to_le_bytes()).collect();
    scripts.iter().for_each(|script| book.extend(script.as_ref()));
    book
}

/// The parts of a log that so many scripts are given, in the book's order: equal
/// ones, of whole words. What lies behind them is no script's.
pub fn parts(log: &[u8], scripts: usize) -> impl Iterator<Item = &[u8]> {
    let size = log.len().checked_div(scripts).unwrap_or(0) / 8 * 8;
    (0..scripts).map(move |k| &log[k * size..][..size])
}

/// A line for each script, counted from 0.
impl fmt::Display for ClassAnswer {
    fn fmt(&self, f: &mut fmt::Formatter<'_>) -> fmt::Result {
        match self {
            ClassAnswer::Refused(n) => Answer::Refused(*n).fmt(f),
            ClassAnswer::Answered(answers) => {
                let line = |(k, answer): (usize, &Answer)| format!("script {k}: {answer}");
                let lines: Vec<String> = answers.iter().enumerate().map(line).collect();
                f.write_str(&lines.join("\n"))
            }
        }
    }
}
