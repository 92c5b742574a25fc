//! A whole class in one call (document 02, K1): one circuit, and a book of up to
//! 16 scripts, each of them played as alone with its part of the log.
//!
//! A book has its count first, then the starts, then the lengths, and then the
//! scripts. Its words are of eight bytes, least first, and unsigned; starts and
//! lengths are in bytes, and starts count from the book's first byte.

use crate::{Answer, Lent, questions, run};

/// The most scripts of a book.
const SCRIPTS: u64 = 16;

/// What a class answers.
#[derive(Clone, Debug, PartialEq, Eq)]
pub enum ClassAnswer {
    /// The number of the first question answered no: one about the circuit or
    /// the areas, or 15.
    Refused(u8),
    /// What each script answers, in the book's order.
    Answered(Vec<Answer>),
}

/// Ask about the circuit, then about the book; then each script as alone, with
/// its part as its log. One whose span leaves the book is refused as 8.
pub fn class(circuit: &[u8], book: &[u8], lent: &Lent) -> ClassAnswer {
    if let Err(number) = questions::ask_circuit(circuit, Some(lent)) {
        return ClassAnswer::Refused(number);
    }
    let Some(spans) = spans(book) else { return ClassAnswer::Refused(15) };
    let alone = Lent { log: part(lent.log, spans.len()), ..lent.clone() };
    let mut answers = Vec::new();
    for span in spans {
        answers.push(match script(book, span) {
            Some(script) => run(circuit, script, &alone),
            None => Answer::Refused(8),
        });
    }
    ClassAnswer::Answered(answers)
}

/// Question 15: start and length of each script, if the count is 1 to 16 and
/// both arrays fit the book.
fn spans(book: &[u8]) -> Option<Vec<(u64, u64)>> {
    let words: Vec<u64> = book.as_chunks::<8>().0.iter().map(|word| u64::from_le_bytes(*word)).collect();
    let (&count, rest) = words.split_first()?;
    if !(1..=SCRIPTS).contains(&count) {
        return None;
    }
    let (starts, rest) = rest.split_at_checked(count as usize)?;
    let (lengths, _) = rest.split_at_checked(count as usize)?;
    Some(starts.iter().copied().zip(lengths.iter().copied()).collect())
}

/// The bytes of a span, unless it leaves the book.
fn script(book: &[u8], (start, length): (u64, u64)) -> Option<&[u8]> {
    let end = u128::from(start) + u128::from(length);
    if end > book.len() as u128 {
        return None;
    }
    Some(&book[start as usize..end as usize])
}

/// The bytes of each part: the log in equal parts, rounded down to whole words.
pub fn part(log: usize, scripts: usize) -> usize {
    log / (8 * scripts) * 8
}

/// What a call is lent, with what it holds.
#[derive(Clone, Debug, PartialEq, Eq)]
pub struct Held {
    pub log: Vec<u8>,
    pub values: Vec<u8>,
    pub units: Vec<u8>,
    pub delays: Vec<u8>,
    pub told: Vec<u64>,
}

impl Held {
    /// So much, with this byte everywhere.
    pub fn filled(lent: &Lent, told: usize, byte: u8) -> Self {
        let [log, values, units, delays] =
            [lent.log, lent.values, lent.units, lent.delays].map(|length| vec![byte; length]);
        Self { log, values, units, delays, told: vec![u64::from_le_bytes([byte; 8]); told] }
    }

    fn lent(&self) -> Lent {
        let Self { log, values, units, delays, .. } = self;
        Lent { log: log.len(), values: values.len(), units: units.len(), delays: delays.len() }
    }
}

/// The number that the call answers, and what it leaves in what it is lent.
pub fn call(circuit: &[u8], book: &[u8], before: Held) -> (u8, Held) {
    let mut held = before;
    match class(circuit, book, &held.lent()) {
        ClassAnswer::Refused(number) => (number, held),
        ClassAnswer::Answered(answers) => {
            leave(&answers, &mut held);
            (0, held)
        }
    }
}

/// Script k has its records at the front of part k and three words of `told`,
/// as far as there is room; the areas are zero once a script has been played.
fn leave(answers: &[Answer], held: &mut Held) {
    let part = part(held.log.len(), answers.len());
    for (k, answer) in answers.iter().enumerate() {
        let records = records(answer);
        held.log[k * part..][..records.len()].copy_from_slice(&records);
    }
    if answers.iter().any(|answer| matches!(answer, Answer::Played { .. })) {
        for area in [&mut held.values, &mut held.units, &mut held.delays] {
            area.fill(0);
        }
    }
    for (word, due) in held.told.iter_mut().zip(answers.iter().flat_map(told)) {
        *word = due;
    }
}

/// The bytes that a script writes to its part.
pub fn records(answer: &Answer) -> Vec<u8> {
    match answer {
        Answer::Refused(_) => Vec::new(),
        Answer::Played { log, .. } => log.iter().flat_map(|word| word.to_le_bytes()).collect(),
    }
}

/// What is told of a script: its refusal or its stop, the ticks done, and the
/// bytes of its records.
pub fn told(answer: &Answer) -> [u64; 3] {
    match *answer {
        Answer::Refused(number) => [number.into(), 0, 0],
        Answer::Played { ref log, stop, ticks } => [stop.into(), ticks, 8 * log.len() as u64],
    }
}
