//! The classes as bytes, for the program `replay` (crates/replay/data).
//!
//! First how many classes there are. Then each class: the bytes lent for log,
//! values, units and delays; the words lent for what is told; the number that
//! the call has to answer; whether the areas have to be zero afterwards (1) or
//! untouched (0); the lengths of circuit and book in bytes; how many words are
//! told, the bytes of each part of the log, how many parts there are, and the
//! bytes of all records together, these four 0 where the call is refused. Then
//! the words of circuit and book, a last one filled up with zeros; the words
//! told; and for each script the bytes of its records and their words. A word is
//! as in the runs.
//!
//! Before the call every byte of log and areas is 165, and every word for what
//! is told is eight such bytes.

use crate::Answer;
use crate::circuits::{self, Class};
use crate::class::{self, ClassAnswer};
use crate::runs::{DELAYS, ROOM, TOLD, filled, word};

/// The classes that are packed, and the names of those that are left out.
pub struct Classes {
    pub packed: Vec<Class>,
    pub left_out: Vec<String>,
}

/// Every stated class, in order, if the program has room for it.
pub fn classes() -> Classes {
    let (packed, left_out): (Vec<Class>, Vec<Class>) = circuits::classes().into_iter().partition(fits);
    Classes { packed, left_out: left_out.into_iter().map(|class| class.name).collect() }
}

/// The classes, packed.
pub fn pack(classes: &Classes) -> Vec<u8> {
    let words = [classes.packed.len() as u64].into_iter().chain(classes.packed.iter().flat_map(words));
    words.flat_map(word).collect()
}

/// What the program `replay` prints where every class comes out as it has to.
pub fn printed(classes: &Classes) -> String {
    format!("{} classes, 0 differ\n", classes.packed.len())
}

/// The words of a class.
fn words(one: &Class) -> Vec<u64> {
    let (number, answers) = match one.answer() {
        ClassAnswer::Refused(number) => (number, Vec::new()),
        ClassAnswer::Answered(answers) => (0, answers),
    };
    let played = answers.iter().any(|answer| matches!(answer, Answer::Played { .. }));
    let told: Vec<u64> = answers.iter().flat_map(class::told).take(one.told).collect();
    let part = if answers.is_empty() { 0 } else { class::part(one.lent.log, answers.len()) };
    let records: Vec<Vec<u8>> = answers.iter().map(class::records).collect();
    let all: usize = records.iter().map(Vec::len).sum();
    let mut words = lent(one).map(|length| length as u64).to_vec();
    words.extend([u64::from(number), u64::from(played)]);
    words.extend([one.circuit.len(), one.book.len(), told.len(), part, answers.len(), all].map(|n| n as u64));
    words.extend(filled(&one.circuit));
    words.extend(filled(&one.book));
    words.extend(told);
    for records in records {
        words.push(records.len() as u64);
        words.extend(filled(&records));
    }
    words
}

/// The bytes lent for log, values, units and delays, and the words for what is
/// told.
pub fn lent(class: &Class) -> [usize; 5] {
    let lent = &class.lent;
    [lent.log, lent.values, lent.units, lent.delays, class.told]
}

fn fits(class: &Class) -> bool {
    let [log, values, units, delays, told] = lent(class);
    let lengths = [log, values, units, class.circuit.len(), class.book.len()];
    lengths.into_iter().all(|length| length <= ROOM) && delays <= DELAYS && told <= TOLD
}
