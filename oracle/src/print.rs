//! What document 01's program prints.

use crate::Answer;

/// The words of a record before its units begun.
const HEAD: usize = 7;
/// The most outputs of a circuit: 64 gates with 9 each.
const MOST_OUTPUTS: usize = 576;

/// The printed lines: the refusal, or each record and then the end.
/// `outputs` is how many outputs the circuit has.
pub fn lines(answer: &Answer, outputs: usize) -> String {
    match answer {
        Answer::Refused(number) => format!("refused {number}\n"),
        Answer::Played { log, stop, ticks } => {
            let records = records(log, outputs).expect("a log of whole records");
            let lines: String = records.into_iter().map(line).collect();
            format!("{lines}end {stop} {ticks}\n")
        }
    }
}

/// How many outputs the circuit has, from the answer alone: the one number
/// with which the log's words are the records of the ticks done, and of the one
/// stopped by 11 or 12.
pub fn outputs_of(answer: &Answer) -> usize {
    let Answer::Played { log, stop, ticks: ticks @ 1.. } = answer else { return 0 };
    let written = ticks + u64::from(matches!(stop, 11 | 12));
    let fits = |outputs| records(log, outputs).is_some_and(|records| records.len() as u64 == written);
    let mut fitting = (1..=MOST_OUTPUTS).filter(|&outputs| fits(outputs));
    let outputs = fitting.next().expect("a log of whole records");
    assert_eq!(fitting.next(), None, "the log can be read in two ways");
    outputs
}

fn line(record: &[i64]) -> String {
    let words: Vec<String> = record.iter().map(i64::to_string).collect();
    words.join(" ") + "\n"
}

/// The records of `log`, if it can be cut into them.
fn records(mut log: &[i64], outputs: usize) -> Option<Vec<&[i64]>> {
    let mut records = Vec::new();
    while !log.is_empty() {
        let &[tick, _, late, main, carried, stop, changed, ..] = log else { return None };
        let units = usize::try_from(late.checked_add(main)?.checked_add(carried)?).ok()?;
        let shown = if stop == 0 { outputs } else { 0 };
        let length = units.checked_add(shown)?.checked_mul(2)?.checked_add(HEAD)?;
        let whole = tick == records.len() as i64 + 1 && changed >= 0;
        if !whole || length > log.len() || stop != 0 && length != log.len() {
            return None;
        }
        let (record, rest) = log.split_at(length);
        records.push(record);
        log = rest;
    }
    Some(records)
}
