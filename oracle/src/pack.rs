//! The questions as bytes, for the program `asked` (crates/asked/data).
//!
//! First how many cases there are. Then each case: what `check` has to answer
//! and what `refusal` has to, the bytes lent for values, units and delays, the
//! circuit's length and its bytes, the script's length and its bytes. A number
//! is a word of eight bytes, least first.

use crate::check;
use crate::circuits::{Case, groups};
use crate::questions::ask;
use crate::vectors::is_whole;

/// What the program has room for: a circuit, a script.
pub const ROOM: usize = 65_536;

/// The group of the random cases.
const RANDOM: &str = "families";

/// How many of them are taken that are not refused.
const TAKEN: usize = 32;

/// The cases, packed.
pub fn pack() -> Vec<u8> {
    let cases = cases();
    let mut bytes = word(cases.len());
    for case in &cases {
        bytes.extend(word(check(&case.circuit, &case.script).into()));
        bytes.extend(word(refusal(case).into()));
        for length in [case.lent.values, case.lent.units, case.lent.delays] {
            bytes.extend(word(length));
        }
        for part in [&case.circuit, &case.script] {
            bytes.extend(word(part.len()));
            bytes.extend(part);
        }
    }
    bytes
}

/// What the program `asked` prints of the cases where every answer is right: a case counts
/// under the number that a call with its areas is refused with.
pub fn printed() -> String {
    let cases = cases();
    let right = |number: u8| cases.iter().filter(|case| refusal(case) == number).count();
    let numbers = (0..=10).chain([19]);
    let lines: String = numbers.map(|number| format!("{number}: {} right\n", right(number))).collect();
    format!("{lines}{} asked, 0 wrong\n", cases.len())
}

/// Every stated case that is refused, every one that is not and is not random,
/// and random ones at even distances. A case that the vectors do not give whole
/// is left out.
pub fn cases() -> Vec<Case> {
    let (mut refused, mut others, mut random) = (Vec::new(), Vec::new(), Vec::new());
    for group in groups() {
        for case in group.cases.into_iter().filter(is_given_whole) {
            match refusal(&case) {
                0 if group.name == RANDOM => random.push(case),
                0 => others.push(case),
                _ => refused.push(case),
            }
        }
    }
    others.extend((0..TAKEN).map(|k| random[k * random.len() / TAKEN].clone()));
    refused.extend(others);
    refused
}

/// What a call that is lent areas is refused with, or 0.
fn refusal(case: &Case) -> u8 {
    ask(&case.circuit, &case.script, Some(&case.lent)).err().unwrap_or(0)
}

fn is_given_whole(case: &Case) -> bool {
    is_whole(&case.circuit) && is_whole(&case.script)
}

fn word(number: usize) -> Vec<u8> {
    (number as u64).to_le_bytes().to_vec()
}
