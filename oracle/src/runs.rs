//! The runs as bytes, for the program `replay` (crates/replay/data).
//!
//! First how many runs there are. Then each run: the bytes lent for log,
//! values, units and delays, the stop and the ticks that have to be answered,
//! the lengths of circuit, script and records, and the words of these three.
//! A word is a byte that says how many follow, and these, least first; bytes
//! that would be 0 at its end are left out.

use crate::circuits::{Case, groups};
use crate::{Answer, run};

/// What the program has room for: each buffer but that of delays.
pub const ROOM: usize = 262_144;

/// What it has room for in delays.
pub const DELAYS: usize = 524_288;

/// What a program has room for of words told.
pub const TOLD: usize = 64;

/// A stated circuit that is played, and what has to come of it.
pub struct Run {
    pub case: Case,
    pub records: Vec<u8>,
    pub stop: u8,
    pub ticks: u64,
}

/// The runs that are packed, and the names of those that are left out.
pub struct Runs {
    pub packed: Vec<Run>,
    pub left_out: Vec<String>,
}

/// Every stated case that is played, in order, if the program has room for it.
pub fn runs() -> Runs {
    let mut runs = Runs { packed: Vec::new(), left_out: Vec::new() };
    for case in groups().into_iter().flat_map(|group| group.cases) {
        let Answer::Played { log, stop, ticks } = run(&case.circuit, &case.script, &case.lent) else { continue };
        let records = log.iter().flat_map(|word| word.to_le_bytes()).collect();
        let one = Run { case, records, stop, ticks };
        if fits(&one) {
            runs.packed.push(one);
        } else {
            runs.left_out.push(one.case.name);
        }
    }
    runs
}

/// The runs, packed.
pub fn pack(runs: &Runs) -> Vec<u8> {
    let mut bytes = word(runs.packed.len() as u64);
    for run in &runs.packed {
        for length in lent(run) {
            bytes.extend(word(length as u64));
        }
        bytes.extend(word(run.stop.into()));
        bytes.extend(word(run.ticks));
        for part in parts(run) {
            bytes.extend(word(part.len() as u64));
        }
        for part in parts(run) {
            let (words, rest) = part.as_chunks::<8>();
            assert!(rest.is_empty(), "{}: what is played is whole words", run.case.name);
            bytes.extend(words.iter().flat_map(|w| word(u64::from_le_bytes(*w))));
        }
    }
    bytes
}

/// What the program `replay` prints where every run comes out as it has to.
pub fn printed(runs: &Runs) -> String {
    format!("{} played, 0 differ\n", runs.packed.len())
}

/// The bytes lent for log, values, units and delays.
pub fn lent(run: &Run) -> [usize; 4] {
    let lent = &run.case.lent;
    [lent.log, lent.values, lent.units, lent.delays]
}

/// Circuit, script and records.
pub fn parts(run: &Run) -> [&[u8]; 3] {
    [&run.case.circuit, &run.case.script, &run.records]
}

fn fits(run: &Run) -> bool {
    let Case { lent, .. } = &run.case;
    let lengths = [lent.log, lent.values, lent.units].into_iter();
    let mut lengths = lengths.chain(parts(run).map(<[u8]>::len));
    lengths.all(|length| length <= ROOM) && lent.delays <= DELAYS
}

pub(crate) fn word(number: u64) -> Vec<u8> {
    let bytes = number.to_le_bytes();
    let count = 8 - number.leading_zeros() as usize / 8;
    [&[count as u8], &bytes[..count]].concat()
}

/// Bytes as words, the last one filled up with zeros.
pub(crate) fn filled(bytes: &[u8]) -> impl Iterator<Item = u64> {
    bytes.chunks(8).map(|some| some.iter().rev().fold(0, |word, &byte| word << 8 | u64::from(byte)))
}
