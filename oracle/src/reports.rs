//! The reports as bytes, for the program `replay` (crates/replay/data).
//!
//! First how many reports there are. Then each report: the outputs named for
//! driver and activity, and the length; the bytes lent for the report and the
//! words lent for what is told; the number that the call has to answer; the
//! lengths of circuit, log and report in bytes, the last of them 0 where the call
//! is refused. Then the words of these three, a last one filled up with zeros. A
//! word is as in the runs.
//!
//! Before the call every byte for the report is 165, and every word for what is
//! told is eight such bytes. Afterwards the report stands at the front, and all
//! behind it is as it was; of what is told the first word, if there is one, is
//! the length of the report. Where the call is refused, all is as it was.

use crate::circuits::{self, Report};
use crate::runs::{ROOM, TOLD, filled, word};

/// What the program has room for of a report.
pub const REPORT: usize = 8_192;

/// The reports that are packed, and the names of those that are left out.
pub struct Reports {
    pub packed: Vec<Report>,
    pub left_out: Vec<String>,
}

/// Every stated report, in order, if the program has room for it.
pub fn reports() -> Reports {
    let (packed, left_out): (Vec<Report>, Vec<Report>) = circuits::reports().into_iter().partition(fits);
    Reports { packed, left_out: left_out.into_iter().map(|report| report.name).collect() }
}

/// The reports, packed.
pub fn pack(reports: &Reports) -> Vec<u8> {
    let words = [reports.packed.len() as u64].into_iter().chain(reports.packed.iter().flat_map(words));
    words.flat_map(word).collect()
}

/// What the program `replay` prints where every report comes out as it has to.
pub fn printed(reports: &Reports) -> String {
    format!("{} reports, 0 differ\n", reports.packed.len())
}

/// The words of a report.
fn words(one: &Report) -> Vec<u64> {
    let (number, report) = match one.answer() {
        Err(number) => (number, Vec::new()),
        Ok(report) => (0, report),
    };
    let mut words = asked(one).to_vec();
    words.push(number.into());
    words.extend([one.circuit.len(), one.log.len(), report.len()].map(|length| length as u64));
    for bytes in [&one.circuit, &one.log, &report] {
        words.extend(filled(bytes));
    }
    words
}

/// What is named, the bytes lent for the report, and the words for what is told.
pub fn asked(report: &Report) -> [u64; 5] {
    let named = &report.named;
    [named.driver, named.activity, named.length, report.room as u64, report.told as u64]
}

fn fits(report: &Report) -> bool {
    let lengths = [report.circuit.len(), report.log.len()];
    lengths.into_iter().all(|length| length <= ROOM) && report.room <= REPORT && report.told <= TOLD
}
