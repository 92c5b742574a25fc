//! Milliseconds of a report of hours per driver beside the oracle's plain version,
//! and beside one reading of all the log's words, which is the limit: the logs of
//! a tanker, of up to 100,000 ticks, as they are and with 32 drivers by turns, and
//! one of short records. `cargo run --offline --release --example hours_cost`.
//!
//! `hours_cost TICKS` makes one report of the tanker's log and prints its records,
//! for a tool that counts its instructions; `hours_cost TICKS 32` with 32 drivers.

mod common;
mod scripts;

use std::hint::black_box;

use common::least;
use hazhirun_host::{Answer, REPORT_BYTES, hours_into, run};
use oracle::build::{Circuit, NOTHING, bytes_of};
use oracle::circuits::{self, Case};
use oracle::hours::{self as theirs, Named};
use scripts::first_ticks;

/// The most ticks of a log.
const TICKS: usize = 100_000;

/// The bytes lent for a log: enough for the most ticks of the tanker.
const LOG: usize = 1 << 28;

const DRIVERS: u64 = 32;

/// A finished log and what is named of it.
struct Finished {
    name: String,
    circuit: Vec<u8>,
    log: Vec<u8>,
    ticks: usize,
    named: Named,
}

impl Finished {
    /// The bytes of the report.
    fn ours(&self, report: &mut [u8]) -> usize {
        let Named { driver, activity, length } = self.named;
        hours_into(&self.circuit, &self.log, driver, activity, length, report).expect("a report")
    }

    fn theirs(&self) -> Vec<u8> {
        theirs::hours(&self.circuit, &self.log, &self.named, REPORT_BYTES).expect("a report")
    }

    /// All words, added.
    fn sum(&self) -> u64 {
        let words = self.log.as_chunks().0.iter().map(|&word| u64::from_le_bytes(word));
        words.fold(0, u64::wrapping_add)
    }

    /// The same log with other drivers and activities, by turns.
    fn with_drivers(mut self) -> Self {
        self.name += ", 32 drivers";
        let outputs = outputs(&self.circuit);
        let mut at = 0;
        for tick in 0..self.ticks as u64 {
            let [late, main, carried] = [2, 3, 4].map(|k| word(&self.log, at + k) as usize);
            let kinds = at + 7 + 2 * (late + main + carried);
            let contents = kinds + outputs;
            let Named { driver, activity, .. } = self.named;
            let shown = [(driver, tick % DRIVERS), (activity, tick / DRIVERS % 4)];
            for (output, content) in shown.map(|(output, content)| (output as usize, content)) {
                put(&mut self.log, kinds + output, 1);
                put(&mut self.log, contents + output, content);
            }
            at = contents + outputs;
        }
        assert_eq!(8 * at, self.log.len());
        self
    }
}

fn word(log: &[u8], k: usize) -> u64 {
    u64::from_le_bytes(*log[8 * k..].first_chunk().expect("a word"))
}

fn put(log: &mut [u8], k: usize, word: u64) {
    log[8 * k..][..8].copy_from_slice(&word.to_le_bytes());
}

/// How many outputs a circuit has.
fn outputs(circuit: &[u8]) -> usize {
    oracle::questions::ask_circuit(circuit, None).expect("a circuit").outputs.len()
}

/// The driver of the tanker's first slot, and the activity of that slot.
const SLOT: Named = Named { driver: 6, activity: 22, length: 1_000 };

/// The log of a tanker that plays its script again and again.
fn tanker(ticks: usize) -> Finished {
    let case = circuits::all().into_iter().find(|case| case.name == "vehicle-tanker");
    let case = first_ticks(&again(&case.expect("a stated circuit")), ticks);
    let mut log = vec![0; LOG];
    let lent = [case.lent.values, case.lent.units, case.lent.delays];
    let [mut values, mut units, mut delays] = lent.map(|length| vec![0; length]);
    let answer = run(&case.circuit, &case.script, &mut log, &mut values, &mut units, &mut delays);
    let Answer::Played { stop: 0, bytes, .. } = answer else { panic!("{answer}") };
    log.truncate(bytes);
    Finished { name: format!("tanker ({ticks})"), circuit: case.circuit, log, ticks, named: SLOT }
}

/// The case with its script as often as the most ticks have room for it.
fn again(case: &Case) -> Case {
    let (words, _) = case.script.as_chunks();
    let words: Vec<i64> = words.iter().map(|&word| i64::from_le_bytes(word)).collect();
    let (t, s) = (words[0] as usize, words[1] as usize);
    let times = TICKS / t;
    let mut script = vec![(times * t) as i64, (times * s) as i64];
    let mut at = 2;
    for length in [t, t, s, s] {
        script.extend(words[at..][..length].repeat(times));
        at += length;
    }
    Case { script: bytes_of(&script), ..case.clone() }
}

/// Two Vars, in records of eleven words.
fn short(ticks: usize) -> Finished {
    let mut c = Circuit::new();
    c.var(NOTHING);
    c.var(NOTHING);
    let words: Vec<i64> =
        (1..=ticks as i64).flat_map(|t| [t, 0, 0, 0, 0, 0, 0, 1, 1, 7, 3]).collect();
    let named = Named { driver: 0, activity: 1, length: 1_000 };
    let name = format!("two Vars ({ticks})");
    Finished { name, circuit: c.bytes(), log: bytes_of(&words), ticks, named }
}

fn measure(finished: &Finished) {
    let mut report = [0; REPORT_BYTES];
    let bytes = finished.ours(&mut report);
    assert!(report[..bytes] == finished.theirs()[..]);
    let [ours, theirs, sum] = least([
        &mut || {
            black_box(finished.ours(&mut report));
        },
        &mut || {
            black_box(finished.theirs());
        },
        &mut || {
            black_box(finished.sum());
        },
    ])
    .map(|time| time.as_secs_f64() * 1_000.0);
    println!(
        "{:<28} {:>5.1} MB {:>3} lines   hours {ours:>8.3} ms ({:>6.1} ns a tick)   oracle {theirs:>9.3} ms   \
         ratio {:.3}   words read {sum:>7.3} ms   ratio {:.2}",
        finished.name,
        finished.log.len() as f64 / 1e6,
        bytes / 40,
        ours * 1e6 / finished.ticks.max(1) as f64,
        ours / theirs,
        ours / sum,
    );
}

fn main() {
    let mut given = std::env::args().skip(1);
    if let Some(ticks) = given.next() {
        let mut finished = tanker(ticks.parse().expect("ticks"));
        if given.next().is_some() {
            finished = finished.with_drivers();
        }
        finished.ours(&mut [0; REPORT_BYTES]);
        println!("{}", finished.ticks);
        return;
    }
    for ticks in [0, 100, 10_000, TICKS] {
        measure(&tanker(ticks));
    }
    measure(&tanker(TICKS).with_drivers());
    measure(&short(TICKS));
    measure(&short(TICKS).with_drivers());
}
