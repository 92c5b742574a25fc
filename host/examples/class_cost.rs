//! Microseconds of a class of sixteen scripts and of sixteen calls of `run` with
//! the same parts of the log, side by side: a tanker's first ticks, sixteen times,
//! from a few to its whole script. `cargo run --offline --release --example class_cost`.
//!
//! `class_cost TICKS` makes the class and the sixteen calls once each, for a tool
//! that counts their instructions.

mod common;
mod scripts;

use std::cell::RefCell;
use std::hint::black_box;

use common::least;
use hazhirun_host::{Answer, ClassAnswer, book, class, run};
use oracle::Lent;
use oracle::circuits::{self, Case};
use oracle::class::records;
use scripts::first_ticks;

const SCRIPTS: usize = 16;

/// The bytes lent for the log of one script alone.
const LOG: usize = 1 << 26;

/// A script, so many times, and what is lent for all of them.
struct Sixteen {
    case: Case,
    book: Vec<u8>,
    log: Vec<u8>,
    areas: [Vec<u8>; 3],
}

impl Sixteen {
    /// With parts of just the bytes that the script's records have.
    fn new(case: Case) -> Self {
        let book = book(&[&case.script; SCRIPTS]);
        let areas = [case.lent.values, case.lent.units, case.lent.delays].map(|n| vec![0; n]);
        let lent = Lent { log: LOG, ..case.lent.clone() };
        let bytes = records(&oracle::run(&case.circuit, &case.script, &lent)).len();
        Self { case, book, log: vec![1; SCRIPTS * bytes], areas }
    }

    fn runs(&mut self) -> Vec<Answer> {
        let Self { case, log, areas: [values, units, delays], .. } = self;
        let size = log.len() / SCRIPTS;
        let one = |k| {
            let part = &mut log[k * size..][..size];
            run(&case.circuit, &case.script, part, values, units, delays)
        };
        (0..SCRIPTS).map(one).collect()
    }

    fn class(&mut self) -> Vec<Answer> {
        let Self { case, book, log, areas: [values, units, delays] } = self;
        match class(&case.circuit, book, log, values, units, delays) {
            ClassAnswer::Answered(answers) => answers,
            refused => panic!("{}: {refused}", case.name),
        }
    }
}

fn measure(case: Case) {
    let name = case.name.clone();
    let sixteen = RefCell::new(Sixteen::new(case));
    let [class, runs] = least([
        &mut || {
            black_box(sixteen.borrow_mut().class());
        },
        &mut || {
            black_box(sixteen.borrow_mut().runs());
        },
    ]);
    println!(
        "{name:<24} class {:>9.1} µs   {SCRIPTS} runs {:>9.1} µs   ratio {:.3}",
        class.as_nanos() as f64 / 1_000.0,
        runs.as_nanos() as f64 / 1_000.0,
        class.as_secs_f64() / runs.as_secs_f64(),
    );
}

fn main() {
    let tanker = circuits::all().into_iter().find(|case| case.name == "vehicle-tanker");
    let tanker = tanker.expect("a stated circuit");
    if let Some(ticks) = std::env::args().nth(1) {
        let mut sixteen = Sixteen::new(first_ticks(&tanker, ticks.parse().expect("ticks")));
        assert_eq!(sixteen.class(), sixteen.runs());
        return;
    }
    for ticks in [0, 10, 100, 1_000, 20_000] {
        measure(first_ticks(&tanker, ticks));
    }
}
