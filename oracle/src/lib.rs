//! The oracle: the source's `Machine::step`, with its outside operations cut
//! off, played on circuits and scripts of document 01.

// What is left of the source, and what it leans on, under the source's paths.
pub mod source;
mod collections;
mod fields;
mod load;
mod semantics;
pub use source::{Dt, SimError, SimOptions, graph, machine, value, world};

// Document 01: its bytes, its questions, its run. Document 02: its class, its
// report of hours, its two figures.
pub mod circuit;
pub mod class;
pub mod graph_of;
pub mod hours;
pub mod kinds;
pub mod play;
pub mod print;
pub mod questions;
pub mod script;
pub mod size;
pub mod whole;
pub mod words;

// The stated circuits (build, case, generate, circuits, vectors, pack, runs,
// classes, reports, sizes):
pub mod build;
pub mod case;
pub mod circuits;
pub mod classes;
pub mod generate;
pub mod pack;
pub mod reports;
pub mod runs;
pub mod sizes;
pub mod vectors;

/// How many bytes are lent for the log and for the three areas.
#[derive(Clone, Debug, PartialEq, Eq)]
pub struct Lent {
    pub log: usize,
    pub values: usize,
    pub units: usize,
    pub delays: usize,
}

impl Default for Lent {
    fn default() -> Self {
        Self { log: 65_536, values: 65_536, units: 65_536, delays: 65_536 }
    }
}

/// What a call answers.
#[derive(Clone, Debug, PartialEq, Eq)]
pub enum Answer {
    /// The number of the first question answered no.
    Refused(u8),
    /// The words written to the log, the stop (0 for none) and the ticks done.
    Played { log: Vec<i64>, stop: u8, ticks: u64 },
}

/// Ask the questions, then play.
pub fn run(circuit: &[u8], script: &[u8], lent: &Lent) -> Answer {
    match questions::ask(circuit, script, Some(lent)) {
        Err(number) => Answer::Refused(number),
        Ok((circuit, script)) => play::play(&circuit, &script, lent.log),
    }
}

/// The questions of a call that is lent no areas: the number of the first
/// answered no, or 0.
pub fn check(circuit: &[u8], script: &[u8]) -> u8 {
    questions::ask(circuit, script, None).err().unwrap_or(0)
}

/// What document 01's program prints for `answer`.
pub fn print(answer: &Answer) -> String {
    print::lines(answer, print::outputs_of(answer))
}
