//! The proved `size` against the oracle's count: the number and every word told,
//! which hold garbage before, on stated and on random circuits; the typed figures
//! against the words; and runs of the proved `run` held to both figures.
//!
//! HAZHIRUN_RUNS=100000 cargo test --offline --release --test size
//! compares as many random circuits, and as many random runs; by default it is
//! fewer. With --nocapture it says how often which number was answered, and how
//! near runs come to the figures.

mod common;
mod played;

use std::env;

use common::{format_words, garbage};
use hazhirun_host::{SizeError, UnitSteps, size, text};
use oracle::circuits::{self, Case, Size};
use oracle::generate::{self, FAMILIES, valid};
use oracle::questions::ask_circuit;
use oracle::size::{self as theirs, Figures};
use played::log_of_run;

unsafe extern "C" {
    fn hazhirun_size(
        circuit: *const u8,
        circuit_length: usize,
        ticks: u64,
        told: *mut u64,
        told_length: usize,
    ) -> u64;
}

/// The C function itself, which may be lent any number of words for what it
/// tells.
fn call(circuit: &[u8], ticks: u64, told: &mut [u64]) -> u64 {
    // SAFETY: pointers and lengths are those of slices that are apart.
    unsafe { hazhirun_size(circuit.as_ptr(), circuit.len(), ticks, told.as_mut_ptr(), told.len()) }
}

/// How many random circuits and runs are compared.
fn calls() -> u64 {
    env::var("HAZHIRUN_RUNS").map_or(2_800, |n| n.parse().unwrap())
}

/// How often which number was answered, and how many figures there were of more
/// than 50,000,000 steps.
#[derive(Debug, Default)]
struct Counts {
    numbers: [u64; 25],
    more: u64,
}

/// Asks both.
fn compare(asked: &Size, seed: u64, counts: &mut Counts) {
    let Size { name, circuit, ticks, .. } = asked;
    let before = words(&garbage(8 * asked.told, seed));
    let (number, due) = theirs::call(circuit, *ticks, before.clone());
    let mut told = before;
    assert_eq!(call(circuit, *ticks, &mut told), u64::from(number), "{name}");
    assert_eq!(told, due, "{name}: what is told");
    let answer = asked.answer();
    assert_eq!(size(circuit, *ticks).map(figures), answer.map_err(error), "{name}");
    counts.numbers[usize::from(number)] += 1;
    counts.more += u64::from(answer.is_ok_and(|figures| figures.steps > 50_000_000));
}

fn words(bytes: &[u8]) -> Vec<u64> {
    bytes.as_chunks().0.iter().map(|&word| u64::from_le_bytes(word)).collect()
}

/// The numbers of typed figures.
fn figures(size: hazhirun_host::Size) -> Figures {
    let steps = match size.unit_steps {
        UnitSteps::AtMost(steps) => steps,
        UnitSteps::MoreThanATick => 50_000_001,
    };
    Figures { steps, bytes: size.log_bytes }
}

/// The typed error of a number.
fn error(number: u8) -> SizeError {
    match number {
        23 => SizeError::RingOrLoop,
        24 => SizeError::WrongTicks,
        other => SizeError::Circuit(other.into()),
    }
}

#[test]
fn stated_ones() {
    let mut counts = Counts::default();
    for (k, asked) in circuits::sizes().iter().enumerate() {
        compare(asked, k as u64, &mut counts);
    }
    println!("stated: {counts:?}");
    for number in [1, 2, 3, 4, 5, 6, 7, 19, 23, 24] {
        assert!(counts.numbers[number] > 0, "{counts:?}");
    }
    assert!(counts.numbers[0] > 50 && counts.more > 3, "{counts:?}");
}

#[test]
fn random_ones() {
    let mut counts = Counts::default();
    for n in 0..calls() {
        compare(&generate::size(100_000 + n), n, &mut counts);
    }
    println!("random: {counts:?}");
    assert!(counts.numbers[0] > calls() / 4 && counts.more > calls() / 100, "{counts:?}");
    assert!(counts.numbers[23] > calls() / 50 && counts.numbers[24] > calls() / 50, "{counts:?}");
}

/// Any bytes and any number of ticks: every circuit of the vectors, the refused
/// ones too.
#[test]
fn circuits_of_runs() {
    let mut counts = Counts::default();
    for (k, case) in circuits::all().into_iter().enumerate() {
        let mut asked = Size::new(case.name, case.shows, case.circuit);
        asked.ticks = 100_000 - k as u64;
        compare(&asked, k as u64, &mut counts);
    }
    println!("circuits of runs: {counts:?}");
    assert!(counts.numbers[0] > 200 && counts.numbers[23] > 50, "{counts:?}");
}

/// How near runs come to the figures.
#[derive(Debug, Default)]
struct Near {
    runs: u64,
    /// Ticks of one unit, whose steps are that unit's, and those with as many as
    /// the figure.
    ticks: u64,
    exact: u64,
    /// The most of the bytes, in a thousand.
    bytes: u64,
}

/// The log of a run has no more bytes than the second figure, and a tick of one
/// unit no more steps than the first.
fn within(case: &Case, near: &mut Near) {
    let Some(log) = log_of_run(case) else { return };
    let ticks = u64::from_le_bytes(case.script[..8].try_into().unwrap());
    let Ok(figures) = size(&case.circuit, ticks).map(figures) else { return };
    near.runs += 1;
    assert!(log.len() as u64 <= figures.bytes, "{}: {} bytes", case.name, log.len());
    near.bytes = near.bytes.max(1_000 * log.len() as u64 / figures.bytes.max(1));
    let outputs = ask_circuit(&case.circuit, None).expect("a good circuit").outputs.len();
    for [_, steps, late, main, ..] in heads(&words(&log), outputs) {
        if late + main == 1 {
            assert!(steps <= figures.steps, "{}: {steps} steps", case.name);
            near.ticks += 1;
            near.exact += u64::from(steps == figures.steps);
        }
    }
}

/// The heads of a log's records.
fn heads(mut rest: &[u64], outputs: usize) -> Vec<[u64; 7]> {
    let mut heads = Vec::new();
    while let Some((&head, behind)) = rest.split_first_chunk() {
        let [_, _, late, main, carried, stop, _] = head;
        let shown = if stop == 0 { outputs } else { 0 };
        rest = &behind[2 * ((late + main + carried) as usize + shown)..];
        heads.push(head);
    }
    heads
}

#[test]
fn runs_within() {
    let mut near = Near::default();
    circuits::all().iter().for_each(|case| within(case, &mut near));
    println!("stated runs: {near:?}");
    assert!(near.runs > 500 && near.exact > 500, "{near:?}");
}

#[test]
fn random_runs_within() {
    let mut near = Near::default();
    for n in 0..calls() {
        within(&valid(n, FAMILIES[n as usize % FAMILIES.len()]), &mut near);
    }
    println!("random runs: {near:?}");
    assert!(near.runs > calls() / 10 && near.exact > calls() / 100, "{near:?}");
}

/// The example of docs/FORMAT.md.
#[test]
fn worked_figures() {
    let circuit: Vec<u8> =
        format_words("size circuit").into_iter().flat_map(i64::to_le_bytes).collect();
    let ticks = format_words("size ticks")[0] as u64;
    let mut told = [0; 2];
    assert_eq!(call(&circuit, ticks, &mut told), 0);
    assert_eq!(told.map(|word| word as i64).to_vec(), format_words("size told"));
}

#[test]
fn printed_ones() {
    let words = |ws: &[u64]| ws.iter().flat_map(|w| w.to_le_bytes()).collect::<Vec<u8>>();
    let toggle = words(&[1, 0, 1, 0, 22, 0, u64::MAX, 0]);
    let figures = size(&toggle, 1).unwrap();
    assert_eq!(figures.to_string(), "at most 1 step a unit, at most 20568 bytes of log");
    assert_eq!(UnitSteps::from(50_000_001).to_string(), "more than 50000000 steps a unit");
    let wrong = size(&toggle, u64::MAX).unwrap_err();
    assert_eq!(wrong.to_string(), format!("refused by question 24: {}", text(24)));
    let ring = words(&[1, 0, 1, 1, 22, 0, u64::MAX, 0, 0, 0]);
    assert_eq!(size(&ring, u64::MAX).unwrap_err().number(), 23);
    assert_eq!(size(&[], 0), Err(SizeError::Circuit(1)));
}
