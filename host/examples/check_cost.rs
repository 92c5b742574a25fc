//! What `check` costs beside the oracle's checker, in one run: nanoseconds of
//! the quickest round of each, and how many times the oracle's that is. The
//! oracle's checker also builds what it asked about, a list for each tick;
//! `check` builds the links of the circuit alone.
//!
//! `cargo run --offline --release --example check_cost`

mod largest;

use std::hint::black_box;
use std::time::{Duration, Instant};

use hazhirun_host::check;
use largest::largest;
use oracle::build::{Circuit, Gate, NOTHING, Script};
use oracle::circuits;

const ROUNDS: usize = 15;

/// How long a round lasts at least.
const ROUND: Duration = Duration::from_millis(40);

fn main() {
    let (circuit, script) = largest(0, 0);
    row("64 gates, 640 inputs, 256 calls, no tick", &circuit.bytes(), &script.bytes());
    let (circuit, script) = largest(1, 20_000);
    row("64 gates, 630 inputs, 256 calls, 20,000 ticks", &circuit.bytes(), &script.bytes());
    row("64 pure gates in a line, no tick", &line().bytes(), &Script::new().bytes());
    let coach = circuits::all().into_iter().find(|c| c.name == "vehicle-coach");
    let coach = coach.expect("a stated circuit");
    row("a coach, no tick", &coach.circuit, &Script::new().bytes());
    row("a coach, 5,040 ticks", &coach.circuit, &coach.script);
}

/// Reroutes of which each reads the next one, so that the last is the first in
/// order.
fn line() -> Circuit {
    let mut c = Circuit::new();
    let gates: Vec<Gate> = (0..64).map(|_| c.reroute(NOTHING)).collect();
    for pair in gates.windows(2) {
        c.feed(pair[0].pin("RER_Input"), pair[1]);
    }
    c
}

fn row(what: &str, circuit: &[u8], script: &[u8]) {
    let theirs = oracle::check(circuit, script);
    assert_eq!((check(circuit, script), theirs), (0, 0), "{what}");
    let (mut ours, mut oracles) = (f64::INFINITY, f64::INFINITY);
    for _ in 0..ROUNDS {
        ours = ours.min(nanoseconds(|| check(black_box(circuit), black_box(script))));
        oracles = oracles
            .min(nanoseconds(|| u64::from(oracle::check(black_box(circuit), black_box(script)))));
    }
    println!(
        "{what:<48} check {ours:>10.0} ns   oracle {oracles:>10.0} ns   ratio {:.2}",
        ours / oracles
    );
}

/// What a call takes, on the average of a round.
fn nanoseconds(call: impl Fn() -> u64) -> f64 {
    let from = Instant::now();
    let mut calls = 0;
    while from.elapsed() < ROUND {
        for _ in 0..8 {
            black_box(call());
        }
        calls += 8;
    }
    from.elapsed().as_nanos() as f64 / f64::from(calls)
}
