//! What `size` costs beside `check` of the same circuit and an empty script, and
//! beside the oracle's count: the least of calls that take turns.
//!
//! `cargo run --offline --release --example size_cost`; with a name alone the
//! circuit is asked about once, for a count of instructions.

mod common;
mod largest;

use std::hint::black_box;

use common::least;
use hazhirun_host::{check, size};
use largest::largest;
use oracle::build::{BRANCH, Circuit, Gate, Script, TOGGLE};
use oracle::circuits;

/// The calls that are timed as one.
const CALLS: u32 = 64;

fn main() {
    let crane = circuits::all().into_iter().find(|c| c.name == "vehicle-crane");
    let crane = crane.expect("a stated circuit").circuit;
    let rows = [
        ("crane", crane),
        ("onwards", row(|k| (k, k + 1)).bytes()),
        ("backwards", row(|k| (k + 1, k)).bytes()),
        ("forks", forks().bytes()),
        ("largest", largest(0, 0).0.bytes()),
    ];
    let named = std::env::args().nth(1);
    for (name, circuit) in &rows {
        match &named {
            None => time(name, circuit),
            Some(one) if one == name => {
                black_box(size(circuit, 1)).expect("figures");
            }
            Some(_) => (),
        }
    }
}

/// 64 Toggles, of which each calls the next, by places.
fn row(call: impl Fn(usize) -> (usize, usize)) -> Circuit {
    let mut c = Circuit::new();
    let gates: Vec<Gate> = (0..64).map(|_| c.gate(TOGGLE, 0)).collect();
    for (from, to) in (0..63).map(call) {
        c.call(gates[from], gates[to]);
    }
    c
}

/// 64 Branches and 256 calls, each to a gate of a lower place.
fn forks() -> Circuit {
    let mut c = Circuit::new();
    let gates: Vec<Gate> = (0..64).map(|_| c.gate(BRANCH, 0)).collect();
    for k in 0..256 {
        let from = 1 + k % 63;
        let side = if k % 2 == 0 { "ExecOutA" } else { "ExecOutB" };
        c.call(gates[from].out(side), gates[from - 1 - (k / 63) % from]);
    }
    c
}

fn time(name: &str, circuit: &[u8]) {
    let script = Script::new().bytes();
    let [sizes, checks, oracles] = least([
        &mut || (0..CALLS).for_each(|_| assert!(size(black_box(circuit), 1).is_ok())),
        &mut || (0..CALLS).for_each(|_| assert_eq!(check(black_box(circuit), &script), 0)),
        &mut || (0..CALLS).for_each(|_| assert!(oracle::size::size(black_box(circuit), 1).is_ok())),
    ])
    .map(|time| time.as_nanos() as f64 / f64::from(CALLS));
    println!(
        "{name:<10} size {sizes:>8.0} ns   check {checks:>8.0} ns   ratio {:.2}   oracle {oracles:>8.0} ns   ratio {:.2}",
        sizes / checks,
        sizes / oracles
    );
}
