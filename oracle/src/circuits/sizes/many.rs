//! Many steps: 50,000,000 and more, and what a sum of 16, 31, 32, 63 or 64 bits
//! loses.

use super::{alike, size};
use crate::build::*;
use crate::case::Size;

pub fn sizes() -> Vec<Size> {
    let mut sizes = Vec::new();
    for (steps, calls) in AT_AN_OUTPUT {
        let shows = format!("A World of {steps} steps.");
        sizes.push(size(format!("{steps}-of-an-output"), shows, &tens(WORLD_EVENT, calls)));
    }
    for (steps, calls) in AT_AN_E {
        let shows = format!("A Union of {steps} steps.");
        sizes.push(size(format!("{steps}-of-an-e"), shows, &tens(UNION, calls)));
    }
    for (name, twos, more) in POWERS {
        let shows = format!("A World of {name} steps, without an E.");
        sizes.push(size(name, shows, &doubled(twos, more)));
    }
    for (name, twos, more) in POWERS_OF_A_GATE {
        let shows = format!("A World calls a Reroute of {name} steps, without an E.");
        sizes.push(size(format!("{name}-of-a-gate"), shows, &doubled_behind_a_gate(twos, more)));
    }
    sizes.extend(most());
    sizes
}

/// Eight Reroutes in a row, each of which calls the next ten times: the last has 1
/// step, the one before 11, then 111, up to 11,111,111 of the first. The calls of
/// the first gate, into the first, the second, .. of them.
type Calls = [usize; 8];

const AT_AN_OUTPUT: [(&str, Calls); 7] = [
    ("44444444", [4, 0, 0, 0, 0, 0, 0, 0]),
    ("49999999", [4, 5, 0, 0, 0, 0, 0, 0]),
    ("50000000", [4, 5, 0, 0, 0, 0, 0, 1]),
    ("50000001", [4, 5, 0, 0, 0, 0, 0, 2]),
    ("50000002", [4, 5, 0, 0, 0, 0, 0, 3]),
    ("50000010", [4, 5, 0, 0, 0, 0, 1, 0]),
    ("55555555", [5, 0, 0, 0, 0, 0, 0, 0]),
];

const AT_AN_E: [(&str, Calls); 4] = [
    ("49999999", [4, 4, 9, 9, 9, 9, 9, 15]),
    ("50000000", [4, 5, 0, 0, 0, 0, 0, 0]),
    ("50000001", [4, 5, 0, 0, 0, 0, 0, 1]),
    ("50000002", [4, 5, 0, 0, 0, 0, 0, 2]),
];

fn tens(first: i64, calls: Calls) -> Circuit {
    let mut c = Circuit::new();
    let first = c.gate(first, 0);
    let gates: [Gate; 8] = alike(&mut c, REROUTE);
    for pair in gates.windows(2) {
        c.call_all(pair[0], &[pair[1]; 10]);
    }
    for (gate, many) in gates.into_iter().zip(calls) {
        c.call_all(first, &vec![gate; many]);
    }
    c
}

/// Names, how many Reroutes stand in a row, and the World's calls into the first of
/// them and into the last.
const POWERS: [(&str, usize, [usize; 2]); 15] = [
    ("2^16", 16, [1, 1]),
    ("2^16+2", 16, [1, 3]),
    ("2^25-1", 25, [1, 0]),
    ("2^26-1", 26, [1, 0]),
    ("2^31-1", 31, [1, 0]),
    ("2^31", 31, [1, 1]),
    ("2^32-1", 32, [1, 0]),
    ("2^32", 32, [1, 1]),
    ("2^32+3", 32, [1, 4]),
    ("2^63-1", 63, [1, 0]),
    ("2^63", 63, [1, 1]),
    ("2^63+3", 63, [1, 4]),
    ("2^64-1", 63, [2, 1]),
    ("2^64", 63, [2, 2]),
    ("2^64+3", 63, [2, 5]),
];

/// The same, with the calls of a Reroute that the World calls: one step more.
const POWERS_OF_A_GATE: [(&str, usize, [usize; 2]); 7] = [
    ("2^16", 16, [1, 0]),
    ("2^31", 31, [1, 0]),
    ("2^32", 32, [1, 0]),
    ("2^32+3", 32, [1, 3]),
    ("2^63", 62, [2, 1]),
    ("2^64", 62, [4, 3]),
    ("2^64+3", 62, [4, 6]),
];

fn doubled(many: usize, calls: [usize; 2]) -> Circuit {
    let mut c = Circuit::new();
    let world = c.world_event(0);
    double(&mut c, world, many, calls);
    c
}

fn doubled_behind_a_gate(many: usize, calls: [usize; 2]) -> Circuit {
    let mut c = Circuit::new();
    let world = c.world_event(0);
    let gate = c.reroute(NOTHING);
    c.call(world, gate);
    double(&mut c, gate, many, calls);
    c
}

/// Reroutes in a row, each of which calls the next twice: n of them have 2^n - 1
/// steps. No E is among them, so that a sum that was lost is not covered up.
fn double(c: &mut Circuit, from: Gate, many: usize, [to_first, to_last]: [usize; 2]) {
    let gates: Vec<Gate> = (0..many).map(|_| c.reroute(NOTHING)).collect();
    for pair in gates.windows(2) {
        c.call_all(pair[0], &[pair[1]; 2]);
    }
    c.call_all(from, &vec![gates[0]; to_first]);
    c.call_all(from, &vec![gates[many - 1]; to_last]);
}

/// All gates and all calls that there may be.
fn most() -> Vec<Size> {
    let mut toggles = Circuit::new();
    let gates = alike::<64>(&mut toggles, TOGGLE);
    for (pair, at) in gates.windows(2).zip(0..) {
        toggles.call_all(pair[0], &vec![pair[1]; if at < 4 { 5 } else { 4 }]);
    }
    let mut fan = Circuit::new();
    let world = fan.world_event(0);
    let gates = alike::<63>(&mut fan, TOGGLE);
    for at in 0..256 {
        fan.call(world, gates[at % 63]);
    }
    vec![
        size("most-calls-in-a-row", "64 Toggles in a row and 256 calls, four or five to the next.", &toggles),
        size("most-calls-of-a-world", "A World with all 256 calls, into 63 Toggles.", &fan),
    ]
}
