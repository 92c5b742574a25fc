//! The vehicle that ships with the program `play`, and what it has to print.

use std::fs;
use std::path::Path;

use oracle::build::bits;
use oracle::circuits;
use oracle::{Lent, print, run};

/// A file of crates/play.
fn read(name: &str) -> Vec<u8> {
    fs::read(Path::new(env!("CARGO_MANIFEST_DIR")).join("../crates/play").join(name)).unwrap()
}

/// `crates/play/stdout` is what the oracle prints, so the gate holds the program
/// to it; the whole log fits, some lines list a carried unit, and some count a
/// wait that is no f32.
#[test]
fn the_shipped_vehicle_prints_as_the_oracle() {
    let answer = run(&read("data/circuit.bin"), &read("data/script.bin"), &Lent::default());
    let printed = print(&answer);
    assert_eq!(printed.as_bytes(), read("stdout"));
    assert!(printed.ends_with("end 0 59\n"));
    let is_some = |line: &str, word| line.split(' ').nth(word).is_some_and(|n| n != "0");
    let lines_with = |word| printed.lines().filter(|line| is_some(line, word)).count();
    let (carried, changed) = (4, 6);
    assert_eq!([carried, changed].map(lines_with), [8, 6]);
}

/// The van of the stated circuits with one gate more, so that it carries: a
/// ChangeDetector of rank 3 on the first wheel of its day, output 26. Its
/// printer waits 0.9 seconds in place of 1: input 76, and a constant more.
#[test]
fn the_shipped_vehicle_is_the_van_and_a_gate() {
    let van = circuits::all().into_iter().find(|case| case.name == "vehicle-van").unwrap();
    let mut arrays = arrays(&van.circuit);
    for (array, more) in arrays.iter_mut().zip([2, bits(0.9), 6, 3, 26, 0]) {
        array.push(more);
    }
    arrays[5][76] = arrays[0].len() as i64;
    assert_eq!(self::arrays(&read("data/circuit.bin")), arrays);
}

/// The arrays behind a circuit's sizes: constants, gates, inputs, calls, two of
/// each.
fn arrays(circuit: &[u8]) -> Vec<Vec<i64>> {
    let (words, []) = circuit.as_chunks::<8>() else { panic!("whole words") };
    let mut words = words.iter().map(|&word| i64::from_le_bytes(word));
    let sizes: Vec<usize> = words.by_ref().take(4).map(|size| size as usize).collect();
    let [gates, constants, inputs, calls] = sizes[..] else { panic!("four sizes") };
    let lengths = [constants, constants, gates, gates, inputs, inputs, calls, calls];
    let arrays = lengths.map(|length| words.by_ref().take(length).collect::<Vec<_>>());
    assert_eq!(words.next(), None);
    arrays.to_vec()
}
