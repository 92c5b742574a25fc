//! Answers cases from a file in short: a changed oracle is told by them.
//!
//! A case is a line: its name, the bytes lent for log, values, units and
//! delays, and the bytes of circuit and script in hexadecimal, with tabs
//! between. Its answer is a line too: the name, quick or slow, the answers of
//! `check` and `run`, and of a log its length and a number made of its words.
//! A class has a book in place of the script, and one thing more, the words lent
//! for what is told; its answer has the number of the call and one made of all
//! that it leaves. A report is `report` behind its name, what is named, the bytes
//! and the words lent, and the bytes of circuit and log; its answer is likewise. A
//! size is `size` behind its name, the ticks, the words lent and the bytes of its
//! circuit; its answer has the number of the call and the words that it leaves.

use std::io::{BufRead, BufReader, Write};
use std::panic::catch_unwind;

use oracle::class::{Held, call};
use oracle::hours::{self, Named};
use oracle::{Answer, Lent, check, run, size};

/// An answer of more words, or with more steps in its first tick, is slow.
const MANY_WORDS: usize = 50_000;
const MANY_STEPS: i64 = 1_000_000;

/// The numbers of FNV-1a, 64 bits.
const OFFSET: u64 = 0xcbf2_9ce4_8422_2325;
const PRIME: u64 = 0x0000_0100_0000_01b3;

fn main() {
    let file = std::env::args_os().nth(1).expect("a file of cases");
    let file = BufReader::new(std::fs::File::open(file).expect("a file of cases"));
    // A panic is an answer of a broken oracle, and prints nothing else.
    std::panic::set_hook(Box::new(|_| {}));
    for line in file.lines() {
        let line = line.expect("text");
        let (name, case) = line.split_once('\t').expect("a name and a case");
        let short = catch_unwind(|| in_short(case)).unwrap_or_else(|_| "quick\tpanicked".to_string());
        println!("{name}\t{short}");
        std::io::stdout().flush().expect("an open output");
    }
}

fn in_short(case: &str) -> String {
    let parts: Vec<&str> = case.split('\t').collect();
    match parts[0] {
        "report" => return report_in_short(&parts[1..]),
        "size" => return size_in_short(&parts[1..]),
        _ => {}
    }
    let [log, values, units, delays] = [0, 1, 2, 3].map(|at| parts[at].parse().expect("a size"));
    let lent = Lent { log, values, units, delays };
    let (circuit, script) = (bytes(parts[4]), bytes(parts[5]));
    match parts.get(6) {
        None => case_in_short(&circuit, &script, &lent),
        Some(told) => class_in_short(&circuit, &script, &lent, told.parse().expect("a size")),
    }
}

fn case_in_short(circuit: &[u8], script: &[u8], lent: &Lent) -> String {
    let checked = check(circuit, script);
    match run(circuit, script, lent) {
        Answer::Refused(number) => format!("quick\t{checked} refused {number}"),
        Answer::Played { log, stop, ticks } => {
            let steps = log.get(1).copied().unwrap_or(0);
            let slow = log.len() > MANY_WORDS || steps > MANY_STEPS;
            let speed = if slow { "slow" } else { "quick" };
            format!("{speed}\t{checked} {stop} {ticks} {} {:016x}", log.len(), hash(&log))
        }
    }
}

/// What is lent holds 165 in each byte. A script that stops by 11 is slow.
fn class_in_short(circuit: &[u8], book: &[u8], lent: &Lent, told: usize) -> String {
    let (number, left) = call(circuit, book, Held::filled(lent, told, 165));
    let speed = if left.told.contains(&11) { "slow" } else { "quick" };
    let told: Vec<u8> = left.told.iter().flat_map(|word| word.to_le_bytes()).collect();
    let parts = [left.log, left.values, left.units, left.delays, told];
    let hashes = parts.map(|bytes| format!("{:016x}", hash_of_bytes(bytes.into_iter())));
    format!("{speed}\t{number} {}", hashes.join(" "))
}

/// What is lent holds 165 in each byte.
fn report_in_short(parts: &[&str]) -> String {
    let [driver, activity, length] = [0, 1, 2].map(|at| parts[at].parse().expect("a word"));
    let [room, told] = [3, 4].map(|at| parts[at].parse().expect("a size"));
    let (circuit, log) = (bytes(parts[5]), bytes(parts[6]));
    let before = hours::Held::filled(room, told, 165);
    let (number, left) = hours::call(&circuit, &log, &Named { driver, activity, length }, before);
    let speed = if log.len() > 8 * MANY_WORDS { "slow" } else { "quick" };
    let told = hash_of_bytes(left.told.iter().flat_map(|word| word.to_le_bytes()));
    format!("{speed}\t{number} {:016x} {told:016x}", hash_of_bytes(left.report.into_iter()))
}

/// What is lent holds 165 in each byte.
fn size_in_short(parts: &[&str]) -> String {
    let ticks = parts[0].parse().expect("a word");
    let before = vec![u64::from_le_bytes([165; 8]); parts[1].parse().expect("a size")];
    let (number, told) = size::call(&bytes(parts[2]), ticks, before);
    format!("quick\t{number} {told:?}")
}

fn bytes(hexadecimal: &str) -> Vec<u8> {
    let (pairs, _) = hexadecimal.as_bytes().as_chunks::<2>();
    let byte = |pair: &[u8; 2]| u8::from_str_radix(str::from_utf8(pair).ok()?, 16).ok();
    pairs.iter().map(|pair| byte(pair).expect("hexadecimal")).collect()
}

fn hash(words: &[i64]) -> u64 {
    hash_of_bytes(words.iter().flat_map(|w| w.to_le_bytes()))
}

fn hash_of_bytes(bytes: impl Iterator<Item = u8>) -> u64 {
    bytes.fold(OFFSET, |h, b| (h ^ u64::from(b)).wrapping_mul(PRIME))
}
