//! Classes: a circuit and a book of scripts, most of them made for it, others
//! cut short, damaged or another circuit's, in any order and at any byte.

use super::{FAMILIES, Family, Random, damaged, damaged_loops, valid};
use crate::build::{Book, Script, WORLD_EVENT, bits};
use crate::case::{Case, Class};
use crate::words::words;

/// The class of a seed.
pub fn book(seed: u64) -> Class {
    let mut r = Random::new(seed ^ 0xB00C_0000_0000_0000);
    let family = r.pick(&FAMILIES);
    let own = valid(seed, family);
    let count = if r.chance(4) { r.pick(&[0, 17]) } else { r.pick(&[1, 2, 2, 3, 3, 4, 5, 6, 8, 12, 15, 16]) };
    let good = r.pick(&[0, 50, 70, 90, 100]);
    let scripts: Vec<Vec<u8>> = (0..count)
        .map(|_| if r.chance(good) { made(&mut r, family, &own) } else { other(&mut r, family, &own) })
        .collect();
    let whole = lay(&mut r, &scripts);
    let mut book = whole.clone();
    let straying = r.pick(&[0, 0, 10, 30]);
    for k in 0..count {
        if r.chance(straying) {
            book.spans[k] = stray(&mut r, &whole, k);
        }
    }
    let mut bytes = book.bytes();
    spoil(&mut r, &mut bytes, count);
    let mut class = Class::new(format!("random-class-{seed}"), "A random class.", own.circuit, bytes);
    class.lent.delays = own.lent.delays;
    if r.chance(4) {
        let damaged = if r.chance(75) { damaged(r.number()) } else { damaged_loops(r.number()) }.case;
        (class.circuit, class.lent) = (damaged.circuit, damaged.lent);
    }
    lend(&mut r, &mut class, count);
    class
}

/// A script for the circuit of `own`.
fn made(r: &mut Random, family: Family, own: &Case) -> Vec<u8> {
    if r.chance(10) {
        return own.script.clone();
    }
    let circuit = words(&own.circuit).expect("whole words");
    let (gates, constants) = (circuit[0] as usize, circuit[1] as usize);
    let kinds = &circuit[4 + 2 * constants..][..gates];
    let worlds: Vec<i64> = (0..gates).filter(|&g| kinds[g] == WORLD_EVENT).map(|g| g as i64).collect();
    let mut s = Script::new();
    for _ in 0..r.pick(&[0, 1, 1, 2, 3, 4, 6]) {
        s.tick(r.pick(family.profile().lengths));
        for _ in 0..r.pick(&[0, 1, 1, 2]) {
            s.ticks.last_mut().expect("a tick").1 += 1;
            s.stimuli.push((r.pick(&worlds), r.below(constants + 1) as i64));
        }
    }
    s.bytes()
}

/// A script that was not made for the circuit, or that has a fault.
fn other(r: &mut Random, family: Family, own: &Case) -> Vec<u8> {
    let mut script = made(r, family, own);
    let past = script.len() as i64 / 8;
    match r.below(7) {
        0 => valid(r.number(), r.pick(&FAMILIES)).script,
        1 => damaged(r.number()).case.script,
        2 => script[..r.below(script.len())].to_vec(),
        3 => [&script[..], &[0; 8][..r.between((1, 8))]].concat(),
        4 => Vec::new(),
        _ => {
            let at = r.below(script.len() / 8);
            let word: i64 = r.pick(&[-1, 65, past, bits(3_601.0), i64::MIN, 0, 1]);
            script[8 * at..][..8].copy_from_slice(&word.to_le_bytes());
            script
        }
    }
}

/// A book of these scripts in any order, with bytes between some of them.
fn lay(r: &mut Random, scripts: &[Vec<u8>]) -> Book {
    let mut order: Vec<usize> = (0..scripts.len()).collect();
    r.shuffle(&mut order);
    let mut book = Book::new(scripts.len());
    let most = r.pick(&[0, 0, 1, 8, 20]);
    for k in order {
        pad(r, &mut book, most);
        book.put(k, &scripts[k]);
    }
    pad(r, &mut book, most);
    book
}

fn pad(r: &mut Random, book: &mut Book, most: usize) {
    book.rest.extend((0..r.below(most + 1)).map(|at| (17 * at) as u8));
}

/// Another span in place of the one of script `k`.
fn stray(r: &mut Random, book: &Book, k: usize) -> (i64, i64) {
    let (start, length) = book.spans[k];
    let (other, _) = r.pick(&book.spans);
    let end = book.length();
    match r.below(12) {
        0 | 1 => r.pick(&book.spans),
        2 => (other + 8 * r.below(4) as i64, length),
        3 => (start, end - start + r.pick(&[1, 8])),
        4 => (end, r.pick(&[0, 0, 1, 16])),
        5 => (end + r.pick(&[1, 8, 1 << 32]), 0),
        6 => (start + r.pick(&[-1, 1, 8]), length),
        7 => (start, length + r.pick(&[-1, 1, -8, 8, 16])),
        8 => (r.pick(&[-8, -16, -start, i64::MIN]), r.pick(&[16, 24, length, i64::MIN])),
        9 => (start, r.pick(&[-8, -start, i64::MAX, 8 - start, i64::MIN])),
        10 => (start + (1 << 32), length),
        _ => (8 * r.below(1 + 2 * book.spans.len()) as i64, r.pick(&[16, 32, 48, end])),
    }
}

/// A count that is not the book's own, or a book that is cut short.
fn spoil(r: &mut Random, book: &mut Vec<u8>, count: usize) {
    let count = count as i64;
    if r.chance(6) {
        let counts = [0, 17, -1, i64::MIN, count + (1 << 32), count + (1 << 60), count - 1, count + 1];
        book[..8].copy_from_slice(&r.pick(&counts).to_le_bytes());
    }
    if r.chance(4) {
        let arrays = 8 * (1 + 2 * count as usize);
        book.truncate(r.pick(&[0, 7, 8, arrays - 1, arrays, book.len() - 1, book.len() / 2]));
    }
}

/// What is lent beside the delays: logs of every small length, of about the
/// records, and long ones; areas that are larger, and a few that are too small.
fn lend(r: &mut Random, class: &mut Class, count: usize) {
    let parts = count.max(1);
    class.lent.log = match r.below(10) {
        0 | 1 => r.below(8 * parts + 8),
        2..=6 => parts * r.below(3_000) + r.below(8 * parts),
        _ => 65_536,
    };
    if r.chance(25) {
        class.told = r.below(3 * parts + 3);
    }
    let area = r.pick(&[0, 1, 2]);
    let lent = &mut class.lent;
    let area =
        [&mut lent.values, &mut lent.units, &mut lent.delays].into_iter().nth(area).expect("three areas");
    match r.below(20) {
        0 => *area = 65_535,
        1 => *area /= 2,
        2..=5 => *area += r.below(1_000),
        _ => (),
    }
}
