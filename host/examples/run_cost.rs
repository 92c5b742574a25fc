//! Nanoseconds a tick of the proved `run` and of the oracle on the six
//! vehicles, side by side, with the copy of the log's bytes, which is the
//! limit; on the first ticks of the longest script, to see that the time is
//! linear in them; on one to eight equal groups of gates, to see how it grows
//! with them; and on Loops: `cargo run --offline --release --example run_cost`.

mod common;
mod scripts;

use std::hint::black_box;
use std::time::Duration;

use common::least;
use hazhirun_host::{Answer, run};
use oracle::build::{Circuit, Script};
use oracle::circuits::{self, Case};
use oracle::{Lent, play, questions};
use scripts::first_ticks;

/// The bytes lent for the log.
const LOG: usize = 1 << 26;

fn measure(case: &Case, log: &mut [u8], from: &mut [u8], to: &mut [u8]) {
    let lent = Lent { log: LOG, ..case.lent };
    let mut areas = [lent.values, lent.units, lent.delays].map(|length| vec![0; length]);
    let [values, units, delays] = &mut areas;
    let answer = run(&case.circuit, &case.script, log, values, units, delays);
    let Answer::Played { stop: 0, ticks, bytes } = answer else {
        println!("{:<24} {answer}", case.name);
        return;
    };
    let (circuit, script) = questions::ask(&case.circuit, &case.script, Some(&lent)).unwrap();
    let mut records = Vec::new();
    let [ours, theirs, copied] = least([
        &mut || {
            black_box(run(&case.circuit, &case.script, log, values, units, delays));
        },
        &mut || {
            let mut machine = play::start(&circuit, &script);
            records.clear();
            black_box(play::play_into(&mut records, &mut machine, script.lengths.len(), lent.log));
        },
        &mut || {
            to[..bytes].copy_from_slice(&from[..bytes]);
            black_box(&to);
        },
    ]);
    let per_tick = |t: Duration| t.as_nanos() as f64 / ticks as f64;
    println!(
        "{:<24} {:>3} gates {:>6} ticks   run {:>7.1} ns   oracle {:>7.1} ns   ratio {:.3}   copy {:>5.1} ns",
        case.name,
        u64::from_le_bytes(case.circuit[..8].try_into().unwrap()),
        ticks,
        per_tick(ours),
        per_tick(theirs),
        ours.as_secs_f64() / theirs.as_secs_f64(),
        per_tick(copied),
    );
}

/// So many groups of eight gates, for 2,000 ticks: a card slot whose card is
/// swapped every 16 ticks, a Clock that counts twice a second while a card is
/// in, and a recorder of what was counted.
fn groups_of_eight(groups: usize) -> Case {
    let mut c = Circuit::new();
    let cards: Vec<_> = (0..groups as i64)
        .map(|rank| {
            let card = c.world_event(rank);
            let inserted = c.select(card, false, true);
            let present = c.buffer_ticks(inserted, 4, 2);
            let clock = c.clock(rank, 0.5);
            c.feed(clock.pin("bEnabled"), present);
            let counted = c.cycle(rank, 10);
            let changed = c.change_detector(rank, counted);
            let stored = c.var(0);
            let store = c.var_set(rank, stored, counted);
            c.call(clock, counted);
            c.call(changed, store);
            card
        })
        .collect();
    let names = [c.constant(0), c.constant(101)];
    let mut s = Script::new();
    for t in 0..2_000 {
        s.tick(0.25);
        for (k, &card) in cards.iter().enumerate() {
            if t % 16 == k {
                s.give(card, names[t / 16 % 2]);
            }
        }
    }
    Case::new(&format!("groups ({groups})"), "Equal groups of gates.", &c, &s)
}

/// A Loop that counts so far in each of 20 ticks, over a body of three gates:
/// a Cycle, a Branch by the Index and a VarSet of it.
fn a_loop(name: &str, count: i64) -> Case {
    let mut c = Circuit::new();
    let begins = c.world_event(0);
    let repeat = c.repeat(0, count, 1, 1);
    let index = c.body(repeat);
    let counted = c.cycle(0, 10);
    let asked = c.branch(0, index);
    let stored = c.var(0);
    let store = c.var_set(0, stored, index);
    c.call(begins, repeat);
    c.chain(&[index, counted, asked, store]);
    c.put_inside(repeat, &[counted, asked, store]);
    let mut s = Script::new();
    for _ in 0..20 {
        s.tick(0.25).fire(begins);
    }
    Case::new(name, "A Loop over three gates.", &c, &s)
}

fn main() {
    let (mut log, mut from, mut to) = (vec![1; LOG], vec![1; LOG], vec![1; LOG]);
    let mut row = |case: &Case| measure(case, &mut log, &mut from, &mut to);
    let groups = circuits::groups();
    let vehicles = &groups.iter().find(|g| g.name == "vehicles").unwrap().cases;
    for case in vehicles {
        row(case);
    }
    let longest = vehicles.iter().max_by_key(|case| case.script.len()).unwrap();
    for ticks in [100, 1_000, 5_000, 10_000] {
        row(&first_ticks(longest, ticks));
    }
    for groups in [1, 2, 4, 8] {
        row(&groups_of_eight(groups));
    }
    row(&a_loop("loop of 1,000", 1_000));
    row(&a_loop("loop aborted", i64::MAX));
}
