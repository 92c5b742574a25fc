//! The order of the questions: the circuit, 23, the ticks.

use super::{alike, one_call, row, size};
use crate::build::*;
use crate::case::Size;

/// The numbers that there are, in the order asked.
const ASKED: [u8; 10] = [1, 2, 3, 4, 5, 19, 6, 7, 23, 24];

pub fn sizes() -> Vec<Size> {
    let mut sizes = Vec::new();
    for (at, &first) in ASKED.iter().enumerate() {
        sizes.push(with(&[first], format!("q{first}"), format!("A fault of question {first}.")));
        for &next in &ASKED[at + 1..] {
            let shows = format!("A fault of question {first}, and one of {next}.");
            sizes.push(with(&[first, next], format!("q{first}-and-{next}"), shows));
        }
        if at < ASKED.len() - 2 {
            let shows = format!("Faults of question {first} and of all that follow.");
            sizes.push(with(&ASKED[at..], format!("q{first}-and-all"), shows));
        }
    }
    sizes.extend(ticks());
    sizes.extend(circuits());
    sizes
}

/// A World that calls a Toggle, with faults of these questions.
fn with(numbers: &[u8], name: String, shows: String) -> Size {
    let mut c = one_call();
    let mut ticks = 10;
    for number in numbers {
        match number {
            2 => c.constants.push((4, 0)),
            3 => c.gates[1].0 = 32,
            4 => c.inputs[0].0 = -2,
            5 => c.calls.push((1, 0)),
            19 => c.gates[1].1 = RANKS,
            6 => {
                let ring = c.reroute(NOTHING);
                c.feed(ring.entry(), ring);
            }
            7 => {
                alike::<9>(&mut c, QUEUE_TICKS);
            }
            23 => {
                let ring = c.reroute(NOTHING);
                c.call(ring, ring);
            }
            24 => ticks = 100_001,
            _ => (),
        }
    }
    let mut size = Size { ticks, ..size(name, shows, &c) };
    if numbers.contains(&1) {
        size.circuit.pop();
    }
    size
}

/// Ticks at their bounds, and far above.
fn ticks() -> Vec<Size> {
    let spelled = [
        ("0", 0),
        ("1", 1),
        ("2", 2),
        ("65536", 65_536),
        ("99999", 99_999),
        ("100000", 100_000),
        ("100001", 100_001),
        ("2^17", 1 << 17),
        ("2^31", 1 << 31),
        ("2^32", 1 << 32),
        ("2^32+1", (1 << 32) + 1),
        ("2^61+1", (1 << 61) + 1),
        ("2^63-1", (1 << 63) - 1),
        ("2^63", 1 << 63),
        ("2^63+1", (1 << 63) + 1),
        ("2^64-1", u64::MAX),
    ];
    let of = |(name, ticks)| {
        let shows = format!("{name} ticks.");
        Size { ticks, ..size(format!("ticks-{name}"), shows, &one_call()) }
    };
    spelled.into_iter().map(of).collect()
}

/// Circuits that are refused before 23 is asked though they have a Loop or a ring,
/// and eight Queues, which want no areas here.
fn circuits() -> Vec<Size> {
    let empty = Size { circuit: Vec::new(), ..size("q1-no-circuit", "A circuit of no bytes.", &one_call()) };
    let mut without_entry = one_call();
    without_entry.repeat(0, 3, 0, 1);
    let mut nine = Circuit::new();
    let queues = row(&mut nine, QUEUE_SECONDS, 9);
    nine.call(queues[8], queues[0]);
    let mut nine_and_a_loop = Circuit::new();
    alike::<9>(&mut nine_and_a_loop, QUEUE_TICKS);
    let repeat = nine_and_a_loop.repeat(0, 3, 0, 1);
    nine_and_a_loop.body(repeat);
    let mut looped = Circuit::new();
    let reads_itself = looped.reroute(NOTHING);
    looped.feed(reads_itself.entry(), reads_itself);
    let repeat = looped.repeat(0, 3, 0, 1);
    looped.body(repeat);
    let mut eight = one_call();
    alike::<4>(&mut eight, QUEUE_TICKS);
    alike::<4>(&mut eight, QUEUE_SECONDS);
    vec![
        empty,
        size("q19-loop-without-entry", "A Loop without its entry: 19 comes before 23.", &without_entry),
        size("q7-ring-of-nine-queues", "Nine Queues in a ring of calls: 7 comes before 23.", &nine),
        size("q7-and-a-loop", "Nine Queues, and a Loop: 7 comes before 23.", &nine_and_a_loop),
        size("q6-and-a-loop", "A Reroute that reads itself, and a Loop: 6 comes before 23.", &looped),
        size("eight-queues", "Eight Queues: the call is lent no areas.", &eight),
    ]
}
