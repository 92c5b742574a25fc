//! The order of the questions: the circuit and the areas, the book, the scripts.

use super::{class, flips, of, quiet, refused, set, toggle};
use crate::build::{Circuit, QUEUE_TICKS, RANKS};
use crate::case::Class;

pub fn classes() -> Vec<Class> {
    let mut classes = Vec::new();
    for number in [1, 2, 3, 4, 5, 19, 6, 7] {
        classes.push(circuit(number, "", "a good book", good()));
        classes.push(circuit(number, "-and-15", "a count of 0", none()));
    }
    classes.push(circuit(1, "-and-8", "scripts that are refused", of(&[refused(8), refused(9)])));
    for area in ["values", "units", "delays"] {
        classes.push(short(area, "", "a good book", good()));
        classes.push(short(area, "-and-15", "a count of 0", none()));
    }
    classes.push(short("values", "-and-8", "scripts that are refused", of(&[refused(8), refused(9)])));
    classes.extend([
        class(
            "15-and-8",
            "A count of 17, and scripts that are refused: refused 15.",
            &toggle().0,
            of(&vec![refused(8); 17]),
        ),
        two_queues(131_071, "refused 7"),
        two_queues(131_072, "played"),
        larger(),
    ]);
    classes
}

fn good() -> Vec<u8> {
    of(&[flips(1), flips(2)])
}

/// A book with a count of 0.
fn none() -> Vec<u8> {
    let mut book = good();
    set(&mut book, 0, 0);
    book
}

/// A circuit with a fault of this question.
fn circuit(number: u8, name: &str, beside: &str, book: Vec<u8>) -> Class {
    let shows = format!("A circuit with a fault of question {number}, and {beside}: refused {number}.");
    let mut class = class(format!("q{number}{name}"), shows, &faulty(number), book);
    if number == 1 {
        class.circuit.pop();
    }
    class
}

/// That of question 1 is made on the bytes.
fn faulty(number: u8) -> Circuit {
    let (mut c, _) = toggle();
    match number {
        2 => c.constants[0].0 = 4,
        3 => c.gates[1].0 = 32,
        4 => c.inputs[0].0 = -2,
        5 => c.calls[0].0 = 1,
        19 => c.gates[1].1 = RANKS,
        6 => {
            let ring = c.reroute(7);
            c.feed(ring.entry(), ring);
        }
        7 => c = queues(c, 9),
        _ => (),
    }
    c
}

fn queues(mut c: Circuit, many: i64) -> Circuit {
    for k in 0..many {
        c.gate(QUEUE_TICKS + k % 2, 0);
    }
    c
}

/// An area that is a byte too small.
fn short(area: &str, name: &str, beside: &str, book: Vec<u8>) -> Class {
    let shows = format!("An area of {area} a byte too small, and {beside}: refused 7.");
    let mut class = class(format!("{area}-short{name}"), shows, &toggle().0, book);
    let lent = &mut class.lent;
    *match area {
        "values" => &mut lent.values,
        "units" => &mut lent.units,
        _ => &mut lent.delays,
    } = 65_535;
    class
}

fn two_queues(delays: usize, comes: &str) -> Class {
    let shows = format!("Two Queues, and {delays} bytes of delays for two scripts: {comes}.");
    let circuit = queues(toggle().0, 2);
    let mut class = class(format!("delays-of-{delays}"), shows, &circuit, of(&[quiet(1), quiet(2)]));
    class.lent.delays = delays;
    class
}

/// Areas of more bytes than they need, and of no whole words.
fn larger() -> Class {
    let shows = "Larger areas, of no whole words: they are zero over their whole length.";
    let mut class = class("areas-larger", shows, &toggle().0, good());
    class.lent.values = 65_537;
    class.lent.units = 65_543;
    class.lent.delays = 70_001;
    class
}
