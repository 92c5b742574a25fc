//! A whole class in one call (document 02, K1): the stated books.

mod answers;
mod asked;
mod counts;
mod left;
mod logs;
mod spans;
mod told;

use crate::build::{Book, Circuit, Gate, Script};
use crate::case::Class;
use crate::generate::book;

/// How many random ones are stated.
const RANDOM: u64 = 60;

/// Every stated book with its circuit.
pub fn classes() -> Vec<Class> {
    let mut classes = counts::classes();
    classes.extend(asked::classes());
    classes.extend(spans::classes());
    classes.extend(logs::classes());
    classes.extend(answers::classes());
    classes.extend(left::classes());
    classes.extend(told::classes());
    classes.extend((0..RANDOM).map(book));
    classes
}

/// A class whose name begins with `class-`.
fn class(name: impl AsRef<str>, shows: impl Into<String>, circuit: &Circuit, book: Vec<u8>) -> Class {
    Class::new(format!("class-{}", name.as_ref()), shows, circuit.bytes(), book)
}

/// Document 01's first example: a World event that flips a Toggle.
fn toggle() -> (Circuit, Gate) {
    let mut c = Circuit::new();
    c.constant(7);
    let world = c.world_event(0);
    let toggle = c.toggle(1);
    c.call(world, toggle);
    (c, world)
}

/// So many ticks of 0.25, each with a stimulus of the first constant.
fn fed(world: Gate, ticks: usize) -> Vec<u8> {
    let mut s = Script::new();
    for _ in 0..ticks {
        s.tick(0.25).give(world, 1);
    }
    s.bytes()
}

/// So many ticks that each flip the Toggle of `toggle`: records of 17 words.
fn flips(ticks: usize) -> Vec<u8> {
    fed(toggle().1, ticks)
}

/// So many ticks of 0.25 without stimuli: of `toggle`, records of 15 words.
fn quiet(ticks: usize) -> Vec<u8> {
    Script::new().ticks(ticks, 0.25).bytes()
}

/// A script for `toggle` that is refused with this number.
fn refused(number: u8) -> Vec<u8> {
    let mut script = flips(1);
    let (at, word) = match number {
        8 => (0, 2),
        9 => (3, 65),
        _ => (4, 1),
    };
    set(&mut script, at, word);
    script
}

/// A book of these scripts, one behind the other.
fn of(scripts: &[Vec<u8>]) -> Vec<u8> {
    Book::of(scripts).bytes()
}

/// So many of something, in words.
fn many(number: usize, of: &str) -> String {
    format!("{number} {of}{}", if number == 1 { "" } else { "s" })
}

/// Word `at` of these bytes is `word` now.
fn set(bytes: &mut [u8], at: usize, word: i64) {
    bytes[8 * at..][..8].copy_from_slice(&word.to_le_bytes());
}
