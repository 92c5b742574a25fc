//! Where the scripts lie: starts and lengths in bytes, from the book's first.

use super::{class, fed, flips, of, refused, set, toggle};
use crate::build::{Book, Circuit, bits, bytes_of};
use crate::case::Class;

pub fn classes() -> Vec<Class> {
    let mut classes: Vec<Class> = STRAYS.into_iter().map(stray).collect();
    classes.extend(LENGTHS.map(length));
    classes.extend([
        last_bytes(0, "to-the-last-byte", "The last script ends with the book: played."),
        last_bytes(1, "out-by-a-byte", "The book has a byte less: the last script is refused 8."),
        last_bytes(8, "out-by-a-word", "The book has a word less: the last script is refused 8."),
        overlap(),
        same(),
        over_the_arrays(),
        odd_bytes(),
        first_byte(),
        first_byte_of_two(),
        any_order(),
        another_circuit(),
    ]);
    classes
}

/// The bytes of a book of two scripts of one tick.
const END: i64 = 40 + 2 * 48;

/// Where the second of two scripts begins.
const SECOND: i64 = 40 + 48;

/// Spans of the first script that leave the book, or are empty at its end; the
/// second script lies at the book's end.
const STRAYS: [(&str, i64, i64, &str); 16] = [
    ("at-the-end", END, 0, "A span of 0 bytes at the book's end"),
    ("past-the-end", END + 1, 0, "A span of 0 bytes that starts a byte past the book's end"),
    ("far-past-the-end", END + 1_000, 0, "A span of 0 bytes far past the book's end"),
    ("at-2^63", i64::MIN, 0, "A span of 0 bytes that starts at 2^63"),
    ("at-2^64-1", -1, 0, "A span of 0 bytes that starts at 2^64 - 1"),
    ("from-the-end", END, 16, "A span of 16 bytes that starts at the book's end"),
    ("a-byte-more", SECOND, 49, "A span of a byte more than the book has, whose other bytes are a script"),
    ("a-word-more", SECOND, 56, "A span of a word more than the book has, whose other bytes are a script"),
    ("wraps", -8, 16, "A start of 2^64 - 8 and a length of 16, whose sum in 64 bits is 8"),
    ("wraps-to-0", i64::MIN, i64::MIN, "A start and a length of 2^63, whose sum in 64 bits is 0"),
    (
        "wraps-by-its-length",
        SECOND,
        -8,
        "A length of 2^64 - 8, so that in 64 bits the sum is inside the book",
    ),
    ("wraps-to-2^64", SECOND, 0 - SECOND, "A length that takes the sum to 2^64"),
    ("of-the-most-bytes", 0, -1, "A length of 2^64 - 1 from the first byte"),
    ("start-2^32", SECOND + (1 << 32), 48, "A start of 2^32 more than that of a script"),
    ("length-2^32", SECOND, 48 + (1 << 32), "A length of 2^32 more than that of a script"),
    ("start-2^61", SECOND + (1 << 61), 48, "A start that, times 8, is that of a script in 64 bits"),
];

fn stray((name, start, length, shows): (&str, i64, i64, &str)) -> Class {
    let mut book = Book::of(&[flips(1), flips(1)]);
    assert_eq!((book.length(), book.spans[1].0), (END, SECOND));
    book.spans[0] = (start, length);
    let shows = format!("{shows}: refused 8, and the next script is played.");
    class(format!("span-{name}"), shows, &toggle().0, book.bytes())
}

/// Lengths of the span of a script that has 48 bytes.
const LENGTHS: [i64; 8] = [0, 8, 15, 16, 40, 47, 48, 49];

fn length(length: i64) -> Class {
    let mut book = Book::of(&[flips(1), flips(2)]);
    book.spans[0].1 = length;
    let comes = if length == 48 { "played" } else { "refused 8" };
    let shows = format!("A span of {length} bytes of a script that has 48: {comes}.");
    class(format!("span-of-{length}-bytes"), shows, &toggle().0, book.bytes())
}

/// A book without its last bytes.
fn last_bytes(without: usize, name: &str, shows: &str) -> Class {
    let mut book = of(&[flips(2), flips(1)]);
    book.truncate(book.len() - without);
    class(format!("span-{name}"), shows, &toggle().0, book)
}

/// A Toggle, then a World event, which is gate 1 as its constant is: the second
/// script is the last six words of the first, all of them 1.
fn overlap() -> Class {
    let mut c = Circuit::new();
    c.constant(7);
    let toggle = c.toggle(1);
    let world = c.world_event(0);
    c.call(world, toggle);
    let script = fed(world, 2);
    assert_eq!(script[32..], bytes_of(&[1; 6]));
    let book = Book { spans: vec![(40, 80), (72, 48)], rest: script };
    class("spans-overlap", "A script that is the end of another: both are played.", &c, book.bytes())
}

fn same() -> Class {
    let mut book = Book::new(16);
    book.put(0, &flips(2));
    book.spans = vec![book.spans[0]; 16];
    class("spans-all-one", "Sixteen times the same span: sixteen equal answers.", &toggle().0, book.bytes())
}

/// The count is its T, the start its S, the length its tick's length, which is
/// no f32, and one word follows.
fn over_the_arrays() -> Class {
    let book = bytes_of(&[1, 0, 32, 0]);
    let shows = "A book that is its own script: one tick, whose length is the bits of 32.";
    class("span-over-the-arrays", shows, &toggle().0, book)
}

/// Each script a byte further from a word's first byte than the one before.
fn odd_bytes() -> Class {
    let mut book = Book::new(8);
    for k in 0..8 {
        book.put(k, &flips(1 + k % 2));
        book.rest.push(255);
    }
    book.rest.extend([255; 5]);
    let shows = "Scripts at each of a word's eight bytes, in a book of no whole words: all are played.";
    class("spans-at-odd-bytes", shows, &toggle().0, book.bytes())
}

/// Counted from behind the arrays, the span would be of a script that is refused.
fn first_byte() -> Class {
    let book = bytes_of(&[1, 24, 16, 0, 0, 9, 9, 9]);
    let shows = "Starts count from the first byte: 24 is right behind the arrays.";
    class("start-from-the-first-byte", shows, &toggle().0, book)
}

/// The first script's last word is the first of the second, which only fires.
/// Counted from behind the arrays, the first span would be the second script.
fn first_byte_of_two() -> Class {
    let mut book = Book::new(2);
    book.put(0, &flips(1));
    book.rest.extend(bytes_of(&[1, bits(0.25), 1, 0, 0]));
    book.spans[1] = (80, 48);
    let shows = "Counted from behind the arrays, the first span would be the second script.";
    class("start-from-the-first-byte-of-two", shows, &toggle().0, book.bytes())
}

/// The scripts stand last first, with bytes between them.
fn any_order() -> Class {
    let mut book = Book::new(4);
    for k in [3, 1, 0, 2] {
        book.rest.extend([170; 3]);
        book.put(k, &flips(k + 1));
    }
    class("spans-in-any-order", "Scripts in another order, with bytes between.", &toggle().0, book.bytes())
}

/// A stimulus for gate 5, which the circuit does not have.
fn another_circuit() -> Class {
    let mut other = flips(1);
    set(&mut other, 4, 5);
    let book = of(&[flips(1), other, flips(2), refused(10)]);
    class("script-of-another-circuit", "A script of another circuit: refused 10.", &toggle().0, book)
}
