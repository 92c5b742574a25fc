//! How many scripts a book has, and whether their spans fit it: question 15.

use super::{class, flips, many, of, set, toggle};
use crate::build::{Book, bytes_of};
use crate::case::Class;

pub fn classes() -> Vec<Class> {
    let mut classes = vec![
        counted(1, "one script"),
        counted(2, "two scripts, each with its own answer"),
        counted(15, "fifteen scripts"),
        counted(16, "sixteen scripts, of 0 to 15 ticks"),
    ];
    classes.extend(COUNTS.map(|(name, count)| {
        let mut book = of(&[flips(1)]);
        set(&mut book, 0, count);
        class(format!("count-{name}"), format!("A count of {name}: refused 15."), &toggle().0, book)
    }));
    classes.push(seventeen());
    classes.extend((0..8).map(bytes));
    classes.extend(ARRAYS.map(arrays));
    classes.extend([in_the_arrays(false), in_the_arrays(true)]);
    classes
}

/// Counts that are none, in a book that would do for a count of 1.
const COUNTS: [(&str, i64); 8] = [
    ("0", 0),
    ("-1", -1),
    ("-2^63", i64::MIN),
    ("257", 257),
    ("2^32+1", (1 << 32) + 1),
    ("2^59", 1 << 59),
    ("2^60", 1 << 60),
    ("2^60+1", (1 << 60) + 1),
];

fn counted(count: usize, what: &str) -> Class {
    let scripts: Vec<Vec<u8>> = (0..count).map(|k| flips(if count == 16 { k } else { 1 + k % 2 })).collect();
    class(format!("count-{count}"), format!("A count of {count}: {what}."), &toggle().0, of(&scripts))
}

fn seventeen() -> Class {
    let book = of(&vec![flips(1); 17]);
    class("count-17", "A count of 17, and seventeen scripts: refused 15.", &toggle().0, book)
}

/// A book of fewer bytes than a count has: the first of a count of 1.
fn bytes(length: usize) -> Class {
    let shows = format!("A book of {} has no count: refused 15.", many(length, "byte"));
    class(format!("book-of-{length}-bytes"), shows, &toggle().0, bytes_of(&[1])[..length].to_vec())
}

/// Counts, and the bytes of their books.
const ARRAYS: [(usize, usize); 9] =
    [(1, 8), (1, 16), (1, 23), (1, 24), (2, 24), (2, 39), (2, 40), (16, 263), (16, 264)];

/// A book that is nothing but arrays, of spans that are empty, or is cut short.
fn arrays((count, length): (usize, usize)) -> Class {
    let whole = Book::new(count).bytes();
    let shows = match whole.len() - length {
        0 => format!("A count of {count}, and nothing behind the arrays: each script is refused 8."),
        _ => format!("A count of {count}, and arrays cut short after {length} bytes: refused 15."),
    };
    class(format!("arrays-{count}-of-{length}-bytes"), shows, &toggle().0, whole[..length].to_vec())
}

/// Script 0 is of the second and the third start, which are 0.
fn in_the_arrays(short: bool) -> Class {
    let book = Book { spans: vec![(16, 16), (0, 0), (0, 0)], rest: Vec::new() }.bytes();
    let (name, shows, length) = match short {
        false => ("arrays-played", "The arrays fill the book, and a script of no ticks lies in them.", 56),
        true => ("arrays-a-byte-short", "The same with a byte less: refused 15.", 55),
    };
    class(name, shows, &toggle().0, book[..length].to_vec())
}
