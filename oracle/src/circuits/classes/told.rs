//! What is told: three words for each script, as far as there is room.

use super::{class, flips, many, of, refused, set, toggle};
use crate::case::Class;

pub fn classes() -> Vec<Class> {
    let three = [flips(1), refused(9), flips(2)];
    let sixteen: Vec<Vec<u8>> =
        (0..16).map(|k| if k % 5 == 3 { refused(10) } else { flips(k % 3) }).collect();
    let mut classes: Vec<Class> = (0..12).map(|words| told(&three, words)).collect();
    classes.extend((0..6).map(|words| told(&[flips(1)], words)));
    classes.extend([46, 47, 48, 49, 64].map(|words| told(&sixteen, words)));
    classes.push(of_a_refused_call());
    classes
}

fn told(scripts: &[Vec<u8>], words: usize) -> Class {
    let count = scripts.len();
    let due = 3 * count;
    let comes = match words {
        0 => "none is written".into(),
        _ if words < due => "the first are written".into(),
        _ if words == due => "all are written".into(),
        _ => format!("what is behind {due} stays as it was"),
    };
    let shows = format!("{}, and room for {} told: {comes}.", many(count, "script"), many(words, "word"));
    let mut class = class(format!("told-{words}-for-{count}"), shows, &toggle().0, of(scripts));
    class.told = words;
    class
}

fn of_a_refused_call() -> Class {
    let mut book = of(&[flips(1), flips(2)]);
    set(&mut book, 0, 0);
    let mut class = class("told-nothing", "A call that is refused 15 tells nothing.", &toggle().0, book);
    class.told = 6;
    class
}
