//! What is told: steps and bytes, as far as there is room, and nothing where the
//! call is refused.

use super::{one_call, row, size};
use crate::build::*;
use crate::case::Size;

pub fn sizes() -> Vec<Size> {
    let mut ring = one_call();
    let toggles = row(&mut ring, TOGGLE, 2);
    ring.call(toggles[1], toggles[0]);
    let mut sizes = Vec::new();
    for told in [0, 1, 2, 3, 5] {
        let words = format!("{told} words are lent for what is told.");
        let of = |name: &str, shows: &str, c: &Circuit| Size {
            told,
            ..size(format!("told-{told}{name}"), format!("{shows}; {words}"), c)
        };
        sizes.extend([
            of("", "Both figures", &one_call()),
            of("-23", "Refused 23", &ring),
            Size { ticks: 100_001, ..of("-24", "Refused 24", &one_call()) },
            Size { ticks: 0, ..of("-no-ticks", "No ticks", &one_call()) },
            Size { circuit: Vec::new(), ..of("-1", "Refused 1", &one_call()) },
        ]);
    }
    sizes
}
