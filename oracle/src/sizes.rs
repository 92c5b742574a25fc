//! The sizes as bytes, for the program `asked` (crates/asked/data).
//!
//! First how many sizes there are. Then each size: the ticks; the words lent for
//! what is told; the number that the call has to answer; steps and bytes, both 0
//! where the call is refused; the length of the circuit in bytes. Then its words, a
//! last one filled up with zeros. A word is as in the runs.
//!
//! Before the call every word for what is told is eight bytes of 165. Afterwards the
//! first is the steps and the second the bytes, as far as there is room, and what is
//! behind them is as it was. Where the call is refused, all is as it was.

use crate::circuits::{self, Size};
use crate::pack::ROOM;
use crate::runs::{TOLD, filled, word};
use crate::size::Figures;

/// The sizes that are packed, and the names of those that are left out.
pub struct Sizes {
    pub packed: Vec<Size>,
    pub left_out: Vec<String>,
}

/// Every stated size, in order, if the program has room for it.
pub fn sizes() -> Sizes {
    let (packed, left_out): (Vec<Size>, Vec<Size>) = circuits::sizes().into_iter().partition(fits);
    Sizes { packed, left_out: left_out.into_iter().map(|size| size.name).collect() }
}

/// The sizes, packed.
pub fn pack(sizes: &Sizes) -> Vec<u8> {
    let words = [sizes.packed.len() as u64].into_iter().chain(sizes.packed.iter().flat_map(words));
    words.flat_map(word).collect()
}

/// What the program `asked` prints where every size comes out as it has to.
pub fn printed(sizes: &Sizes) -> String {
    format!("{} sizes, 0 wrong\n", sizes.packed.len())
}

/// The words of a size.
fn words(one: &Size) -> Vec<u64> {
    let (number, Figures { steps, bytes }) = match one.answer() {
        Err(number) => (number, Figures { steps: 0, bytes: 0 }),
        Ok(figures) => (0, figures),
    };
    let mut words = vec![one.ticks, one.told as u64, number.into(), steps, bytes, one.circuit.len() as u64];
    words.extend(filled(&one.circuit));
    words
}

fn fits(size: &Size) -> bool {
    size.circuit.len() <= ROOM && size.told <= TOLD
}
