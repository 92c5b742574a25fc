//! Circuits and scripts from a seed: valid ones of several families, and
//! damaged ones for every question. Books of scripts; logs to report on; circuits
//! with many calls.

mod book;
mod damaged;
mod family;
mod looped;
mod random;
mod report;
mod size;
mod valid;

pub use book::book;
pub use damaged::{ASKED, Damaged, damaged, damaged_loops};
pub use family::{FAMILIES, Family, WITH_LOOPS, stated_families};
pub use random::Random;
pub use report::report;
pub use size::size;
pub use valid::valid;
