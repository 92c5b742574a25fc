//! The stated circuits: every circuit and script that the player is compared
//! on, each with what it shows. docs/CIRCUITS.md is written from this list.

mod carried;
mod classes;
mod families;
mod kinds;
mod limits;
mod list;
mod loops;
mod narrowed;
mod places;
mod played;
mod questions;
mod reports;
mod sizes;
mod start;
mod traps;
mod vehicles;

pub use crate::case::{Case, Class, Report, Size};
pub use classes::classes;
pub use list::document;
pub use places::{HELD_OTHERWISE, PLACES};
pub use reports::reports;
pub use sizes::sizes;

/// The cases of one file, in order.
pub struct Group {
    pub name: &'static str,
    pub about: &'static str,
    pub cases: Vec<Case>,
}

pub fn groups() -> Vec<Group> {
    let group = |name, about, cases| Group { name, about, cases };
    vec![
        group(
            "played",
            "Document 01's played examples, and the answers that look right and are wrong.",
            played::cases(),
        ),
        group("traps", "One circuit or more for each place where a port goes wrong.", traps::cases()),
        group(
            "start",
            "What is in place at the start is noticed in tick 1 (document 02, K2).",
            start::cases(),
        ),
        group("carried", "What a tick carries is listed in its record (document 02, K4).", carried::cases()),
        group(
            "narrowed",
            "What a tick narrows and so changes is counted in its record (document 02, K9).",
            narrowed::cases(),
        ),
        group(
            "loops",
            "Counted loops: what they read, run and show, Breaks, Unions, forks and limits in bodies, what \
             bodies put off, and question 19 (document 02, K5).",
            loops::cases(),
        ),
        group("kinds", "Every kind and every pin.", kinds::cases()),
        group("limits", "Every limit at its edge and one past it.", limits::cases()),
        group(
            "questions",
            "Each question at each of its bounds, and two faults at once.",
            questions::cases(),
        ),
        group("vehicles", "Six vehicles of a kit.", vehicles::cases()),
        group("families", "Seeded random circuits of each family, whole and damaged.", families::cases()),
    ]
}

/// Every stated circuit.
pub fn all() -> Vec<Case> {
    groups().into_iter().flat_map(|g| g.cases).collect()
}
