//! docs/CIRCUITS.md, written from the list of the stated circuits.

use super::places::{HELD_OTHERWISE, PLACES};
use super::{Case, Group, classes, groups, reports, sizes};
use crate::generate::stated_families;

/// The text of docs/CIRCUITS.md.
pub fn document() -> String {
    let groups = groups();
    let mut text = String::from(INTRODUCTION);
    for group in &groups {
        text += &format!("\n## {}\n\n{}\n\n", capital(group.name), group.about);
        text += &if group.name == "families" { families(group) } else { table(&group.cases) };
    }
    text += &format!("{CLASSES_INTRODUCTION}{}", class_table());
    text += &format!("{REPORTS_INTRODUCTION}{}", report_table());
    text += &format!("{SIZES_INTRODUCTION}{}", size_table());
    text += PLACES_INTRODUCTION;
    for (place, number) in PLACES.into_iter().zip(1..) {
        text += &format!("{number}. {place} {}\n", told(&groups, number));
    }
    text
}

const INTRODUCTION: &str = "# The stated circuits

Every circuit and script that the player and the source are compared on, with what each shows. This page is
written from the list in `oracle/src/circuits` (`oracle circuits > docs/CIRCUITS.md`), and a test holds it to
that list. `oracle circuits NAME DIR` writes one as `circuit.bin` and `script.bin`, a class as `circuit.bin` and
`book.bin`, a report as `circuit.bin` and `log.bin`, or a size as `circuit.bin`; `vectors/` holds the answers.
";

const CLASSES_INTRODUCTION: &str = "\n## Classes

Books of scripts, each over one circuit in one call: their counts and arrays, the order of the questions, spans,
parts of the log, what is refused or stopped, what is left, and what is told (document 02, K1). Most are over
the circuit of `toggle`.

";

const REPORTS_INTRODUCTION: &str = "\n## Reports

Finished logs, each with the outputs and the length that are named of it: the order of the questions, whole records
of a circuit clause by clause, what is named, whose ticks are, minutes, the room, and what is told (document 02, K3).
Most are over a circuit of two Vars, a ChangeDetector and a World, and no run wrote them.

";

const SIZES_INTRODUCTION: &str = "\n## Sizes

Circuits of which the most steps of a unit and the most bytes of a log are asked, without a run: the order of the
questions, what a gate passes on to, where a unit may start, rings of calls and Loops, many steps, the bytes of a log,
and what is told (document 02, K12). Without another number they are for ten ticks.

";

const PLACES_INTRODUCTION: &str = "\n## Places where a port goes wrong

Each with the circuits that tell it, or how else it is held.

";

fn capital(name: &str) -> String {
    let (first, rest) = name.split_at(1);
    first.to_uppercase() + rest
}

fn table(cases: &[Case]) -> String {
    let mut text = String::from("| circuit | shows |\n|---|---|\n");
    for case in cases {
        text += &format!("| {} | {} |\n", case.name, case.shows);
    }
    text
}

fn class_table() -> String {
    let rows = classes().into_iter().map(|class| (class.name, class.shows)).collect();
    listed("class", rows, RANDOM_CLASSES)
}

fn report_table() -> String {
    let rows = reports().into_iter().map(|report| (report.name, report.shows)).collect();
    listed("report", rows, RANDOM_REPORTS)
}

fn size_table() -> String {
    let rows = sizes().into_iter().map(|size| (size.name, size.shows)).collect();
    listed("size", rows, RANDOM_SIZES)
}

/// Names and what they show. The random ones have one row.
fn listed(what: &str, rows: Vec<(String, String)>, of_random: &str) -> String {
    let mut text = format!("| {what} | shows |\n|---|---|\n");
    let (random, stated): (Vec<_>, Vec<_>) = rows.into_iter().partition(|row| row.0.starts_with("random-"));
    for (name, shows) in stated {
        text += &format!("| {name} | {shows} |\n");
    }
    let [first, .., last] = &random[..] else { panic!("random ones") };
    text + &format!("| {} to {} | {of_random} |\n", first.0, last.0)
}

const RANDOM_CLASSES: &str = "Circuits of every family with books of 0 to 17 scripts, made for them, cut short, damaged or \
     another circuit's, at any byte, with spans that stray and logs of any length";

const RANDOM_REPORTS: &str = "Logs of random circuits of every family, as they are or with other drivers and activities, \
     whole or damaged, with outputs and lengths named well and badly";

const RANDOM_SIZES: &str = "Circuits of every family, damaged ones, and ones with many calls, most of them without a \
     ring; ticks up to 100,000, and more now and then";

/// One row a family: its circuits differ in their seeds alone.
fn families(group: &Group) -> String {
    let mut text = String::from("| circuits | family |\n|---|---|\n");
    for family in stated_families() {
        text += &row(group, &format!("random-{}", family.name()), family.about());
    }
    text += &row(group, "damaged", "Small circuits with a fault of one or two questions");
    text + &row(group, "damaged-loops", "Circuits with Loops and a fault of one or two questions")
}

fn row(group: &Group, name: &str, about: &str) -> String {
    let seed = |case: &&Case| case.name.strip_prefix(name)?.strip_prefix('-')?.parse::<u64>().ok();
    let n = group.cases.iter().filter(|case| seed(case).is_some()).count();
    format!("| {name}-0 to {name}-{} | {about} |\n", n - 1)
}

/// The circuits that tell a place, or how else it is held.
fn told(groups: &[Group], place: u8) -> String {
    if let Some((_, otherwise)) = HELD_OTHERWISE.into_iter().find(|held| held.0 == place) {
        return otherwise.to_string();
    }
    let cases = groups.iter().flat_map(|g| &g.cases).filter(|c| c.trap.contains(&place));
    let names: Vec<&str> = cases.map(|c| c.name.as_str()).collect();
    let more = if names.len() > 8 { format!(" and {} more", names.len() - 8) } else { String::new() };
    format!("({}{more})", names[..names.len().min(8)].join(", "))
}
