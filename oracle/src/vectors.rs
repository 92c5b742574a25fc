//! The oracle's answers on the stated circuits, as text: one file a group.
//! The format is described in vectors/README.md.

use std::fmt::Write as _;
use std::path::Path;

use crate::circuits::{Case, Class, Group, Report, Size, classes, groups, reports, sizes};
use crate::class::{ClassAnswer, part, told};
use crate::generate::{FAMILIES, damaged, damaged_loops, valid};
use crate::hours::Named;
use crate::size::Figures;
use crate::{Answer, Lent, run};

/// Words above this many are not written but summed up.
const WHOLE: usize = 4_000;

/// The file of the stated classes.
pub const CLASSES: &str = "classes.txt";

/// The file of the stated reports.
pub const REPORTS: &str = "reports.txt";

/// The file of the stated sizes.
pub const SIZES: &str = "sizes.txt";

/// Writes the vectors of each group, of the classes, of the reports and of the sizes
/// to a folder.
pub fn write(dir: &Path) -> std::io::Result<()> {
    for group in groups() {
        std::fs::write(dir.join(file_name(&group)), text(&group))?;
    }
    std::fs::write(dir.join(CLASSES), text_of_classes())?;
    std::fs::write(dir.join(REPORTS), text_of_reports())?;
    std::fs::write(dir.join(SIZES), text_of_sizes())
}

/// Writes the vectors of every family and of damaged cases, for the seeds from
/// `first` up to `last`, to `random.txt` in a folder.
pub fn write_random(dir: &Path, first: u64, last: u64) -> std::io::Result<()> {
    let mut text = String::new();
    for seed in first..last {
        for family in FAMILIES {
            text += &vector(&valid(seed, family));
        }
        text += &vector(&damaged(seed).case);
        text += &vector(&damaged_loops(seed).case);
    }
    std::fs::write(dir.join("random.txt"), text)
}

pub fn file_name(group: &Group) -> String {
    format!("{}.txt", group.name)
}

/// The file of a group.
pub fn text(group: &Group) -> String {
    group.cases.iter().map(vector).collect()
}

fn vector(case: &Case) -> String {
    let mut text = format!("case {}\n", case.name);
    if case.lent != Lent::default() {
        let Lent { log, values, units, delays } = case.lent;
        let _ = writeln!(text, "lent {log} {values} {units} {delays}");
    }
    text += &bytes("circuit", &case.circuit);
    text += &bytes("script", &case.script);
    text + &answer(case)
}

fn answer(case: &Case) -> String {
    in_lines(&run(&case.circuit, &case.script, &case.lent))
}

fn in_lines(answer: &Answer) -> String {
    match answer {
        Answer::Refused(number) => format!("refused {number}\n"),
        Answer::Played { log, stop, ticks } => {
            format!("{}end {stop} {ticks}\n", words("log", log))
        }
    }
}

/// The text of [`CLASSES`].
pub fn text_of_classes() -> String {
    classes().iter().map(class_vector).collect()
}

fn class_vector(class: &Class) -> String {
    let Lent { log, values, units, delays } = class.lent;
    let mut text = format!("class {}\nlent {log} {values} {units} {delays} {}\n", class.name, class.told);
    text += &bytes("circuit", &class.circuit);
    text += &bytes("book", &class.book);
    match class.answer() {
        ClassAnswer::Refused(number) => text + &format!("refused {number}\n"),
        ClassAnswer::Answered(answers) => text + &class_answer(class, &answers),
    }
}

fn class_answer(class: &Class, answers: &[Answer]) -> String {
    let mut text = format!("parts {} {}\n", answers.len(), part(class.lent.log, answers.len()));
    text.extend(answers.iter().map(in_lines));
    let played = answers.iter().any(|answer| matches!(answer, Answer::Played { .. }));
    text += if played { "areas zero\n" } else { "areas untouched\n" };
    let told = answers.iter().flat_map(told).take(class.told);
    text + &words("told", &told.map(|word| word as i64).collect::<Vec<_>>())
}

/// The text of [`REPORTS`].
pub fn text_of_reports() -> String {
    reports().iter().map(report_vector).collect()
}

fn report_vector(report: &Report) -> String {
    let mut text = format!("report {}\n{}\n", report.name, asked(report));
    text += &bytes("circuit", &report.circuit);
    text += &bytes("log", &report.log);
    match report.answer() {
        Err(number) => text + &format!("refused {number}\n"),
        Ok(lines) => {
            let told = (report.told > 0).then_some(lines.len() as i64);
            text + &bytes("lines", &lines) + &words("told", told.as_slice())
        }
    }
}

/// The line of what is asked: what is named, and what is lent.
pub fn asked(report: &Report) -> String {
    let Named { driver, activity, length } = report.named;
    let named = [driver, activity, length].map(|word| (word as i64).to_string()).join(" ");
    format!("asked {named} {} {}", report.room, report.told)
}

/// The text of [`SIZES`].
pub fn text_of_sizes() -> String {
    sizes().iter().map(size_vector).collect()
}

fn size_vector(size: &Size) -> String {
    let mut text = format!("size {}\n{}\n", size.name, asked_of_size(size));
    text += &bytes("circuit", &size.circuit);
    match size.answer() {
        Err(number) => text + &format!("refused {number}\n"),
        Ok(Figures { steps, bytes }) => {
            let told = [steps, bytes].map(|figure| figure as i64);
            text + &words("figures", &told) + &words("told", &told[..size.told.min(2)])
        }
    }
}

/// The line of what is asked: the ticks, and what is lent.
pub fn asked_of_size(size: &Size) -> String {
    format!("asked {} {}", size.ticks as i64, size.told)
}

/// Whether a vector gives these bytes, and not their sum.
pub fn is_whole(bytes: &[u8]) -> bool {
    let (whole, rest) = bytes.as_chunks::<8>();
    !rest.is_empty() || whole.len() <= WHOLE
}

/// Bytes as words, or in hexadecimal where they are no whole words.
fn bytes(name: &str, bytes: &[u8]) -> String {
    let (whole, rest) = bytes.as_chunks::<8>();
    if rest.is_empty() {
        return words(name, &whole.iter().map(|w| i64::from_le_bytes(*w)).collect::<Vec<_>>());
    }
    let digits: String = bytes.iter().map(|b| format!("{b:02x}")).collect();
    format!("{name}-bytes {digits}\n")
}

/// Words in signed decimal, or their number and hash where they are many.
fn words(name: &str, words: &[i64]) -> String {
    if words.len() > WHOLE {
        return format!("{name}-sum {} {:016x}\n", words.len(), fnv(words));
    }
    let mut text = name.to_string();
    for w in words {
        let _ = write!(text, " {w}");
    }
    text + "\n"
}

/// FNV-1a, 64 bits, over the bytes of the words.
pub fn fnv(words: &[i64]) -> u64 {
    let bytes = words.iter().flat_map(|w| w.to_le_bytes());
    bytes.fold(0xcbf2_9ce4_8422_2325, |hash, byte| (hash ^ u64::from(byte)).wrapping_mul(0x0100_0000_01b3))
}
