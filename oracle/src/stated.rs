//! The commands of the stated circuits and of the generator.

use std::path::Path;

use oracle::Lent;
use oracle::circuits::{Case, Class, Report, Size, all, classes, reports, sizes};
use oracle::generate::{FAMILIES, damaged, damaged_loops, valid};

/// Writes the stated circuit, class, report or size of this name; the answer is
/// what goes with its files.
pub fn write_stated(name: &str, dir: &Path) -> Option<String> {
    if let Some(case) = stated(name) {
        return write(&case, dir);
    }
    if let Some(class) = stated_class(name) {
        return write_class(&class, dir);
    }
    if let Some(report) = stated_report(name) {
        return write_report(&report, dir);
    }
    write_size(&stated_size(name)?, dir)
}

/// The stated circuit of this name.
fn stated(name: &str) -> Option<Case> {
    all().into_iter().find(|case| case.name == name)
}

/// The stated class of this name.
fn stated_class(name: &str) -> Option<Class> {
    classes().into_iter().find(|class| class.name == name)
}

/// The stated report of this name.
fn stated_report(name: &str) -> Option<Report> {
    reports().into_iter().find(|report| report.name == name)
}

/// The stated size of this name.
fn stated_size(name: &str) -> Option<Size> {
    sizes().into_iter().find(|size| size.name == name)
}

/// The case of a family, or a damaged one, and a seed.
pub fn generated(family: &str, seed: &str) -> Option<Case> {
    let seed = seed.parse().ok()?;
    match family {
        "damaged" => return Some(damaged(seed).case),
        "damaged-loops" => return Some(damaged_loops(seed).case),
        _ => {}
    }
    let family = FAMILIES.into_iter().find(|f| f.name() == family)?;
    Some(valid(seed, family))
}

/// Writes circuit.bin and script.bin; the answer is the options to play them.
pub fn write(case: &Case, dir: &Path) -> Option<String> {
    write_files(dir, &case.circuit, "script.bin", &case.script)?;
    let Lent { log, values, units, delays } = case.lent;
    Some(format!("--log {log} --values {values} --units {units} --delays {delays} --any-size"))
}

/// Writes circuit.bin and book.bin; the answer is what is lent, as vectors/ has it.
fn write_class(class: &Class, dir: &Path) -> Option<String> {
    write_files(dir, &class.circuit, "book.bin", &class.book)?;
    let Lent { log, values, units, delays } = class.lent;
    Some(format!("lent {log} {values} {units} {delays} {}", class.told))
}

/// Writes circuit.bin and log.bin; the answer is what is asked, as vectors/ has it.
fn write_report(report: &Report, dir: &Path) -> Option<String> {
    write_files(dir, &report.circuit, "log.bin", &report.log)?;
    Some(oracle::vectors::asked(report))
}

/// Writes circuit.bin; the answer is what is asked, as vectors/ has it.
fn write_size(size: &Size, dir: &Path) -> Option<String> {
    write_circuit(dir, &size.circuit)?;
    Some(oracle::vectors::asked_of_size(size))
}

fn write_files(dir: &Path, circuit: &[u8], name: &str, bytes: &[u8]) -> Option<()> {
    write_circuit(dir, circuit)?;
    std::fs::write(dir.join(name), bytes).ok()
}

fn write_circuit(dir: &Path, circuit: &[u8]) -> Option<()> {
    std::fs::create_dir_all(dir).ok()?;
    std::fs::write(dir.join("circuit.bin"), circuit).ok()
}
