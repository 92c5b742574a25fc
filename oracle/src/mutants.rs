//! Breaks the oracle in one place at a time (mutants.txt) and says which
//! stated circuits, classes, reports and sizes tell it: whose answer is not the unbroken oracle's.

use std::fmt::Write;
use std::io::{BufRead, BufReader};
use std::path::{Path, PathBuf};
use std::process::{Child, Command, Stdio};
use std::sync::mpsc;
use std::time::Duration;

use oracle::Lent;
use oracle::circuits::{self, Case, Class, Report, Size};
use oracle::reports;

/// The longest a broken oracle may take over a circuit.
const PATIENCE: Duration = Duration::from_secs(60);

/// One broken oracle.
#[derive(Debug, Default)]
struct Mutant {
    name: String,
    /// What it breaks.
    breaks: String,
    edits: Vec<Edit>,
}

/// A line of a file of this crate and the lines in its place.
#[derive(Debug, Default)]
struct Edit {
    file: String,
    old: String,
    /// Which of the lines alike, from 1; 0 where there is one only.
    which: usize,
    new: Vec<String>,
}

/// Try the mutants of these names, or all.
pub fn try_mutants(names: &[&str]) {
    let all = parse(&std::fs::read_to_string(home().join("mutants.txt")).expect("mutants.txt"));
    let scratch = Scratch::new();
    let known = scratch.known();
    let (mut tried, mut told) = (0, 0);
    for mutant in all.iter().filter(|m| names.is_empty() || names.contains(&m.name.as_str())) {
        tried += 1;
        let Some(program) = scratch.build(mutant) else {
            println!("DOES NOT BUILD {}: {}", mutant.name, mutant.breaks);
            continue;
        };
        let tellers = known.tellers(&program);
        told += usize::from(!tellers.is_empty());
        match &tellers[..] {
            [] => println!("NOT TOLD {}: {}", mutant.name, mutant.breaks),
            [first, ..] => println!("told {} by {}, first {first}", mutant.name, tellers.len()),
        }
    }
    println!("{told} of {tried} told");
}

/// This crate's folder.
fn home() -> &'static Path {
    Path::new(env!("CARGO_MANIFEST_DIR"))
}

/// The mutants of a text: `name`, `breaks`, then for each edit `file` where
/// it changes, `-` and the old line (`-2` the second alike), `+` new lines.
fn parse(text: &str) -> Vec<Mutant> {
    let mut mutants: Vec<Mutant> = Vec::new();
    let mut file = String::new();
    for line in text.lines().filter(|l| !l.is_empty() && !l.starts_with('#')) {
        let (key, rest) = line.split_once(' ').unwrap_or((line, ""));
        let rest = rest.trim().to_string();
        if key == "name" {
            mutants.push(Mutant { name: rest, ..Mutant::default() });
            continue;
        }
        let mutant = mutants.last_mut().expect("a name first");
        match key {
            "breaks" => mutant.breaks = rest,
            "file" => file = rest,
            "+" => mutant.edits.last_mut().expect("an old line first").new.push(rest),
            _ => {
                let which = key.strip_prefix('-').unwrap_or_else(|| panic!("{line}"));
                let which = if which.is_empty() { 0 } else { which.parse().expect("a number") };
                mutant.edits.push(Edit { file: file.clone(), old: rest, which, new: vec![] });
            }
        }
    }
    mutants
}

impl Mutant {
    fn files(&self) -> Vec<&str> {
        let mut files: Vec<&str> = self.edits.iter().map(|e| e.file.as_str()).collect();
        files.sort_unstable();
        files.dedup();
        files
    }

    /// The text of `file` with this mutant's edits, each found in the text as
    /// it was.
    fn apply(&self, file: &str, text: &str) -> String {
        let mut lines: Vec<String> = text.lines().map(str::to_string).collect();
        let places: Vec<(usize, &Edit)> =
            self.edits.iter().filter(|e| e.file == file).map(|e| (self.place(e, text), e)).collect();
        for (at, edit) in places {
            lines[at] = edit.new.join("\n");
        }
        lines.join("\n") + "\n"
    }

    fn place(&self, edit: &Edit, text: &str) -> usize {
        let alike: Vec<usize> =
            text.lines().enumerate().filter(|(_, l)| l.trim() == edit.old).map(|(at, _)| at).collect();
        match (edit.which, &alike[..]) {
            (0, [one]) => *one,
            (which, alike) if which > 0 && which <= alike.len() => alike[which - 1],
            _ => panic!("{}: {} lines alike in {}: {}", self.name, alike.len(), edit.file, edit.old),
        }
    }
}

/// A copy of this crate to break, without the stated circuits: the broken
/// oracle reads them from a file.
struct Scratch(PathBuf);

/// What goes from the copy: modules of lib.rs.
const STATED: [&str; 10] = [
    "pub mod build;",
    "pub mod case;",
    "pub mod circuits;",
    "pub mod classes;",
    "pub mod generate;",
    "pub mod pack;",
    "pub mod reports;",
    "pub mod runs;",
    "pub mod sizes;",
    "pub mod vectors;",
];

impl Scratch {
    fn new() -> Self {
        let scratch = Self(std::env::temp_dir().join("oracle-mutants"));
        let _ = std::fs::remove_dir_all(scratch.0.join("src"));
        copy(&home().join("src"), &scratch.0.join("src"));
        std::fs::copy(home().join("Cargo.toml"), scratch.0.join("Cargo.toml")).expect("a copy");
        std::fs::write(scratch.0.join("src/main.rs"), "fn main() {}\n").expect("a copy");
        scratch.put("src/lib.rs", &whole("src/lib.rs"));
        scratch
    }

    /// Write a file of the copy.
    fn put(&self, file: &str, text: &str) {
        let kept = text.lines().filter(|l| !STATED.contains(l)).map(|l| format!("{l}\n"));
        std::fs::write(self.0.join(file), kept.collect::<String>()).expect("a copy");
    }

    /// Build the mutant and leave the copy whole again. The answer is where
    /// the program stands.
    fn build(&self, mutant: &Mutant) -> Option<PathBuf> {
        for file in mutant.files() {
            self.put(file, &mutant.apply(file, &whole(file)));
        }
        let built = Command::new("cargo")
            .args(["build", "--release", "--offline", "-j1", "--bin", "answers"])
            .current_dir(&self.0)
            .env("CARGO_TARGET_DIR", self.0.join("target"))
            .env("CARGO_PROFILE_RELEASE_OPT_LEVEL", "1")
            .env("CARGO_PROFILE_RELEASE_INCREMENTAL", "true")
            .stderr(Stdio::null())
            .status();
        for file in mutant.files() {
            self.put(file, &whole(file));
        }
        built.is_ok_and(|s| s.success()).then(|| self.0.join("target/release/answers"))
    }

    /// The unbroken oracle's answers, with the cases in a file for the quick
    /// ones and one for the slow ones.
    fn known(&self) -> Known {
        let program = self.build(&Mutant::default()).expect("the unbroken oracle builds");
        let mut cases: Vec<String> = circuits::all().iter().map(line_of).collect();
        cases.extend(circuits::classes().iter().map(line_of_class));
        cases.extend(circuits::reports().iter().map(line_of_report));
        cases.extend(circuits::sizes().iter().map(line_of_size));
        let all = self.write_cases("all.txt", &cases);
        let lines: Vec<String> = answers(&mut start(&program, &all)).into_iter().collect();
        assert_eq!(lines.len(), cases.len());
        let is_slow = |line: &String| line.split('\t').nth(1) == Some("slow");
        let [quick, slow] = [false, true].map(|wanted| {
            let some = |of: &[String]| -> Vec<String> {
                of.iter().zip(&lines).filter(|(_, l)| is_slow(l) == wanted).map(|(s, _)| s.clone()).collect()
            };
            let name = if wanted { "slow.txt" } else { "quick.txt" };
            Cases { file: self.write_cases(name, &some(&cases)), lines: some(&lines) }
        });
        Known { quick, slow }
    }

    fn write_cases(&self, name: &str, cases: &[String]) -> PathBuf {
        let file = self.0.join(name);
        std::fs::write(&file, cases.join("\n") + "\n").expect("a file of cases");
        file
    }
}

/// A file of this crate as it is.
fn whole(file: &str) -> String {
    std::fs::read_to_string(home().join(file)).expect("a file of this crate")
}

/// A case as the program answers.rs reads it.
fn line_of(case: &Case) -> String {
    line(&case.name, &case.lent, [&case.circuit, &case.script])
}

/// A class as the program answers.rs reads it.
fn line_of_class(class: &Class) -> String {
    format!("{}\t{}", line(&class.name, &class.lent, [&class.circuit, &class.book]), class.told)
}

/// A report as the program answers.rs reads it.
fn line_of_report(report: &Report) -> String {
    let asked = reports::asked(report).map(|word| word.to_string()).join("\t");
    in_line(format!("{}\treport\t{asked}", report.name), &[&report.circuit, &report.log])
}

/// A size as the program answers.rs reads it.
fn line_of_size(size: &Size) -> String {
    in_line(format!("{}\tsize\t{}\t{}", size.name, size.ticks, size.told), &[&size.circuit])
}

fn line(name: &str, lent: &Lent, parts: [&[u8]; 2]) -> String {
    let lent = [lent.log, lent.values, lent.units, lent.delays].map(|length| length.to_string());
    in_line(format!("{name}\t{}", lent.join("\t")), &parts)
}

/// A line with these bytes behind it, in hexadecimal.
fn in_line(mut line: String, parts: &[&[u8]]) -> String {
    for bytes in parts {
        line.push('\t');
        bytes.iter().for_each(|b| write!(line, "{b:02x}").expect("room"));
    }
    line
}

fn copy(from: &Path, to: &Path) {
    std::fs::create_dir_all(to).expect("a folder");
    for entry in std::fs::read_dir(from).expect("a folder") {
        let path = entry.expect("an entry").path();
        let to = to.join(path.file_name().expect("a name"));
        if path.is_dir() {
            copy(&path, &to);
        } else {
            std::fs::copy(&path, &to).expect("a copy");
        }
    }
}

/// Cases in a file, with the unbroken oracle's answers.
struct Cases {
    file: PathBuf,
    lines: Vec<String>,
}

/// The slow cases are played only when no quick one tells.
struct Known {
    quick: Cases,
    slow: Cases,
}

impl Known {
    /// The circuits, classes, reports and sizes that tell `program` from the unbroken oracle.
    fn tellers(&self, program: &Path) -> Vec<String> {
        let quick = self.quick.tellers(program);
        if quick.is_empty() { self.slow.tellers(program) } else { quick }
    }
}

impl Cases {
    /// Of these, those whose answer differs or does not come.
    fn tellers(&self, program: &Path) -> Vec<String> {
        let mut child = start(program, &self.file);
        let lines = answers(&mut child);
        let mut tellers = Vec::new();
        for known in &self.lines {
            let answer = lines.recv_timeout(PATIENCE).ok();
            if answer.as_ref() != Some(known) {
                tellers.push(known.split('\t').next().expect("a name").to_string());
            }
            if answer.is_none() {
                break;
            }
        }
        let _ = child.kill();
        let _ = child.wait();
        tellers
    }
}

fn start(program: &Path, cases: &Path) -> Child {
    let mut command = Command::new(program);
    command.arg(cases).stdout(Stdio::piped()).stderr(Stdio::null());
    command.spawn().expect("a built program")
}

/// What `child` prints, line by line.
fn answers(child: &mut Child) -> mpsc::Receiver<String> {
    let output = child.stdout.take().expect("piped");
    let (send, lines) = mpsc::channel();
    std::thread::spawn(move || {
        for line in BufReader::new(output).lines().map_while(Result::ok) {
            let _ = send.send(line);
        }
    });
    lines
}

#[cfg(test)]
mod tests {
    use super::*;

    /// Every old line of mutants.txt stands in its file, and no name twice.
    #[test]
    fn every_mutant_applies() {
        let mutants = parse(&std::fs::read_to_string(home().join("mutants.txt")).unwrap());
        assert!(mutants.len() >= 100, "{}", mutants.len());
        let mut names: Vec<&str> = mutants.iter().map(|m| m.name.as_str()).collect();
        names.sort_unstable();
        names.dedup();
        assert_eq!(names.len(), mutants.len());
        for mutant in &mutants {
            assert!(!mutant.breaks.is_empty() && !mutant.edits.is_empty(), "{}", mutant.name);
            for file in mutant.files() {
                let text = whole(file);
                assert_ne!(mutant.apply(file, &text), text, "{}", mutant.name);
            }
        }
    }
}
