//! Writes the vectors as theorems about the definition, proved by `refl`: the
//! prover computes each answer from bytes (see tools/compare).
//!
//! theorems VECTORS CRATE [SORT]: the vectors in the folder VECTORS, as the specs
//! of a crate in the folder CRATE, so many theorems a module; of one sort alone,
//! where it is named by the word that its vectors begin with (case, class, report
//! or size).

use std::fmt::Write as _;
use std::path::Path;
use std::process::ExitCode;

use oracle::Lent;
use oracle::play::start;
use oracle::questions::{ask, ask_circuit};

/// What the prover computes within its limits: words of a log that takes the
/// whole run, and its steps, units and runs of bodies times its gates. A run
/// above either is left out, and counted.
const MOST_WORDS: usize = 3_000;
const MOST_WORK: usize = 40_000;

/// And of a size its gates times its gates and calls.
const MOST_WALKED: usize = 15_000;

/// The words of a record before its units begun.
const HEAD: usize = 7;

const THEOREMS_A_MODULE: usize = 25;

/// What log and areas hold before a class, and the words for what is told.
const FILLED: u8 = 165;
const FILLED_WORD: u64 = u64::from_le_bytes([FILLED; 8]);

fn main() -> ExitCode {
    let arguments: Vec<String> = std::env::args().skip(1).collect();
    let (vectors, target, only) = match arguments.as_slice() {
        [vectors, target] => (vectors, target, None),
        [vectors, target, word] if sort(word).is_some() => (vectors, target, sort(word)),
        _ => {
            eprintln!("theorems VECTORS CRATE [case | class | report | size]");
            return ExitCode::FAILURE;
        }
    };
    match write(vectors.as_ref(), target.as_ref(), only) {
        Ok(counts) => {
            println!("{counts}");
            ExitCode::SUCCESS
        }
        Err(error) => {
            eprintln!("theorems: {error}");
            ExitCode::FAILURE
        }
    }
}

fn write(vectors: &Path, target: &Path, only: Option<Sort>) -> std::io::Result<String> {
    let mut files: Vec<_> = std::fs::read_dir(vectors)?.collect::<Result<_, _>>()?;
    files.sort_by_key(|file| file.path());
    let texts: Vec<String> = files
        .iter()
        .filter(|file| file.path().extension().is_some_and(|e| e == "txt"))
        .map(|file| std::fs::read_to_string(file.path()))
        .collect::<Result<_, _>>()?;
    let is_wanted = |case: &Case| only.is_none_or(|sort| case.sort == sort);
    let cases: Vec<Case> = texts.iter().flat_map(|text| cases(text)).filter(is_wanted).collect();
    let kept: Vec<&Case> = cases.iter().filter(|case| case.fits()).collect();
    let of = |sort: Sort| -> Vec<&Case> { kept.iter().copied().filter(|case| case.sort == sort).collect() };
    let (runs, classes) = (of(Sort::Run), of(Sort::Class));
    let (reports, sizes) = (of(Sort::Report), of(Sort::Size));
    let refusals = runs.iter().filter(|case| case.get("refused").is_some()).count();

    let specs = target.join("specs");
    std::fs::create_dir_all(&specs)?;
    std::fs::create_dir_all(target.join("src"))?;
    std::fs::write(target.join("src/lib.rt"), "// Theorems alone: see specs/.\n#![tactic(auto)]\n")?;
    std::fs::write(specs.join("Left.antt"), LEFT)?;
    std::fs::write(specs.join("Sized.antt"), SIZED)?;
    let mut root = String::from("pub mod Left\npub mod Sized\n");
    let parts = [
        ("Part", HEAD_OF_RUNS, &runs),
        ("Class", HEAD_OF_CLASSES, &classes),
        ("Report", HEAD_OF_REPORTS, &reports),
        ("Size", HEAD_OF_SIZES, &sizes),
    ];
    for (name, head, cases) in parts {
        for (n, chunk) in cases.chunks(THEOREMS_A_MODULE).enumerate() {
            let _ = writeln!(root, "pub mod {name}{n}");
            std::fs::write(specs.join(format!("{name}{n}.antt")), module(head, chunk))?;
        }
    }
    std::fs::write(specs.join("Lib.antt"), root)?;
    let (runs, classes) = (runs.len() - refusals, classes.len());
    let (reports, sizes) = (reports.len(), sizes.len());
    let left_out = cases.len() - kept.len();
    Ok(format!(
        "{runs} runs, {refusals} refusals, {classes} classes, {reports} reports and {sizes} sizes as theorems, {left_out} left out as too long"
    ))
}

/// What a vector file has.
#[derive(Clone, Copy, PartialEq, Eq)]
enum Sort {
    Run,
    Class,
    Report,
    Size,
}

/// By the word that its first line begins with.
fn sort(word: &str) -> Option<Sort> {
    match word {
        "case" => Some(Sort::Run),
        "class" => Some(Sort::Class),
        "report" => Some(Sort::Report),
        "size" => Some(Sort::Size),
        _ => None,
    }
}

/// A case of a vector file, a class, a report or a size: its name, and its lines,
/// each a word and the rest.
struct Case<'a> {
    name: &'a str,
    sort: Sort,
    lines: Vec<(&'a str, &'a str)>,
}

fn cases(text: &str) -> Vec<Case<'_>> {
    let mut cases: Vec<Case> = Vec::new();
    for line in text.lines() {
        let (word, rest) = line.split_once(' ').unwrap_or((line, ""));
        match (sort(word), cases.last_mut()) {
            (Some(sort), _) => cases.push(Case { name: rest, sort, lines: Vec::new() }),
            (None, Some(case)) => case.lines.push((word, rest)),
            (None, None) => {}
        }
    }
    cases
}

impl Case<'_> {
    fn get(&self, word: &str) -> Option<&str> {
        self.lines.iter().find(|line| line.0 == word).map(|line| line.1)
    }

    /// Whether nothing of it is summed up and the prover can compute it.
    fn fits(&self) -> bool {
        let summed = self.lines.iter().any(|line| line.0.ends_with("-sum"));
        let refused = self.get("refused").is_some() && self.get("parts").is_none();
        match self.sort {
            Sort::Size => !summed && self.walked() <= MOST_WALKED,
            Sort::Run | Sort::Class | Sort::Report => !summed && (refused || self.is_short()),
        }
    }

    /// What the rounds of a size walk: as many as it has gates, each over all its
    /// gates and calls; none where its circuit is refused.
    fn walked(&self) -> usize {
        let Ok(circuit) = ask_circuit(&self.raw("circuit"), None) else { return 0 };
        let gates = circuit.kinds.len();
        gates * (gates + circuit.calls.len())
    }

    /// All its scripts together, those that are refused left out. A report has
    /// none: no log that is given whole is too long.
    fn is_short(&self) -> bool {
        let circuit = self.raw("circuit");
        let scripts = match self.sort {
            Sort::Run => vec![self.raw("script")],
            Sort::Class => self.scripts(),
            Sort::Report | Sort::Size => Vec::new(),
        };
        let efforts = scripts.iter().filter_map(|script| effort(&circuit, script));
        let (words, work) = efforts.fold((0, 0), |sum, one| (sum.0 + one.0, sum.1 + one.1));
        words <= MOST_WORDS && work <= MOST_WORK
    }

    /// The scripts of a class's book that do not leave it.
    fn scripts(&self) -> Vec<Vec<u8>> {
        let book = self.raw("book");
        let words: Vec<u64> = book.as_chunks::<8>().0.iter().map(|word| u64::from_le_bytes(*word)).collect();
        let n = words[0] as usize;
        let spans = words[1..=n].iter().zip(&words[1 + n..]);
        let inside = |(&start, &length): (&u64, &u64)| {
            let end = start.checked_add(length)?;
            book.get(usize::try_from(start).ok()?..usize::try_from(end).ok()?).map(<[u8]>::to_vec)
        };
        spans.filter_map(inside).collect()
    }

    /// The bytes of circuit, script, book or log.
    fn raw(&self, name: &str) -> Vec<u8> {
        match self.get(&format!("{name}-bytes")) {
            Some(digits) => digits.as_bytes().chunks(2).map(byte).collect(),
            None => numbers(self.get(name).unwrap_or("")).into_iter().flat_map(i64::to_le_bytes).collect(),
        }
    }

    fn theorem(&self, n: usize) -> String {
        let name = self.name;
        let (stated, opened) = match self.sort {
            Sort::Run => (self.run(), "model_opened"),
            Sort::Class => (self.class(), "left_opened"),
            Sort::Report => (self.report(), "model_opened whole_opened records_opened reply_opened hours_opened"),
            Sort::Size => (self.size(), "sized_opened"),
        };
        format!("-- {name}\nrow_{n} :\n    {stated}\nunfolding {opened}\nrow_{n} = refl\n")
    }

    fn run(&self) -> String {
        let lent = self.get("lent").unwrap_or("65536 65536 65536 65536");
        let sizes: Vec<&str> = lent.split(' ').collect();
        let [log, values, units, delays] = sizes.as_slice() else { panic!("{}: lent {lent}", self.name) };
        format!(
            "answer (record {{ values = {values}; units = {units}; delays = {delays} }}) {log} {} {}\n    ≡ {}",
            self.bytes("circuit"),
            self.bytes("script"),
            self.answer(),
        )
    }

    fn bytes(&self, name: &str) -> String {
        match self.get(&format!("{name}-bytes")) {
            Some(_) => list(self.raw(name).into_iter().map(u64::from)),
            None => format!("(bytes {})", list(bits(self.get(name).unwrap_or("")))),
        }
    }

    fn answer(&self) -> String {
        match self.get("refused") {
            Some(number) => format!("refused {number}"),
            None => played(self.get("log").unwrap_or(""), self.get("end").unwrap_or("")),
        }
    }

    /// What a class comes to, and what it leaves of all that it is lent.
    fn class(&self) -> String {
        let sizes = numbers(self.get("lent").unwrap_or(""));
        let [log, values, units, delays, told] = sizes[..] else { panic!("{}: lent {sizes:?}", self.name) };
        let area = if self.get("areas") == Some("zero") { 0 } else { FILLED };
        let left = [("values", values), ("units", units), ("delays", delays)]
            .map(|(name, length)| format!("{name} = replicate {length} {area}"))
            .join("; ");
        let words: Vec<u64> = bits(self.get("told").unwrap_or("")).collect();
        format!(
            "left (record {{ values = {values}; units = {units}; delays = {delays} }}) {log} {told} {} {}\n    ≡ record {{ {}; told = {} ++ replicate {} {FILLED_WORD}; log = {}; {left} }}",
            self.bytes("circuit"),
            self.bytes("book"),
            self.several(),
            list(words.iter().copied()),
            told as usize - words.len(),
            self.log_after(log as usize),
        )
    }

    /// What the call for a report answers, with the bytes lent for it.
    fn report(&self) -> String {
        let asked: Vec<u64> = bits(self.get("asked").unwrap_or("")).collect();
        let [driver, activity, length, room, _] = asked[..] else { panic!("{}: asked {asked:?}", self.name) };
        let answer = match self.get("refused") {
            Some(number) => format!("refused {number}"),
            None => format!("writes {}", self.bytes("lines")),
        };
        let (circuit, log) = (self.bytes("circuit"), self.bytes("log"));
        format!("hours {circuit} {log} {driver} {activity} {length} {room}\n    ≡ {answer}")
    }

    /// What the call for both figures answers, and what it leaves of the words lent
    /// for what is told.
    fn size(&self) -> String {
        let asked: Vec<u64> = bits(self.get("asked").unwrap_or("")).collect();
        let [ticks, told] = asked[..] else { panic!("{}: asked {asked:?}", self.name) };
        let answer = match self.get("refused") {
            Some(number) => format!("answer = refused {number}; number = {number}"),
            None => format!("answer = figures {}; number = 0", self.get("figures").unwrap_or("")),
        };
        let words: Vec<u64> = bits(self.get("told").unwrap_or("")).collect();
        let rest = told as usize - words.len();
        let (circuit, words) = (self.bytes("circuit"), list(words.into_iter()));
        format!(
            "sized {told} {circuit} {ticks}\n    ≡ record {{ {answer}; told = {words} ++ replicate {rest} {FILLED_WORD} }}"
        )
    }

    /// The answers of a class's scripts: the words of its log, and how it ended,
    /// or a refusal.
    fn answers(&self) -> Vec<(Option<&str>, &str)> {
        let mut logs = self.lines.iter().filter(|line| line.0 == "log").map(|line| line.1);
        let ends = self.lines.iter().filter(|line| line.0 == "end" || line.0 == "refused");
        ends.map(|&(word, rest)| ((word == "end").then(|| logs.next().expect("a log")), rest)).collect()
    }

    fn several(&self) -> String {
        if self.get("parts").is_none() {
            let number = self.get("refused").unwrap_or("");
            return format!("answer = turned_away {number}; number = {number}");
        }
        let mut answers = String::new();
        for (log, end) in self.answers() {
            let _ = match log {
                Some(log) => write!(answers, "{} ∷ ", played(log, end)),
                None => write!(answers, "refused {end} ∷ "),
            };
        }
        format!("answer = answered ({answers}[]); number = 0")
    }

    /// Each part with its records and the filling behind them, then what lies
    /// behind the parts.
    fn log_after(&self, length: usize) -> String {
        let Some((parts, size)) = self.get("parts").and_then(|parts| parts.split_once(' ')) else {
            return format!("replicate {length} {FILLED}");
        };
        let (parts, size): (usize, usize) = (parts.parse().expect("a count"), size.parse().expect("a size"));
        let mut text = String::new();
        for (log, _) in self.answers() {
            let words: Vec<u64> = bits(log.unwrap_or("")).collect();
            let rest = size - 8 * words.len();
            let _ = write!(text, "bytes {} ++ (replicate {rest} {FILLED} ++ (", list(words.into_iter()));
        }
        let _ = write!(text, "replicate {} {FILLED}", length - parts * size);
        text + &")".repeat(2 * parts)
    }
}

/// The words of a log that takes the whole run, and its steps, units and runs of
/// bodies times its gates, unless it is refused. A stop by 13 would hide its
/// tick's steps.
fn effort(circuit: &[u8], script: &[u8]) -> Option<(usize, usize)> {
    let areas = Lent { delays: 8 * 65_536, ..Lent::default() };
    let (circuit, script) = ask(circuit, script, Some(&areas)).ok()?;
    let mut machine = start(&circuit, &script);
    let (mut log, mut runs) = (Vec::new(), 0);
    for _ in 0..script.lengths.len() {
        let stop = machine.play_tick(&mut log);
        runs += machine.runs_of_bodies() as usize;
        if stop != 0 {
            break;
        }
    }
    let outputs = circuit.kinds.iter().map(|kind| kind.outputs.len()).sum();
    Some((log.len(), (done(&log, outputs) + runs) * circuit.kinds.len()))
}

/// Steps and units of all records of a log.
fn done(log: &[i64], outputs: usize) -> usize {
    let (mut at, mut done) = (0, 0);
    while at + HEAD <= log.len() {
        let units = (log[at + 2] + log[at + 3]) as usize;
        done += log[at + 1] as usize + units;
        at += HEAD + 2 * (units + log[at + 4] as usize) + if log[at + 5] == 0 { 2 * outputs } else { 0 };
    }
    done
}

fn played(log: &str, end: &str) -> String {
    let (stop, ticks) = end.split_once(' ').expect("a stop and the ticks done");
    let log = list(bits(log));
    format!("played (record {{ log = {log}; stop = {stop}; ticks = {ticks} }})")
}

fn byte(digits: &[u8]) -> u8 {
    let digits = std::str::from_utf8(digits).expect("hexadecimal digits");
    u8::from_str_radix(digits, 16).expect("hexadecimal digits")
}

fn numbers(text: &str) -> Vec<i64> {
    text.split_whitespace().map(|word| word.parse().expect("a word")).collect()
}

/// Words as their 64 bits.
fn bits(text: &str) -> impl Iterator<Item = u64> {
    numbers(text).into_iter().map(|word| word as u64)
}

fn list(numbers: impl Iterator<Item = u64>) -> String {
    let mut text = String::from("(");
    for n in numbers {
        let _ = write!(text, "{n} ∷ ");
    }
    text + "[])"
}

const HEAD_OF_RUNS: &str = "use Rattle.std.specs.Prelude.{ℕ, ◌≡◌, refl, List, [], ◌∷◌}
use Rattle.words.specs.Words.{bytes}
use Rattle.model.specs.Run.{Played}
use Rattle.model.specs.Questions.{Areas}
use Rattle.model.specs.Answer.{Answer, refused, played, answer, model_opened}
";

const HEAD_OF_CLASSES: &str = "use Rattle.std.specs.Prelude.{ℕ, ◌≡◌, refl, List, [], ◌∷◌, ◌++◌, replicate}
use Rattle.words.specs.Words.{bytes}
use Rattle.model.specs.Run.{Played}
use Rattle.model.specs.Questions.{Areas}
use Rattle.model.specs.Answer.{Answer, refused, played}
use Rattle.model.specs.Several.{Several, turned_away, answered}
use Rattle.compare.specs.Left.{Left, left, left_opened}
";

const HEAD_OF_REPORTS: &str = "use Rattle.std.specs.Prelude.{ℕ, ◌≡◌, refl, List, [], ◌∷◌}
use Rattle.words.specs.Words.{bytes}
use Rattle.model.specs.Answer.{model_opened}
use Rattle.records.specs.Whole.{whole_opened}
use Rattle.records.specs.Records.{records_opened}
use Rattle.records.specs.Reply.{Reply, refused, writes, reply_opened}
use Rattle.hours.specs.Hours.{hours, hours_opened}
";

const HEAD_OF_SIZES: &str = "use Rattle.std.specs.Prelude.{ℕ, ◌≡◌, refl, List, [], ◌∷◌, ◌++◌, replicate}
use Rattle.words.specs.Words.{bytes}
use Rattle.figures.specs.Figures.{Size, refused, figures}
use Rattle.compare.specs.Sized.{Sized, sized, sized_opened}
";

/// What a class comes to and leaves of a log, areas and words that hold the
/// filling before.
const LEFT: &str = "use Rattle.std.specs.Prelude.{ℕ, List, replicate}
use Rattle.model.specs.Questions.{Areas}
use Rattle.model.specs.Answer.{model_opened}
use Rattle.model.specs.Book.{count, part_of, book_opened}
use Rattle.model.specs.Several.{Several, call_number, call_told, call_log, several_opened}
use Rattle.model.specs.Class.{class, class_area, class_opened}

pub record Left : Type 0 where
  pub answer : Several
  pub number : ℕ
  pub told : List ℕ
  pub log : List ℕ
  pub values : List ℕ
  pub units : List ℕ
  pub delays : List ℕ

unfoldable pub left_by : Several → ℕ → Areas → ℕ → ℕ → Left
left_by a size areas room words =
    record {
      answer = a;
      number = call_number a;
      told = call_told a (replicate words 11936128518282651045);
      log = call_log a size (replicate room 165);
      values = class_area a (replicate areas.values 165);
      units = class_area a (replicate areas.units 165);
      delays = class_area a (replicate areas.delays 165);
    }

-- with areas of these lengths, a log of so many bytes, and so many words for what is told
unfoldable pub left : Areas → ℕ → ℕ → (circuit book : List ℕ) → Left
left areas room words circuit book = left_by (class areas room circuit book) (part_of (count book) room) areas room words

unfoldable pub left_opened : ℕ
unfolding model_opened book_opened several_opened class_opened left_by left
left_opened = 0
";

/// What the call for both figures answers, and leaves of words that hold the
/// filling before.
const SIZED: &str = "use Rattle.std.specs.Prelude.{ℕ, List, replicate}
use Rattle.model.specs.Answer.{model_opened}
use Rattle.figures.specs.Figures.{Size, size, size_number, size_told, figures_opened}

pub record Sized : Type 0 where
  pub answer : Size
  pub number : ℕ
  pub told : List ℕ

unfoldable pub sized_by : Size → ℕ → Sized
sized_by a words = record { answer = a; number = size_number a; told = size_told a (replicate words 11936128518282651045) }

-- with so many words for what is told
unfoldable pub sized : ℕ → List ℕ → ℕ → Sized
sized words circuit ticks = sized_by (size circuit ticks) words

unfoldable pub sized_opened : ℕ
unfolding model_opened figures_opened sized_by sized
sized_opened = 0
";

fn module(head: &str, cases: &[&Case]) -> String {
    let mut text = String::from(head);
    for (n, case) in cases.iter().enumerate() {
        text.push('\n');
        text += &case.theorem(n);
    }
    text
}
