//! The proved `class` against the oracle's: every byte of the log, of the three
//! areas and of what is told, which hold garbage before, on stated and random
//! books. And against the proved `run`: each script's answer and part are what it
//! gives alone, with the part as its log and garbage in the areas.
//!
//! HAZHIRUN_RUNS=100000 cargo test --offline --release --test class
//! compares as many random books; by default it is fewer.

mod common;

use std::env;

use common::{format_words, garbage};
use hazhirun_host::{Answer, ClassAnswer, book, class, parts, run};
use oracle::build::{Book, Circuit, Script};
use oracle::circuits::{self, Class};
use oracle::class::{self as theirs, Held};
use oracle::{Lent, generate};

unsafe extern "C" {
    fn hazhirun_class(
        circuit: *const u8,
        circuit_length: usize,
        book: *const u8,
        book_length: usize,
        log: *mut u8,
        log_length: usize,
        values: *mut u8,
        values_length: usize,
        units: *mut u8,
        units_length: usize,
        delays: *mut u8,
        delays_length: usize,
        told: *mut u64,
        told_length: usize,
    ) -> u64;
}

/// The C function itself, which may be lent any number of words for what it
/// tells.
fn call(class: &Class, held: &mut Held) -> u64 {
    let Held { log, values, units, delays, told } = held;
    // SAFETY: pointers and lengths are those of slices that are apart.
    unsafe {
        hazhirun_class(
            class.circuit.as_ptr(),
            class.circuit.len(),
            class.book.as_ptr(),
            class.book.len(),
            log.as_mut_ptr(),
            log.len(),
            values.as_mut_ptr(),
            values.len(),
            units.as_mut_ptr(),
            units.len(),
            delays.as_mut_ptr(),
            delays.len(),
            told.as_mut_ptr(),
            told.len(),
        )
    }
}

/// How many random books are compared.
fn calls() -> u64 {
    env::var("HAZHIRUN_RUNS").map_or(2_800, |n| n.parse().unwrap())
}

/// How often the oracle answered what.
#[derive(Debug, Default)]
struct Counts {
    /// Calls, by their number.
    calls: [u64; 20],
    /// Scripts, by their number.
    scripts: [u64; 20],
    /// Calls that answer 0 and play no script.
    none: u64,
    /// Calls with a refused script between two that are played.
    between: u64,
    /// Calls whose words for what is told are too few for it.
    few: u64,
    /// Ticks done.
    ticks: u64,
}

impl Counts {
    /// Counts a call.
    fn count(&mut self, class: &Class, due: &ClassAnswer) {
        let answers = match due {
            ClassAnswer::Refused(number) => {
                self.calls[*number as usize] += 1;
                return;
            }
            ClassAnswer::Answered(answers) => answers,
        };
        self.calls[0] += 1;
        for answer in answers {
            match *answer {
                Answer::Refused(number) => self.scripts[number as usize] += 1,
                Answer::Played { stop, ticks, .. } => {
                    self.scripts[stop as usize] += 1;
                    self.ticks += ticks;
                }
            }
        }
        let played: Vec<bool> = answers.iter().map(is_played).collect();
        self.none += u64::from(!played.contains(&true));
        self.between += u64::from(played.windows(3).any(|three| three == [true, false, true]));
        self.few += u64::from(class.told < 3 * answers.len());
    }

    /// Whether each of these numbers was answered more than so often by a call.
    fn calls_with(&self, numbers: &[usize], often: u64) -> bool {
        numbers.iter().all(|&n| self.calls[n] > often)
    }

    /// The same of a script.
    fn scripts_with(&self, numbers: &[usize], often: u64) -> bool {
        numbers.iter().all(|&n| self.scripts[n] > often)
    }
}

fn is_played(answer: &Answer) -> bool {
    matches!(answer, Answer::Played { .. })
}

/// What a class is lent, with garbage in it.
fn held(class: &Class, seed: u64) -> Held {
    let Lent { log, values, units, delays } = class.lent;
    let bytes = |length, k| garbage(length, 5 * seed + k);
    let told = bytes(8 * class.told, 4);
    let told = told.as_chunks().0.iter().map(|&word| u64::from_le_bytes(word)).collect();
    Held {
        log: bytes(log, 0),
        values: bytes(values, 1),
        units: bytes(units, 2),
        delays: bytes(delays, 3),
        told,
    }
}

/// An answer of the oracle's, in the host's type.
fn typed(answer: &oracle::Answer) -> Answer {
    match *answer {
        oracle::Answer::Refused(number) => Answer::Refused(number.into()),
        oracle::Answer::Played { ref log, stop, ticks } => {
            Answer::Played { stop: stop.into(), ticks, bytes: 8 * log.len() }
        }
    }
}

/// Plays a class on both, and each of its scripts alone.
fn compare(class: &Class, seed: u64, counts: &mut Counts) {
    let name = &class.name;
    let before = held(class, seed);
    let (number, due) = theirs::call(&class.circuit, &class.book, before.clone());
    let mut left = before.clone();
    assert_eq!(call(class, &mut left), u64::from(number), "{name}");
    assert_eq!(left.told, due.told, "{name}: what is told");
    assert!(left.log == due.log, "{name}: the log");
    assert!(left.values == due.values, "{name}: the area values");
    assert!(left.units == due.units, "{name}: the area units");
    assert!(left.delays == due.delays, "{name}: the area delays");
    let answer = typed_call(class, &before, &due);
    if let ClassAnswer::Answered(answers) = &answer {
        assert_alone(class, answers, &before, &left.log);
    }
    counts.count(class, &answer);
}

/// The safe function: its answer, and that it leaves what is due.
fn typed_call(one: &Class, before: &Held, due: &Held) -> ClassAnswer {
    let name = &one.name;
    let mut left = before.clone();
    let Held { log, values, units, delays, .. } = &mut left;
    let answer = class(&one.circuit, &one.book, log, values, units, delays);
    left.told.clone_from(&due.told);
    assert!(left == *due, "{name}: what `class` leaves");
    match one.answer() {
        theirs::ClassAnswer::Refused(number) => {
            assert_eq!(answer, ClassAnswer::Refused(number.into()), "{name}");
        }
        theirs::ClassAnswer::Answered(answers) => {
            let parts: Vec<&[u8]> = parts(&left.log, answers.len()).collect();
            for (part, records) in parts.into_iter().zip(answers.iter().map(theirs::records)) {
                assert!(part.starts_with(&records), "{name}: a part");
            }
            let answers = answers.iter().map(typed).collect();
            assert_eq!(answer, ClassAnswer::Answered(answers), "{name}");
        }
    }
    answer
}

/// Each script of a class that was answered so, and left this log, is played
/// alone: by `run`, if its span lies in the book.
fn assert_alone(class: &Class, answers: &[Answer], before: &Held, left: &[u8]) {
    let word = |at: usize| u64::from_le_bytes(class.book[8 * at..][..8].try_into().unwrap());
    let n = word(0) as usize;
    assert_eq!(answers.len(), n, "{}", class.name);
    let mut log = before.log.clone();
    let size = log.len() / (8 * n) * 8;
    for (k, answer) in answers.iter().enumerate() {
        let (start, length) = (u128::from(word(1 + k)), u128::from(word(1 + n + k)));
        let alone = if start + length <= class.book.len() as u128 {
            let script = &class.book[start as usize..][..length as usize];
            let [mut values, mut units, mut delays] =
                [&before.values, &before.units, &before.delays].map(Vec::clone);
            let part = &mut log[k * size..][..size];
            run(&class.circuit, script, part, &mut values, &mut units, &mut delays)
        } else {
            Answer::Refused(8)
        };
        assert_eq!(*answer, alone, "{}: script {k}", class.name);
    }
    assert!(left == log, "{}: the log of each alone", class.name);
}

/// A book for each bound, question, span, part and stop; vans; random ones.
#[test]
fn stated_ones() {
    let mut counts = Counts::default();
    for (class, seed) in circuits::classes().iter().zip(0..) {
        compare(class, seed, &mut counts);
    }
    assert!(counts.calls_with(&[1, 2, 3, 4, 5, 6, 19], 1), "{counts:?}");
    assert!(counts.calls_with(&[0, 7, 15], 14), "{counts:?}");
    assert!(counts.scripts_with(&[0, 8, 9, 10, 13], 30), "{counts:?}");
    assert!(counts.scripts_with(&[11], 0) && counts.scripts_with(&[12], 5), "{counts:?}");
    assert!(counts.none > 20 && counts.between > 20 && counts.few > 20, "{counts:?}");
}

#[test]
fn random_ones() {
    let mut counts = Counts::default();
    for n in 0..calls() {
        compare(&generate::book(100_000 + n), n, &mut counts);
    }
    if calls() >= 1_000 {
        assert!(counts.calls_with(&[1, 2, 3, 4, 5, 6, 19], calls() / 1_000), "{counts:?}");
    }
    assert!(counts.calls_with(&[0, 7, 15], calls() / 25), "{counts:?}");
    assert!(counts.scripts_with(&[0, 8, 9, 10, 12, 13], calls() / 50), "{counts:?}");
    let Counts { none, between, few, ticks, .. } = counts;
    assert!(none.min(between).min(few) > calls() / 20 && ticks > calls(), "{counts:?}");
}

/// The words told, as many as there is room for: up to more than 16 scripts have.
#[test]
fn told_of_every_small_length() {
    let mut counts = Counts::default();
    for seed in 0..30 {
        let mut class = generate::book(seed);
        for told in 0..=50 {
            class.told = told;
            compare(&class, seed, &mut counts);
        }
    }
    assert!(counts.calls[0] > 800 && counts.few > 300, "{counts:?}");
}

/// A World event alone, whose records have 88 bytes, a Toggle and others, with
/// one script to 16.
#[test]
fn logs_of_every_small_length() {
    let mut c = Circuit::new();
    c.world_event(0);
    let script = |ticks| Script::new().ticks(ticks, 0.25).bytes();
    let scripts: Vec<Vec<u8>> = [2, 0, 1, 3].map(script).into();
    let mut classes: Vec<Class> = (1..=4)
        .map(|n| Class::new(format!("world-{n}"), "A World event.", c.bytes(), book(&scripts[..n])))
        .collect();
    let stated = ["class-count-2", "class-count-16", "class-stopped-12-alone", "class-unlike"];
    classes.extend(circuits::classes().into_iter().filter(|c| stated.contains(&c.name.as_str())));
    classes.extend((0..4).map(generate::book));
    assert_eq!(classes.len(), 12);
    let mut counts = Counts::default();
    for mut class in classes {
        for log in 0..=400 {
            class.lent.log = log;
            compare(&class, log as u64, &mut counts);
        }
    }
    assert!(counts.calls_with(&[0], 12 * 400) && counts.ticks > 1_000, "{counts:?}");
    assert!(counts.scripts_with(&[0, 8, 10, 12, 13], 300), "{counts:?}");
}

/// Books as the oracle's builder makes them; of none and of 17 they are refused.
#[test]
fn books_of_every_count() {
    let mut c = Circuit::new();
    c.world_event(0);
    let scripts: Vec<Vec<u8>> = (0..=17).map(|n| Script::new().ticks(n, 0.25).bytes()).collect();
    for n in 0..=17 {
        let made = book(&scripts[..n]);
        assert!(made == Book::of(&scripts[..n]).bytes(), "{n} scripts");
        let mut areas = [(); 3].map(|()| garbage(65_536, 1));
        let [values, units, delays] = &mut areas;
        let answer = class(&c.bytes(), &made, &mut [0; 65_536], values, units, delays);
        let due = if (1..=16).contains(&n) {
            let played = |k: usize| Answer::Played { stop: 0, ticks: k as u64, bytes: 88 * k };
            ClassAnswer::Answered((0..n).map(played).collect())
        } else {
            ClassAnswer::Refused(15)
        };
        assert_eq!(answer, due);
    }
}

/// The class of docs/FORMAT.md, with the log that it is lent there: what is told,
/// and what stands in its parts and behind them.
#[test]
fn worked_class() {
    let bytes = |named: &str| -> Vec<u8> {
        format_words(named).iter().flat_map(|word| word.to_le_bytes()).collect()
    };
    let mut class =
        Class::new("worked", "An example.", bytes("class circuit"), bytes("class book"));
    class.lent.log = 428;
    class.told = 9;
    compare(&class, 1, &mut Counts::default());
    let mut left = held(&class, 2);
    let before = left.log.clone();
    assert_eq!(call(&class, &mut left), 0);
    let told: Vec<i64> = left.told.iter().map(|&word| word as i64).collect();
    assert_eq!(told, format_words("class told"));
    let part = bytes("class part");
    assert_eq!(part.len(), 136);
    assert!(left.log == [&part, &before[136..272], &part, &before[408..]].concat());
}
