//! The packed questions, sizes, runs, classes and reports: crates/asked and
//! crates/replay hold what `oracle pack` writes and prints now, and what is
//! packed can be read back.

use oracle::circuits::{self, Case};
use oracle::class::Held;
use oracle::generate::ASKED;
use oracle::pack::{ROOM, cases, pack, printed};
use oracle::questions::ask;
use oracle::{Lent, classes, hours, reports, runs, sizes};

const FILE: &str = concat!(env!("CARGO_MANIFEST_DIR"), "/../crates/asked/data/questions.bin");
const PRINTED: &str = concat!(env!("CARGO_MANIFEST_DIR"), "/../crates/asked/stdout");

const AGAIN: &str = "oracle pack crates/asked/data/questions.bin > crates/asked/stdout";

const SIZES: &str = concat!(env!("CARGO_MANIFEST_DIR"), "/../crates/asked/data/sizes.bin");
const SIZES_AGAIN: &str = "oracle pack sizes crates/asked/data/sizes.bin >> crates/asked/stdout";

const RUNS: &str = concat!(env!("CARGO_MANIFEST_DIR"), "/../crates/replay/data/runs.bin");
const RUNS_AGAIN: &str = "oracle pack runs crates/replay/data/runs.bin > crates/replay/stdout";

const CLASSES: &str = concat!(env!("CARGO_MANIFEST_DIR"), "/../crates/replay/data/classes.bin");
const CLASSES_AGAIN: &str =
    "oracle pack classes crates/replay/data/classes.bin >> crates/replay/stdout";

const REPORTS: &str = concat!(env!("CARGO_MANIFEST_DIR"), "/../crates/replay/data/reports.bin");
const REPORTS_AGAIN: &str =
    "oracle pack reports crates/replay/data/reports.bin >> crates/replay/stdout";

const REPLAYED: &str = concat!(env!("CARGO_MANIFEST_DIR"), "/../crates/replay/stdout");

/// What a file may hold. A program reads it case by case, so this is for who
/// keeps the files alone; runs with Loops come to a tenth of it.
const WHOLE: usize = 1_750_000;

/// What the file of the classes may hold.
const WHOLE_OF_CLASSES: usize = 500_000;

/// What the file of the reports may hold.
const WHOLE_OF_REPORTS: usize = 250_000;

/// What the file of the sizes may hold.
const WHOLE_OF_SIZES: usize = 100_000;

#[test]
fn the_packed_questions_are_up_to_date() {
    let file = std::fs::read(FILE).expect("the packed questions");
    assert!(file == pack(), "write them again: {AGAIN}");
    assert!(file.len() < WHOLE, "{}", file.len());
}

/// The lines for the questions, and one for the sizes.
#[test]
fn what_asked_prints_is_up_to_date() {
    let text = std::fs::read_to_string(PRINTED).expect("what the program has to print");
    let due = printed() + &sizes::printed(&sizes::sizes());
    assert_eq!(text, due, "write it again: {AGAIN}, and then {SIZES_AGAIN}");
}

/// Takes a number from the front.
fn number(rest: &mut &[u8]) -> usize {
    let (word, after) = rest.split_first_chunk::<8>().expect("a word");
    *rest = after;
    usize::try_from(u64::from_le_bytes(*word)).unwrap()
}

/// Takes a length and as many bytes from the front.
fn bytes<'a>(rest: &mut &'a [u8]) -> &'a [u8] {
    let length = number(rest);
    let (bytes, after) = rest.split_at(length);
    *rest = after;
    bytes
}

#[test]
fn every_case_can_be_read_back() {
    let packed = pack();
    let mut rest = &packed[..];
    let cases = cases();
    assert_eq!(number(&mut rest), cases.len());
    let (mut checked, mut refused) = ([0; 20], [0; 20]);
    for case in &cases {
        checked[number(&mut rest)] += 1;
        refused[number(&mut rest)] += 1;
        let lent = [(); 3].map(|()| number(&mut rest));
        assert_eq!(lent, [case.lent.values, case.lent.units, case.lent.delays], "{}", case.name);
        let (circuit, script) = (bytes(&mut rest), bytes(&mut rest));
        assert!(circuit == case.circuit && script == case.script, "{}", case.name);
        assert!(circuit.len() <= ROOM && script.len() <= ROOM, "{}", case.name);
    }
    assert!(rest.is_empty());
    assert!(ASKED.iter().all(|&n| refused[n as usize] > 20), "{refused:?}");
    assert!(refused[0] > cases.len() / 2, "more that are not refused");
    assert!(checked[0] > refused[0], "some are refused by their areas alone");
}

/// The refused cases that are not packed: the vectors give their sum only.
#[test]
fn what_is_left_out() {
    let packed: Vec<String> = cases().into_iter().map(|case| case.name).collect();
    let refused = |case: &Case| ask(&case.circuit, &case.script, Some(&case.lent)).is_err();
    let left: Vec<String> = circuits::all()
        .into_iter()
        .filter(refused)
        .map(|case| case.name)
        .filter(|name| !packed.contains(name))
        .collect();
    assert_eq!(left, ["q8-no-t-100001", "q8-no-s-65536"]);
}

#[test]
fn the_packed_runs_are_up_to_date() {
    let runs = runs::runs();
    let file = std::fs::read(RUNS).expect("the packed runs");
    assert!(file == runs::pack(&runs), "write them again: {RUNS_AGAIN}");
    assert!(file.len() < WHOLE, "{}", file.len());
}

/// A line for the runs, one for the classes, and one for the reports.
#[test]
fn what_replay_prints_is_up_to_date() {
    let text = std::fs::read_to_string(REPLAYED).expect("what the program has to print");
    let runs = runs::printed(&runs::runs());
    let classes = classes::printed(&classes::classes());
    let reports = reports::printed(&reports::reports());
    let due = runs + &classes + &reports;
    assert_eq!(text, due, "write it again: {RUNS_AGAIN}, then {CLASSES_AGAIN}, and then {REPORTS_AGAIN}");
}

/// The longest scripts and the vehicles, whose logs are long.
#[test]
fn the_runs_that_are_left_out() {
    let runs = runs::runs();
    assert_eq!(runs.packed.len(), 1258);
    let left = [
        "ticks-100000",
        "stimuli-65535",
        "vehicle-van",
        "vehicle-lorry",
        "vehicle-coach",
        "vehicle-crane",
        "vehicle-road-train",
        "vehicle-tanker",
    ];
    assert_eq!(runs.left_out, left);
}

/// Takes a packed word from the front.
fn packed_word(rest: &mut &[u8]) -> u64 {
    let (&count, after) = rest.split_first().expect("a count");
    let (bytes, after) = after.split_at(count.into());
    *rest = after;
    bytes.iter().rev().fold(0, |number, &byte| number << 8 | u64::from(byte))
}

#[test]
fn every_run_can_be_read_back() {
    let runs = runs::runs();
    let packed = runs::pack(&runs);
    let mut rest = &packed[..];
    assert_eq!(packed_word(&mut rest) as usize, runs.packed.len());
    for run in &runs.packed {
        let name = &run.case.name;
        let lent = [(); 4].map(|()| packed_word(&mut rest) as usize);
        assert_eq!(lent, runs::lent(run), "{name}");
        assert!(lent[..3].iter().all(|&length| length <= runs::ROOM), "{name}");
        assert!(lent[3] <= runs::DELAYS, "{name}");
        assert_eq!(packed_word(&mut rest), u64::from(run.stop), "{name}");
        assert_eq!(packed_word(&mut rest), run.ticks, "{name}");
        let lengths = [(); 3].map(|()| packed_word(&mut rest) as usize);
        for (length, part) in lengths.into_iter().zip(runs::parts(run)) {
            let bytes: Vec<u8> =
                (0..length / 8).flat_map(|_| packed_word(&mut rest).to_le_bytes()).collect();
            assert!(bytes == part && length <= runs::ROOM, "{name}");
        }
    }
    assert!(rest.is_empty());
}

#[test]
fn the_packed_classes_are_up_to_date() {
    let classes = classes::classes();
    let file = std::fs::read(CLASSES).expect("the packed classes");
    assert!(file == classes::pack(&classes), "write them again: {CLASSES_AGAIN}");
    assert!(file.len() < WHOLE_OF_CLASSES, "{}", file.len());
    assert_eq!(classes.left_out, [""; 0]);
}

/// Takes so many bytes from the front, packed as words; the last one may have
/// zeros behind them.
fn packed_bytes(rest: &mut &[u8], length: usize) -> Vec<u8> {
    let words = length.div_ceil(8);
    let mut bytes: Vec<u8> = (0..words).flat_map(|_| packed_word(rest).to_le_bytes()).collect();
    assert!(bytes.split_off(length).iter().all(|&byte| byte == 0));
    bytes
}

/// What is packed of a class says what the call answers and leaves, byte by byte.
#[test]
fn every_class_can_be_read_back() {
    let classes = classes::classes();
    let packed = classes::pack(&classes);
    let mut rest = &packed[..];
    assert_eq!(packed_word(&mut rest) as usize, classes.packed.len());
    for class in &classes.packed {
        let name = &class.name;
        let lent = [(); 5].map(|()| packed_word(&mut rest) as usize);
        assert_eq!(lent, classes::lent(class), "{name}");
        assert!(lent[..3].iter().all(|&length| length <= runs::ROOM), "{name}");
        assert!(lent[3] <= runs::DELAYS && lent[4] <= runs::TOLD, "{name}");
        let [log, values, units, delays, told] = lent;
        let mut due = Held::filled(&Lent { log, values, units, delays }, told, 165);
        let [number, zero] = [(); 2].map(|()| packed_word(&mut rest));
        let [circuit, book, told, part, parts, all] = [(); 6].map(|()| packed_word(&mut rest) as usize);
        assert!(circuit <= runs::ROOM && book <= runs::ROOM, "{name}");
        assert_eq!(packed_bytes(&mut rest, circuit), class.circuit, "{name}");
        assert_eq!(packed_bytes(&mut rest, book), class.book, "{name}");
        due.told[..told].iter_mut().for_each(|word| *word = packed_word(&mut rest));
        let mut of_all = 0;
        for k in 0..parts {
            let records = packed_word(&mut rest) as usize;
            of_all += records;
            due.log[part * k..][..records].copy_from_slice(&packed_bytes(&mut rest, records));
        }
        if zero == 1 {
            [&mut due.values, &mut due.units, &mut due.delays].into_iter().for_each(|area| area.fill(0));
        }
        let (answered, left) = class.call(165);
        assert!(u64::from(answered) == number && left == due && of_all == all && zero <= 1, "{name}");
        assert!(number == 0 || [told, part, parts, all, zero as usize] == [0; 5], "{name}");
    }
    assert!(rest.is_empty());
}

#[test]
fn the_packed_reports_are_up_to_date() {
    let reports = reports::reports();
    let file = std::fs::read(REPORTS).expect("the packed reports");
    assert!(file == reports::pack(&reports), "write them again: {REPORTS_AGAIN}");
    assert!(file.len() < WHOLE_OF_REPORTS, "{}", file.len());
    let records = ["100000", "100001", "100000-stopped", "100001-stopped"];
    assert_eq!(reports.left_out, records.map(|records| format!("report-records-{records}")));
}

/// What is packed of a report says what the call answers and leaves, byte by byte.
#[test]
fn every_report_can_be_read_back() {
    let reports = reports::reports();
    let packed = reports::pack(&reports);
    let mut rest = &packed[..];
    assert_eq!(packed_word(&mut rest) as usize, reports.packed.len());
    for report in &reports.packed {
        let name = &report.name;
        let asked = [(); 5].map(|()| packed_word(&mut rest));
        assert_eq!(asked, reports::asked(report), "{name}");
        let [_, _, _, room, told] = asked.map(|word| word as usize);
        assert!(room <= reports::REPORT && told <= runs::TOLD, "{name}");
        let number = packed_word(&mut rest);
        let [circuit, log, written] = [(); 3].map(|()| packed_word(&mut rest) as usize);
        assert!(circuit <= runs::ROOM && log <= runs::ROOM && written <= room, "{name}");
        assert_eq!(packed_bytes(&mut rest, circuit), report.circuit, "{name}");
        assert_eq!(packed_bytes(&mut rest, log), report.log, "{name}");
        let mut due = hours::Held::filled(room, told, 165);
        due.report[..written].copy_from_slice(&packed_bytes(&mut rest, written));
        if number == 0 {
            due.told.iter_mut().take(1).for_each(|word| *word = written as u64);
        }
        let (answered, left) = report.call(165);
        assert!(u64::from(answered) == number && left == due, "{name}");
        assert_eq!(number == 0, written > 0, "{name}");
    }
    assert!(rest.is_empty());
}

#[test]
fn the_packed_sizes_are_up_to_date() {
    let sizes = sizes::sizes();
    let file = std::fs::read(SIZES).expect("the packed sizes");
    assert!(file == sizes::pack(&sizes), "write them again: {SIZES_AGAIN}");
    assert!(file.len() < WHOLE_OF_SIZES, "{}", file.len());
    assert_eq!(sizes.left_out, [""; 0]);
}

/// What is packed of a size says what the call answers and which words it leaves.
#[test]
fn every_size_can_be_read_back() {
    let sizes = sizes::sizes();
    let packed = sizes::pack(&sizes);
    let mut rest = &packed[..];
    assert_eq!(packed_word(&mut rest) as usize, sizes.packed.len());
    for size in &sizes.packed {
        let name = &size.name;
        let [ticks, told, number, steps, bytes, circuit] = [(); 6].map(|()| packed_word(&mut rest));
        assert!(ticks == size.ticks && told as usize == size.told && told as usize <= runs::TOLD, "{name}");
        assert!(circuit as usize <= ROOM, "{name}");
        assert_eq!(packed_bytes(&mut rest, circuit as usize), size.circuit, "{name}");
        let mut due = vec![u64::from_le_bytes([165; 8]); size.told];
        if number == 0 {
            due.iter_mut().zip([steps, bytes]).for_each(|(word, figure)| *word = figure);
        }
        let (answered, left) = size.call(165);
        assert!(u64::from(answered) == number && left == due, "{name}");
        assert!(number == 0 || [steps, bytes] == [0, 0], "{name}");
    }
    assert!(rest.is_empty());
}
