//! How large it will get (document 02, K12): the stated circuits, each with both
//! figures worked out by hand from document 02, random ones counted in two other
//! ways, and what runs come to.
//!
//! With HAZHIRUN_RUNS other numbers of random sizes and runs are taken:
//! HAZHIRUN_RUNS=100000 cargo test --release --test sizes -- --nocapture

mod reading;

use std::collections::BTreeMap;
use std::env;
use std::sync::LazyLock;

use oracle::build::{self, REROUTE, Script, WORLD_EVENT, inputs_of, outputs_of};
use oracle::case::{Case, Size};
use oracle::circuit::Circuit;
use oracle::circuits;
use oracle::generate::{FAMILIES, Random, size, valid};
use oracle::play::start;
use oracle::questions::{ask, ask_circuit};
use oracle::script;
use oracle::size::{self, Figures, call};
use oracle::words::words;
use reading::Played;

static SIZES: LazyLock<Vec<Size>> = LazyLock::new(circuits::sizes);

// ---- the stated sizes, by hand ----

/// What a call is due: a refusal, or steps and bytes.
#[derive(Clone, Copy, Debug, PartialEq, Eq)]
enum Due {
    Refused(u8),
    Both(u64, u64),
}

use Due::{Both, Refused};

type Rows = Vec<(String, Due)>;

/// More than 50,000,000 steps.
const MORE: u64 = 50_000_001;

/// The stated sizes that are not random, each with what it is due. Without another
/// number of ticks it is for ten: 80 * (2,567 + 2 * outputs) bytes, so 205,360, and
/// 160 for each output.
fn by_hand() -> Rows {
    let mut rows = asked();
    rows.extend(ticks());
    rows.extend(calls());
    rows.extend(alone());
    rows.extend(starts());
    rows.extend(rings());
    rows.extend(many());
    rows.extend(powers());
    rows.extend(bytes());
    rows.extend(told());
    rows.into_iter().map(|(name, due)| (format!("size-{name}"), due)).collect()
}

/// Rows of these names and dues.
fn named<const N: usize>(rows: [(&str, Due); N]) -> Rows {
    rows.into_iter().map(|(name, due)| (name.to_string(), due)).collect()
}

/// Of faults of several questions the one that is asked first.
fn asked() -> Rows {
    let mut rows = named([
        ("q1-no-circuit", Refused(1)),
        ("q19-loop-without-entry", Refused(19)),
        ("q7-ring-of-nine-queues", Refused(7)),
        ("q7-and-a-loop", Refused(7)),
        ("q6-and-a-loop", Refused(6)),
        // A World, a Toggle, and eight times nine outputs.
        ("eight-queues", Both(1, 217_520)),
    ]);
    let order = [1, 2, 3, 4, 5, 19, 6, 7, 23, 24];
    for (at, first) in order.into_iter().enumerate() {
        rows.push((format!("q{first}"), Refused(first)));
        for next in &order[at + 1..] {
            rows.push((format!("q{first}-and-{next}"), Refused(first)));
        }
        if first < 23 {
            rows.push((format!("q{first}-and-all"), Refused(first)));
        }
    }
    rows
}

/// A World and a Toggle: 8 * 2,575 bytes a tick.
fn ticks() -> Rows {
    let mut rows = named([
        ("ticks-0", Both(1, 0)),
        ("ticks-1", Both(1, 20_600)),
        ("ticks-2", Both(1, 41_200)),
        ("ticks-65536", Both(1, 1_350_041_600)),
        ("ticks-99999", Both(1, 2_059_979_400)),
        ("ticks-100000", Both(1, 2_060_000_000)),
    ]);
    let above = ["100001", "2^17", "2^31", "2^32", "2^32+1", "2^61+1", "2^63-1", "2^63", "2^63+1", "2^64-1"];
    rows.extend(above.map(|ticks| (format!("ticks-{ticks}"), Refused(24))));
    rows
}

fn calls() -> Rows {
    let mut rows = named([
        ("one-call", Both(1, 206_000)),
        // The gate, and a Toggle for each of its outputs that may call.
        ("passes-on-2", Both(2, 206_160)),
        ("passes-on-11", Both(2, 206_160)),
        ("passes-on-13", Both(2, 206_160)),
        ("passes-on-15", Both(2, 206_320)),
        ("passes-on-16", Both(2, 207_440)),
        ("passes-on-17", Both(2, 207_440)),
        ("passes-on-18", Both(2, 206_480)),
        ("passes-on-19", Both(2, 206_320)),
        ("passes-on-20", Both(3, 206_640)),
        ("passes-on-21", Both(2, 206_160)),
        ("passes-on-22", Both(2, 206_320)),
        ("passes-on-23", Both(3, 206_800)),
        ("passes-on-24", Both(2, 206_160)),
        ("passes-on-25", Both(2, 206_160)),
        ("passes-on-31", Both(2, 206_160)),
    ]);
    rows.extend(sides_and_ends());
    rows.extend(repeated());
    rows.extend(named([
        ("remote", Both(2, 206_320)),
        ("remote-behind", Both(3, 206_640)),
        ("remote-and-local", Both(4, 206_320)),
        ("remote-twice", Both(2, 206_000)),
        ("deep-64", Both(64, 225_840)),
        ("deep-64-backwards", Both(64, 225_840)),
        ("deep-64-by-turns", Both(64, 215_600)),
        ("deep-63", Both(63, 215_760)),
        ("deep-63-backwards", Both(63, 215_760)),
    ]));
    rows
}

fn sides_and_ends() -> Rows {
    named([
        // The Branch, 3 on one side and 1 on the other.
        ("sides-unlike", Both(5, 207_280)),
        // The Branch, and twice a Branch with two Toggles.
        ("sides-of-sides", Both(7, 206_960)),
        // The Cycle, 1 upwards and 2 downwards.
        ("cycle-by-Exec", Both(4, 207_120)),
        ("cycle-by-ExecDown", Both(4, 207_120)),
        ("stopwatch-by-Restart", Both(3, 206_640)),
        ("stopwatch-by-Pause", Both(3, 206_640)),
        ("stopwatch-by-Resume", Both(3, 206_640)),
        // Outputs 2, 9, 1, 9, 1, 2, 2.
        ("ends-in-a-row", Both(6, 209_520)),
    ])
}

fn repeated() -> Rows {
    named([
        // Twice the Union and the Toggle.
        ("union-twice", Both(4, 206_160)),
        // Twice a Toggle, the Union and the third Toggle.
        ("union-two-ways", Both(6, 206_800)),
        // 1, then 1 + 2 * 1, then 1 + 2 * 3, and twice that.
        ("unions-behind", Both(14, 206_160)),
        ("called-thrice", Both(6, 206_320)),
        ("called-twice-behind", Both(3, 206_320)),
        ("called-by-two-pins", Both(4, 206_480)),
        // From the Branch's own E: 1 + 2 + 2.
        ("called-by-two-outputs", Both(5, 206_320)),
        ("diamond", Both(5, 206_960)),
    ])
}

/// A gate by itself: one step where its kind has an E. Kinds 18 and 19 have a Var
/// beside them.
fn alone() -> Rows {
    let with_e = [
        (11, 205_520),
        (13, 205_520),
        (15, 205_680),
        (16, 206_800),
        (17, 206_800),
        (18, 205_840),
        (19, 205_680),
        (20, 205_680),
        (21, 205_520),
        (22, 205_680),
        (23, 205_840),
        (24, 205_520),
        (25, 205_520),
        (31, 205_520),
    ];
    let mut rows: Rows = with_e.map(|(kind, bytes)| (format!("alone-{kind}"), Both(1, bytes))).into();
    for kind in [1, 2, 3, 4, 5, 6, 8, 10, 12, 14] {
        rows.push((format!("alone-{kind}"), Both(0, 205_520)));
    }
    for kind in [7, 9, 28] {
        rows.push((format!("alone-{kind}"), Both(0, 205_680)));
    }
    for kind in [26, 27] {
        rows.push((format!("alone-{kind}"), Both(0, 206_800)));
    }
    rows
}

fn starts() -> Rows {
    named([
        ("at-OnChanged-of-6", Both(2, 205_840)),
        ("at-OnRisingEdge-of-9", Both(2, 206_000)),
        ("at-OnFallingEdge-of-9", Both(2, 206_000)),
        ("at-Pulse-of-14", Both(2, 205_840)),
        ("at-ExecOut-of-26", Both(2, 207_120)),
        ("at-ExecOut-of-27", Both(2, 207_120)),
        ("at-ExecOut-of-28", Both(2, 206_000)),
        ("at-Input-of-11", Both(3, 205_840)),
        ("at-Input-of-13", Both(3, 205_840)),
        ("at-a-driven-pin", Both(2, 206_160)),
        ("at-a-lone-pin", Both(3, 206_160)),
        ("at-a-driven-and-called-pin", Both(2, 206_480)),
        ("at-three-pins", Both(2, 205_840)),
        ("at-the-first-world", Both(3, 206_160)),
        ("at-the-second-world", Both(3, 206_160)),
        ("at-one-edge", Both(3, 205_840)),
        ("at-a-pin-above", Both(5, 207_440)),
        ("at-an-output-above", Both(6, 207_440)),
        ("together", Both(3, 206_640)),
        ("reroute-is-a-step", Both(2, 206_160)),
        // The Toggle's own E.
        ("reroute-is-no-start", Both(1, 205_840)),
        ("reroute-no-start-at-its-output", Both(1, 206_480)),
        ("reroutes-alone", Both(0, 205_840)),
        ("reroute-driven", Both(0, 205_840)),
    ])
}

fn rings() -> Rows {
    let mut rows = named([
        ("no-ring-of-values", Both(1, 205_680)),
        ("no-ring-of-changes", Both(1, 206_000)),
        ("no-ring-of-events", Both(1, 206_960)),
        // 1, the first with what it calls, and the second.
        ("no-ring-of-two-ways", Both(4, 206_320)),
        // Twice two Breaks and a Toggle.
        ("break-outside", Both(6, 206_320)),
    ]);
    for kind in [2, 11, 13, 15, 16, 17, 18, 19, 20, 21, 22, 23, 24, 25, 31] {
        rows.push((format!("self-call-{kind}"), Refused(23)));
    }
    for many in [2, 3, 64] {
        rows.push((format!("ring-of-{many}"), Refused(23)));
        rows.push((format!("ring-of-{many}-backwards"), Refused(23)));
    }
    rows.extend([11, 13, 15, 16, 17].map(|kind| (format!("ring-through-{kind}"), Refused(23))));
    let by_gates = ["ExecOutDown", "ExecOut", "of-two-cycles", "of-a-stopwatch", "of-a-branch"];
    rows.extend(by_gates.map(|name| (format!("ring-by-gates-{name}"), Refused(23))));
    let unreached = ["beside", "alone", "to-others", "remote-beside"];
    let placed =
        ["behind", "before", "remote", "half-remote", "by-the-last-call", "behind-many", "and-100001"];
    for name in unreached.into_iter().chain(placed) {
        rows.push((format!("ring-{name}"), Refused(23)));
    }
    let loops = ["alone", "called", "last", "in-a-ring", "and-100001"];
    rows.extend(loops.map(|name| (format!("loop-{name}"), Refused(23))));
    rows
}

fn many() -> Rows {
    named([
        // 4 * 11,111,111.
        ("44444444-of-an-output", Both(44_444_444, 206_960)),
        // And 5 * 1,111,111.
        ("49999999-of-an-output", Both(49_999_999, 206_960)),
        ("50000000-of-an-output", Both(50_000_000, 206_960)),
        ("50000001-of-an-output", Both(MORE, 206_960)),
        ("50000002-of-an-output", Both(MORE, 206_960)),
        ("50000010-of-an-output", Both(MORE, 206_960)),
        ("55555555-of-an-output", Both(MORE, 206_960)),
        // 1 + 44,444,444 + 4,444,444 + 999,999 + 99,999 + 9,999 + 999 + 99 + 15.
        ("49999999-of-an-e", Both(49_999_999, 206_800)),
        ("50000000-of-an-e", Both(50_000_000, 206_800)),
        ("50000001-of-an-e", Both(MORE, 206_800)),
        ("50000002-of-an-e", Both(MORE, 206_800)),
    ])
}

/// n Reroutes have 2^n - 1 steps.
fn powers() -> Rows {
    named([
        ("2^16", Both(65_536, 208_240)),
        ("2^16+2", Both(65_538, 208_240)),
        ("2^25-1", Both(33_554_431, 209_680)),
        ("2^26-1", Both(MORE, 209_840)),
        ("2^31-1", Both(MORE, 210_640)),
        ("2^31", Both(MORE, 210_640)),
        ("2^32-1", Both(MORE, 210_800)),
        ("2^32", Both(MORE, 210_800)),
        ("2^32+3", Both(MORE, 210_800)),
        ("2^63-1", Both(MORE, 215_760)),
        ("2^63", Both(MORE, 215_760)),
        ("2^63+3", Both(MORE, 215_760)),
        ("2^64-1", Both(MORE, 215_760)),
        ("2^64", Both(MORE, 215_760)),
        ("2^64+3", Both(MORE, 215_760)),
        ("2^16-of-a-gate", Both(65_536, 208_400)),
        ("2^31-of-a-gate", Both(MORE, 210_800)),
        ("2^32-of-a-gate", Both(MORE, 210_960)),
        ("2^32+3-of-a-gate", Both(MORE, 210_960)),
        ("2^63-of-a-gate", Both(MORE, 215_760)),
        ("2^64-of-a-gate", Both(MORE, 215_760)),
        ("2^64+3-of-a-gate", Both(MORE, 215_760)),
        ("most-calls-in-a-row", Both(MORE, 225_840)),
        ("most-calls-of-a-world", Both(256, 225_840)),
    ])
}

fn bytes() -> Rows {
    named([
        // 8 * (2,567 + 1,152) a tick.
        ("outputs-576-ticks-0", Both(0, 0)),
        ("outputs-576-ticks-1", Both(0, 29_752)),
        ("outputs-576-ticks-100000", Both(0, 2_975_200_000)),
        ("outputs-exec", Both(3, 206_320)),
        ("outputs-of-values", Both(0, 206_160)),
        ("outputs-of-both", Both(1, 206_480)),
        // 8 * 2,569 a tick.
        ("outputs-1", Both(0, 20_552)),
        ("outputs-1-ticks-7", Both(0, 143_864)),
    ])
}

fn told() -> Rows {
    let mut rows = Vec::new();
    for words in [0, 1, 2, 3, 5] {
        rows.push((format!("told-{words}"), Both(1, 206_000)));
        rows.push((format!("told-{words}-23"), Refused(23)));
        rows.push((format!("told-{words}-24"), Refused(24)));
        rows.push((format!("told-{words}-no-ticks"), Both(1, 0)));
        rows.push((format!("told-{words}-1"), Refused(1)));
    }
    rows
}

/// The number that is due, and the words for what is told, afterwards.
fn left(due: Due, before: &[u64]) -> (u8, Vec<u64>) {
    let mut left = before.to_vec();
    match (due, &mut left[..]) {
        (Refused(number), _) => return (number, left),
        (Both(..), []) => {}
        (Both(steps, _), [first]) => *first = steps,
        (Both(steps, bytes), [first, second, ..]) => (*first, *second) = (steps, bytes),
    }
    (0, left)
}

#[test]
fn the_stated_sizes_are_as_worked_out_by_hand() {
    let rows = by_hand();
    let stated: Vec<&Size> = SIZES.iter().filter(|size| !size.name.starts_with("random-")).collect();
    let mut due: Vec<&str> = rows.iter().map(|row| row.0.as_str()).collect();
    let mut names: Vec<&str> = stated.iter().map(|size| size.name.as_str()).collect();
    due.sort_unstable();
    names.sort_unstable();
    assert_eq!(due, names);
    assert!(due.is_sorted_by(|a, b| a < b), "a name twice");
    for (name, due) in rows {
        let size = stated.iter().find(|size| size.name == name).unwrap();
        let answer = match size.answer() {
            Err(number) => Refused(number),
            Ok(Figures { steps, bytes }) => Both(steps, bytes),
        };
        assert_eq!(answer, due, "{name}");
        for byte in [0, 165, 255] {
            let before = vec![u64::from_le_bytes([byte; 8]); size.told];
            assert_eq!(size.call(byte), left(due, &before), "{name}");
        }
    }
}

#[test]
fn the_vectors_of_sizes_are_up_to_date() {
    let file = concat!(env!("CARGO_MANIFEST_DIR"), "/../vectors/sizes.txt");
    let text = std::fs::read_to_string(file).expect("the vectors of the sizes");
    assert!(text == oracle::vectors::text_of_sizes(), "write sizes.txt again: oracle vectors vectors");
}

// ---- two other counts ----

/// What is read of a circuit's words.
struct Cut {
    kinds: Vec<i64>,
    /// The gate of each input, and whether it is an E.
    inputs: Vec<(usize, bool)>,
    /// The gate of each output, and whether it is exec.
    outputs: Vec<(usize, bool)>,
    /// Of each call its output, and the gate that it enters.
    calls: Vec<(usize, usize)>,
}

fn cut(circuit: &[u8]) -> Cut {
    let words = words(circuit).expect("whole words");
    let [gates, constants, inputs, calls] = [0, 1, 2, 3].map(|at| words[at] as usize);
    let kinds = words[4 + 2 * constants..][..gates].to_vec();
    let (mut of_inputs, mut of_outputs) = (Vec::new(), Vec::new());
    for (gate, &kind) in kinds.iter().enumerate() {
        of_inputs.extend(inputs_of(kind).iter().map(|pin| (gate, pin.starts_with("E:"))));
        of_outputs.extend(outputs_of(kind).iter().map(|out| (gate, out.ends_with('!'))));
    }
    let at = 4 + 2 * (constants + gates + inputs);
    let call = |k: usize| (words[at + k] as usize, of_inputs[words[at + calls + k] as usize / 2].0);
    let calls = (0..calls).map(call).collect();
    Cut { kinds, inputs: of_inputs, outputs: of_outputs, calls }
}

impl Cut {
    /// The steps of entering each gate: as many as there are ways to go on from it by
    /// no call, by one, by two, .. None where one may go on by as many calls as there
    /// are gates, since it then comes to a gate twice.
    fn ways(&self) -> Option<Vec<u128>> {
        let mut ways = vec![1_u128; self.kinds.len()];
        let mut all = ways.clone();
        for _ in 0..self.kinds.len() {
            let mut further = vec![0_u128; self.kinds.len()];
            for &(from, to) in &self.calls {
                let from = self.outputs[from].0;
                further[from] = further[from].saturating_add(ways[to]);
            }
            ways = further;
            for (all, more) in all.iter_mut().zip(&ways) {
                *all = all.saturating_add(*more);
            }
        }
        ways.iter().all(|&more| more == 0).then_some(all)
    }

    /// The gates that a unit enters first which starts at this output.
    fn entered(&self, output: usize) -> Vec<usize> {
        self.calls.iter().filter(|call| call.0 == output).map(|call| call.1).collect()
    }

    /// For every start the gates that a unit enters first.
    fn starts(&self) -> Vec<Vec<usize>> {
        let inputs = self.inputs.iter().filter(|input| input.1).map(|input| vec![input.0]);
        let outputs = (0..self.outputs.len()).filter(|&output| self.outputs[output].1);
        inputs.chain(outputs.map(|output| self.entered(output))).collect()
    }

    fn steps(&self) -> Option<u64> {
        let ways = self.ways()?;
        Some(self.starts().iter().map(|first| of(&ways, first)).max().unwrap_or(0))
    }

    /// The steps of a unit that enters these gates first, played: a stack of the calls
    /// that are still to be made. It gives up above so many.
    fn played(&self, first: &[usize], most: u64) -> u64 {
        let mut behind = vec![Vec::new(); self.kinds.len()];
        for &(from, to) in &self.calls {
            behind[self.outputs[from].0].push(to);
        }
        let mut stack = first.to_vec();
        let mut steps = 0;
        while let Some(gate) = stack.pop() {
            steps += 1;
            if steps > most {
                break;
            }
            stack.extend(&behind[gate]);
        }
        steps
    }
}

/// The steps of a unit that enters these gates first, up to 50,000,001.
fn of(ways: &[u128], first: &[usize]) -> u64 {
    let sum = first.iter().fold(0_u128, |sum, &gate| sum.saturating_add(ways[gate]));
    sum.min(MORE.into()) as u64
}

/// What is due, as the other count has it.
fn counted(size: &Size) -> Due {
    if let Err(number) = ask_circuit(&size.circuit, None) {
        return Refused(number);
    }
    let cut = cut(&size.circuit);
    match cut.steps() {
        _ if cut.kinds.contains(&build::LOOP) => Refused(23),
        None => Refused(23),
        _ if size.ticks > 100_000 => Refused(24),
        Some(steps) => {
            let record = 7 + 1_024 + 1_024 + 256 + 256 + cut.outputs.len() + cut.outputs.len();
            Both(steps, 8 * record as u64 * size.ticks)
        }
    }
}

/// A unit is played up to so many steps.
const PLAYED: u64 = 10_000;

/// The greatest of all units, played, is the figure, or both are above what is played.
fn assert_played(size: &Size, steps: u64) {
    let cut = cut(&size.circuit);
    let most = cut.starts().iter().map(|first| cut.played(first, PLAYED)).max().unwrap_or(0);
    assert_eq!(most, steps.min(PLAYED + 1), "{}", size.name);
}

/// So many random sizes, and so many random runs.
fn random() -> u64 {
    env::var("HAZHIRUN_RUNS").map_or(20_000, |n| n.parse().unwrap())
}

#[test]
fn the_other_counts_give_the_stated_sizes() {
    for size in SIZES.iter() {
        let due = counted(size);
        assert_eq!(size.answer().map_or_else(Refused, |f| Both(f.steps, f.bytes)), due, "{}", size.name);
        if let Both(steps, _) = due {
            assert_played(size, steps);
        }
    }
}

#[test]
fn random_sizes_are_as_counted_otherwise() {
    for seed in 0..random() {
        let size = size(seed);
        let mut r = Random::new(seed);
        let before: Vec<u64> = (0..size.told).map(|_| r.number()).collect();
        let due = counted(&size);
        assert_eq!(call(&size.circuit, size.ticks, before.clone()), left(due, &before), "{}", size.name);
        if let Both(steps, _) = due {
            assert_played(&size, steps);
        }
    }
}

/// Every number is answered, and few and many steps.
#[test]
fn random_sizes_come_to_everything() {
    let mut numbers = BTreeMap::new();
    let mut steps = [0; 6];
    for seed in 0..random() {
        let size = size(seed);
        let number = size.answer().err().unwrap_or(0);
        *numbers.entry(number).or_insert(0_u64) += 1;
        let Ok(figures) = size.answer() else { continue };
        steps[match figures.steps {
            0 => 0,
            1..10 => 1,
            10..1_000 => 2,
            1_000..1_000_000 => 3,
            1_000_000..MORE => 4,
            _ => 5,
        }] += 1;
    }
    println!("{} random sizes by number: {numbers:?}", random());
    println!("steps 0, below 10, 1,000, 1,000,000, 50,000,001, and this: {steps:?}");
    let share = |number: u8| 1_000 * numbers.get(&number).copied().unwrap_or(0) / random();
    assert!(share(0) > 400 && share(23) > 80 && share(24) > 30, "{numbers:?}");
    assert!([1, 2, 3, 4, 5, 6, 19].into_iter().all(|number| share(number) > 1), "{numbers:?}");
    assert!(steps.iter().all(|&many| many * 100 > random()), "{steps:?}");
}

#[test]
fn a_seed_gives_one_size() {
    for seed in 0..50 {
        let (a, b) = (size(seed), size(seed));
        assert_eq!((a.circuit, a.ticks, a.told), (b.circuit, b.ticks, b.told));
    }
    assert_ne!(size(0).circuit, size(1).circuit);
}

// ---- what runs come to ----

/// What runs came to, beside their figures.
#[derive(Debug, Default)]
struct Reached {
    runs: u64,
    ring_or_loop: u64,
    units: u64,
    /// Units that cause all the steps of their start.
    units_whole: u64,
    /// Runs with a unit that causes as many steps as the figure says, where it says
    /// more than 0, and those of them where one step was not made.
    exact: u64,
    exact_by_11: u64,
    /// Those where it says 0.
    no_steps: u64,
    /// The greatest share of the bytes, in a million, of a log and of a record.
    of_log: u64,
    of_record: u64,
}

/// The gates that a unit of this form enters first.
fn first_of(cut: &Cut, gate: usize, form: i64) -> Vec<usize> {
    let own: Vec<usize> = (0..cut.outputs.len()).filter(|&output| cut.outputs[output].0 == gate).collect();
    match form {
        0..16 => cut.entered(*own.iter().find(|&&output| cut.outputs[output].1).expect("an exec output")),
        16..32 => vec![gate],
        _ => cut.entered(own[form as usize - 32]),
    }
}

/// A run with room for any log: its records, the steps that each unit of each caused,
/// and the bytes of the longest.
fn with_steps(case: &Case, circuit: &Circuit, script: &script::Script) -> (Played, Vec<Vec<u64>>, u64) {
    let mut machine = start(circuit, script);
    let (mut log, mut caused, mut stop, mut done, mut longest) = (Vec::new(), Vec::new(), 0, 0, 0);
    while stop == 0 && done < script.lengths.len() {
        let before = log.len();
        stop = machine.play_tick(&mut log);
        done += usize::from(stop == 0);
        caused.push(machine.steps_of_units());
        longest = longest.max(8 * (log.len() - before) as u64);
    }
    (reading::of_log(case, log, stop, done as u64), caused, longest)
}

/// Plays a case, unless it is refused, and holds each unit to the steps of its start
/// and to the figure, each record to the bytes of a tick, and the log to those of all.
fn assert_within(case: &Case, reached: &mut Reached) {
    let Ok((circuit, script)) = ask(&case.circuit, &case.script, Some(&case.lent)) else { return };
    let ticks = script.lengths.len() as u64;
    let figures = match size::size(&case.circuit, ticks) {
        Ok(figures) => figures,
        Err(number) => {
            assert_eq!(number, 23, "{}", case.name);
            reached.ring_or_loop += 1;
            return;
        }
    };
    let (played, caused, longest) = with_steps(case, &circuit, &script);
    let most = assert_units_within(case, &played, &caused, &figures, reached);
    let bytes = 8 * played.words.len() as u64;
    assert!(bytes <= figures.bytes, "{}: {bytes}, {figures:?}", case.name);
    if ticks > 0 {
        let of_one = figures.bytes / ticks;
        assert!(longest <= of_one, "{}: {longest}, {of_one}", case.name);
        reached.of_log = reached.of_log.max(1_000_000 * bytes / figures.bytes);
        reached.of_record = reached.of_record.max(1_000_000 * longest / of_one);
    }
    reached.runs += 1;
    let exact = figures.steps > 0 && most.0 == figures.steps;
    reached.no_steps += u64::from(figures.steps == 0);
    reached.exact += u64::from(exact);
    reached.exact_by_11 += u64::from(exact && most.1);
}

/// The most steps of a unit, and whether it is one that 11 stopped.
fn assert_units_within(
    case: &Case,
    played: &Played,
    caused: &[Vec<u64>],
    figures: &Figures,
    reached: &mut Reached,
) -> (u64, bool) {
    let cut = cut(&case.circuit);
    let ways = cut.ways().expect("no ring");
    let mut most = (0, false);
    for (tick, caused) in played.ticks.iter().zip(caused) {
        let begun: Vec<(i64, i64)> = tick.late.iter().chain(&tick.main).copied().collect();
        assert_eq!((begun.len(), tick.steps as u64), (caused.len(), caused.iter().sum()), "{}", case.name);
        for (at, (&(gate, form), &steps)) in begun.iter().zip(caused).enumerate() {
            let own = of(&ways, &first_of(&cut, gate as usize, form));
            assert!(steps <= own && own <= figures.steps, "{}: {steps}, {own}, {figures:?}", case.name);
            reached.units_whole += u64::from(steps == own);
            most = most.max((steps, tick.stop == 11 && at + 1 == begun.len()));
        }
        reached.units += begun.len() as u64;
    }
    most
}

#[test]
fn no_stated_run_exceeds_its_figures() {
    let mut reached = Reached::default();
    for case in reading::STATED.iter() {
        assert_within(case, &mut reached);
    }
    println!("stated runs: {reached:?}");
    assert!(reached.runs > 800 && reached.units > 100_000 && reached.exact > 300, "{reached:?}");
    assert!(reached.exact_by_11 > 0, "{reached:?}");
}

#[test]
fn no_random_run_exceeds_its_figures() {
    let mut reached = Reached::default();
    for seed in 0..random() / 10 {
        let family = FAMILIES[seed as usize % FAMILIES.len()];
        // Other seeds than those of the stated circuits.
        assert_within(&valid(1_000_000 + seed, family), &mut reached);
    }
    println!("random runs: {reached:?}");
    assert!(reached.runs > random() / 40 && reached.exact > random() / 200, "{reached:?}");
}

/// A script for the circuit of a size, if it is not refused, has few enough steps and
/// a World: four ticks, in each of which three of its Worlds fire.
fn fired(size: &Size) -> Option<Case> {
    size::size(&size.circuit, 4).ok().filter(|figures| figures.steps < 1_000_000)?;
    let kinds = cut(&size.circuit).kinds;
    let worlds: Vec<i64> = (0..kinds.len()).filter(|&g| kinds[g] == WORLD_EVENT).map(|g| g as i64).collect();
    let world = |k: usize| worlds.get(k % worlds.len().max(1)).copied();
    let mut s = Script::new();
    for tick in 0..4 {
        s.tick(0.25);
        for k in 0..3 {
            s.stimuli.push((world(tick + k)?, 0));
        }
        s.ticks[tick].1 = 3;
    }
    Some(Case::of_bytes(&size.name, "", size.circuit.clone(), s.bytes()).delays(8 * 65_536))
}

/// Circuits with many calls.
#[test]
fn no_run_of_a_random_size_exceeds_its_figures() {
    let mut reached = Reached::default();
    for case in (0..random()).filter_map(|seed| fired(&size(seed))) {
        assert_within(&case, &mut reached);
    }
    println!("runs of random sizes: {reached:?}");
    assert!(reached.runs > random() / 10 && reached.exact > random() / 100, "{reached:?}");
}

/// Eight Reroutes in a row, each of which calls the next ten times: 11,111,111 steps,
/// then 1,111,111, .., 1. A World calls the first once, the second five times, and the
/// last once: 16,666,667 steps, a third of 50,000,001.
fn a_third() -> (build::Circuit, build::Gate) {
    let mut c = build::Circuit::new();
    let world = c.gate(WORLD_EVENT, 0);
    let gates = [(); 8].map(|()| c.gate(REROUTE, 0));
    for pair in gates.windows(2) {
        c.call_all(pair[0], &[pair[1]; 10]);
    }
    c.call_all(world, &[gates[0], gates[1], gates[1], gates[1], gates[1], gates[1], gates[7]]);
    (c, world)
}

/// The third unit of a tick makes all its steps but the last, which is the tick's
/// 50,000,001st: with the one not made it causes as many as the figure says.
#[test]
fn a_unit_stopped_by_11_comes_to_the_figure() {
    let (c, world) = a_third();
    let mut s = Script::new();
    s.tick(0.25).fire(world).fire(world).fire(world);
    let case = Case::new("a-third", "", &c, &s);
    assert_eq!(size::size(&case.circuit, 1).unwrap().steps, 16_666_667);
    let (circuit, script) = ask(&case.circuit, &case.script, Some(&case.lent)).unwrap();
    let mut machine = start(&circuit, &script);
    let mut log = Vec::new();
    assert_eq!(machine.play_tick(&mut log), 11);
    assert_eq!(machine.steps_of_units(), [16_666_667; 3]);
    let mut reached = Reached::default();
    assert_within(&case, &mut reached);
    assert_eq!((reached.units, reached.units_whole, reached.exact_by_11), (3, 3, 1));
}
