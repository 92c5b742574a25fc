//! Reads a log back into ticks.

#![allow(dead_code)] // no test uses all of it

use std::collections::{BTreeMap, BTreeSet};
use std::sync::LazyLock;

use oracle::circuits::{self, Case};
use oracle::{Answer, build, run};

/// Every stated circuit.
pub static STATED: LazyLock<Vec<Case>> = LazyLock::new(circuits::all);

/// One record.
pub struct Tick {
    pub tick: i64,
    pub steps: i64,
    pub late: Vec<(i64, i64)>,
    pub main: Vec<(i64, i64)>,
    pub carried: Vec<(i64, i64)>,
    pub stop: i64,
    pub changed: i64,
    /// Kinds and contents.
    pub outputs: Vec<(i64, i64)>,
}

/// A run that was not refused.
pub struct Played {
    pub kinds: Vec<i64>,
    pub ranks: Vec<i64>,
    pub ticks: Vec<Tick>,
    pub words: Vec<i64>,
    pub stop: u8,
    pub done: u64,
}

/// The stated circuit of this name.
pub fn case(name: &str) -> &'static Case {
    STATED.iter().find(|c| c.name == name).unwrap_or_else(|| panic!("no circuit {name}"))
}

/// What the stated circuit of this name played.
pub fn played(name: &str) -> Played {
    read(case(name)).unwrap_or_else(|| panic!("{name} is refused"))
}

/// What a case played, unless it is refused.
pub fn read(case: &Case) -> Option<Played> {
    match run(&case.circuit, &case.script, &case.lent) {
        Answer::Refused(_) => None,
        Answer::Played { log, stop, ticks } => Some(of_log(case, log, stop, ticks)),
    }
}

/// A case that has played into this log.
pub fn of_log(case: &Case, log: Vec<i64>, stop: u8, done: u64) -> Played {
    let circuit = words_of(&case.circuit);
    let (g, k) = (circuit[0] as usize, circuit[1] as usize);
    let kinds = circuit[4 + 2 * k..][..g].to_vec();
    let ranks = circuit[4 + 2 * k + g..][..g].iter().map(|word| word % build::RANKS).collect();
    let outputs = kinds.iter().map(|&kind| build::outputs_of(kind).len()).sum();
    let mut ticks = Vec::new();
    let mut rest = &log[..];
    while !rest.is_empty() {
        ticks.push(record(&mut rest, outputs));
    }
    Played { kinds, ranks, ticks, words: log, stop, done }
}

/// A case's circuit, as it can be built on, and its gates.
pub fn circuit_of(case: &Case) -> (build::Circuit, Vec<build::Gate>) {
    let words = words_of(&case.circuit);
    let &[gates, constants, inputs, calls, ref rest @ ..] = &words[..] else { panic!("four sizes") };
    let mut rest = rest;
    let mut c = build::Circuit::new();
    c.constants = pairs(&mut rest, constants as usize);
    let gates = pairs(&mut rest, gates as usize).into_iter().map(|(kind, rank)| c.gate(kind, rank)).collect();
    c.inputs = pairs(&mut rest, inputs as usize);
    c.calls = pairs(&mut rest, calls as usize);
    (c, gates)
}

/// The distances in ticks between one stimulus of a gate and the next, among
/// those that give a constant as wanted.
pub fn gaps(case: &Case, wanted: impl Fn(i64, i64) -> bool) -> BTreeSet<usize> {
    let (circuit, script) = (words_of(&case.circuit), words_of(&case.script));
    let (k, t, s) = (circuit[1] as usize, script[0] as usize, script[1] as usize);
    let (counts, gates, names) = (&script[2 + t..], &script[2 + 2 * t..], &script[2 + 2 * t + s..]);
    let mut gaps = BTreeSet::new();
    let mut last = BTreeMap::new();
    let mut next = 0;
    for tick in 0..t {
        for at in next..next + counts[tick] as usize {
            let name = names[at] as usize;
            if name > 0 && wanted(circuit[3 + name], circuit[3 + k + name]) {
                gaps.extend(last.insert(gates[at], tick).map(|before| tick - before));
            }
        }
        next += counts[tick] as usize;
    }
    gaps
}

fn words_of(bytes: &[u8]) -> Vec<i64> {
    bytes.chunks_exact(8).map(|w| i64::from_le_bytes(w.try_into().unwrap())).collect()
}

fn take<'a>(rest: &mut &'a [i64], n: usize) -> &'a [i64] {
    let (taken, left) = rest.split_at(n);
    *rest = left;
    taken
}

fn record(rest: &mut &[i64], outputs: usize) -> Tick {
    let &[tick, steps, late, main, carried, stop, changed] = take(rest, 7) else { panic!("a head") };
    let mut begun = pairs(rest, (late + main) as usize);
    let main = begun.split_off(late as usize);
    let carried = pairs(rest, carried as usize);
    let outputs = if stop == 0 { pairs(rest, outputs) } else { Vec::new() };
    Tick { tick, steps, late: begun, main, carried, stop, changed, outputs }
}

fn pairs(rest: &mut &[i64], n: usize) -> Vec<(i64, i64)> {
    let first = take(rest, n);
    let second = take(rest, n);
    first.iter().copied().zip(second.iter().copied()).collect()
}

impl Played {
    /// The gates that the late pass of a tick (from 1) began.
    pub fn late(&self, tick: usize) -> Vec<i64> {
        self.ticks[tick - 1].late.iter().map(|u| u.0).collect()
    }

    /// The gates that the main pass of a tick began.
    pub fn main(&self, tick: usize) -> Vec<i64> {
        self.ticks[tick - 1].main.iter().map(|u| u.0).collect()
    }

    /// The gates that a tick carried.
    pub fn carried(&self, tick: usize) -> Vec<i64> {
        self.ticks[tick - 1].carried.iter().map(|u| u.0).collect()
    }

    /// How many units the run began.
    pub fn begun(&self) -> usize {
        self.ticks.iter().map(|t| t.late.len() + t.main.len()).sum()
    }

    /// The ticks in which a gate began, once each.
    pub fn begun_in(&self, gate: usize) -> Vec<usize> {
        let began =
            |t: &usize| self.late(*t).contains(&(gate as i64)) || self.main(*t).contains(&(gate as i64));
        (1..=self.ticks.len()).filter(began).collect()
    }

    /// Kind and content of a gate's own output in a tick's record.
    pub fn shown(&self, tick: usize, gate: usize, output: usize) -> (i64, i64) {
        let before: usize = self.kinds[..gate].iter().map(|&kind| build::outputs_of(kind).len()).sum();
        self.ticks[tick - 1].outputs[before + output]
    }

    /// Ticks count up, a stop stands in the last record alone, main ranks
    /// never fall, each unit is of a form its kind has, carried ones are of
    /// kinds 6 and 9 or begin with a pin, and exec outputs show nothing.
    pub fn assert_whole(&self, case: &Case) {
        let name = &case.name;
        for (k, tick) in self.ticks.iter().enumerate() {
            assert_eq!(tick.tick, k as i64 + 1, "{name}");
            let last = k + 1 == self.ticks.len();
            assert!(tick.stop == 0 || last && tick.stop == i64::from(self.stop), "{name}");
            let ranks: Vec<i64> = tick.main.iter().map(|u| self.ranks[u.0 as usize]).collect();
            assert!(ranks.is_sorted(), "{name}, tick {}", tick.tick);
            for &(gate, form) in tick.late.iter().chain(&tick.main).chain(&tick.carried) {
                assert!(has_form(self.kinds[gate as usize], form), "{name}: gate {gate}, form {form}");
            }
            let may_wait = |u: &(i64, i64)| u.1 >= 16 || self.kinds[u.0 as usize] == build::CHANGE_DETECTOR;
            assert!(tick.carried.iter().all(may_wait), "{name}, tick {}", tick.tick);
            self.assert_outputs(tick, name);
        }
        let ended = self.ticks.iter().filter(|t| t.stop == 0).count();
        assert_eq!(ended as u64, self.done, "{name}");
        assert!(self.words.len() * 8 <= case.lent.log, "{name}");
    }

    fn assert_outputs(&self, tick: &Tick, name: &str) {
        let all = self.kinds.iter().flat_map(|&kind| build::outputs_of(kind));
        for (output, &(kind, content)) in all.zip(&tick.outputs) {
            match kind {
                0 => assert_eq!(content, 0, "{name}"),
                1 | 2 => assert!(build::is_value(output), "{name}"),
                3 => assert!(build::is_value(output) && (0..=1).contains(&content), "{name}"),
                _ => panic!("{name}: an output of kind {kind}"),
            }
        }
    }
}

/// The forms of document 01's record.
fn has_form(kind: i64, form: i64) -> bool {
    match form {
        0 => matches!(kind, 6 | 11 | 13..=17),
        1 => matches!(kind, 26 | 27),
        2 => kind == 28,
        16..=18 => build::inputs_of(kind).get(form as usize - 16).is_some_and(|pin| pin.starts_with("E:")),
        32 | 33 => kind == 9,
        _ => false,
    }
}
