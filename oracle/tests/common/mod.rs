//! Small circuits for the tests, written out as document 01's words.

#![allow(dead_code)] // no test uses all of it

use oracle::{Answer, Lent, run};

/// Inputs and outputs of the kinds 1 to 31, counted in documents 01 and 02.
const INPUTS: [usize; 31] =
    [3, 1, 0, 0, 1, 1, 1, 1, 1, 3, 3, 3, 3, 3, 4, 10, 10, 2, 3, 2, 1, 1, 3, 10, 10, 1, 1, 0, 4, 1, 1];
const OUTPUTS: [usize; 31] =
    [1, 1, 1, 1, 1, 1, 2, 1, 2, 1, 1, 1, 1, 1, 2, 9, 9, 2, 1, 2, 1, 2, 3, 1, 1, 9, 9, 2, 4, 2, 1];

/// What an input holds, or what a stimulus brings.
#[derive(Clone, Copy, Debug)]
pub enum Pin {
    Nothing,
    Int(i64),
    Float(f64),
    Bool(bool),
    /// A gate and its own output.
    From(usize, usize),
}

/// A circuit: gates with their first inputs (the others hold nothing), then
/// calls.
#[derive(Clone, Default)]
pub struct Plan {
    pub gates: Vec<(i64, i64, Vec<Pin>)>,
    pub calls: Vec<(usize, usize, usize, usize, i64)>,
    constants: Vec<(i64, i64)>,
}

impl Plan {
    /// Add a gate of this kind and rank; the answer is its number.
    pub fn gate(&mut self, kind: i64, rank: i64, pins: &[Pin]) -> usize {
        self.gates.push((kind, rank, pins.to_vec()));
        self.gates.len() - 1
    }

    /// Add this many gates alike.
    pub fn alike(&mut self, many: usize, kind: i64, rank: i64, pins: &[Pin]) {
        for _ in 0..many {
            self.gate(kind, rank, pins);
        }
    }

    /// A local call from a gate's output to a gate's input.
    pub fn call(&mut self, from: usize, output: usize, to: usize, input: usize) {
        self.calls.push((from, output, to, input, 0));
    }

    pub fn remote(&mut self, from: usize, output: usize, to: usize, input: usize) {
        self.calls.push((from, output, to, input, 1));
    }

    /// The name of a constant; 0 for nothing.
    fn name(&mut self, pin: Pin) -> i64 {
        let constant = match pin {
            Pin::Int(n) => (1, n),
            Pin::Float(f) => (2, f.to_bits() as i64),
            Pin::Bool(b) => (3, i64::from(b)),
            Pin::Nothing | Pin::From(..) => return 0,
        };
        let at = self.constants.iter().position(|c| *c == constant).unwrap_or_else(|| {
            self.constants.push(constant);
            self.constants.len() - 1
        });
        at as i64 + 1
    }

    fn first(&self, counts: &[usize; 31], gate: usize) -> i64 {
        self.gates[..gate].iter().map(|g| counts[g.0 as usize - 1] as i64).sum()
    }

    pub fn outputs(&self) -> usize {
        self.gates.iter().map(|g| OUTPUTS[g.0 as usize - 1]).sum()
    }

    /// The words of the circuit and of a script of tick lengths and stimuli.
    pub fn words(&mut self, ticks: &[(f64, &[(usize, Pin)])]) -> (Vec<i64>, Vec<i64>) {
        let (mut sources, mut stored) = (vec![], vec![]);
        for (kind, _, pins) in self.gates.clone() {
            for i in 0..INPUTS[kind as usize - 1] {
                let pin = pins.get(i).copied().unwrap_or(Pin::Nothing);
                sources.push(match pin {
                    Pin::From(g, o) => self.first(&OUTPUTS, g) + o as i64,
                    _ => -1,
                });
                stored.push(self.name(pin));
            }
        }
        let stimuli: Vec<(usize, Pin)> = ticks.iter().flat_map(|t| t.1.iter().copied()).collect();
        let mut script = vec![ticks.len() as i64, stimuli.len() as i64];
        script.extend(ticks.iter().map(|t| t.0.to_bits() as i64));
        script.extend(ticks.iter().map(|t| t.1.len() as i64));
        script.extend(stimuli.iter().map(|s| s.0 as i64));
        script.extend(stimuli.iter().map(|s| self.name(s.1)));

        let sizes = [self.gates.len(), self.constants.len(), sources.len(), self.calls.len()];
        let mut circuit: Vec<i64> = sizes.iter().map(|&n| n as i64).collect();
        circuit.extend(self.constants.iter().map(|c| c.0));
        circuit.extend(self.constants.iter().map(|c| c.1));
        circuit.extend(self.gates.iter().map(|g| g.0));
        circuit.extend(self.gates.iter().map(|g| g.1));
        circuit.extend(sources);
        circuit.extend(stored);
        circuit.extend(self.calls.iter().map(|c| self.first(&OUTPUTS, c.0) + c.1 as i64));
        circuit.extend(self.calls.iter().map(|c| 2 * (self.first(&INPUTS, c.2) + c.3 as i64) + c.4));
        (circuit, script)
    }

    /// Play with a log long enough and areas for eight Queues.
    pub fn play(&mut self, ticks: &[(f64, &[(usize, Pin)])]) -> Run {
        let (circuit, script) = self.words(ticks);
        let lent = Lent { log: 1 << 30, delays: 8 * 65_536, ..Lent::default() };
        let Answer::Played { log, stop, ticks } = run(&bytes(&circuit), &bytes(&script), &lent) else {
            panic!("refused");
        };
        let firsts = (0..self.gates.len()).map(|g| self.first(&OUTPUTS, g) as usize).collect();
        Run { records: records(&log, self.outputs()), stop, ticks, firsts }
    }
}

pub fn bytes(words: &[i64]) -> Vec<u8> {
    words.iter().flat_map(|w| w.to_le_bytes()).collect()
}

pub struct Run {
    pub records: Vec<Record>,
    pub stop: u8,
    pub ticks: u64,
    firsts: Vec<usize>,
}

#[derive(Debug)]
pub struct Record {
    pub tick: i64,
    pub steps: i64,
    pub late: i64,
    pub main: i64,
    pub stop: i64,
    pub changed: i64,
    /// Gate and form.
    pub units: Vec<(i64, i64)>,
    /// Gate and form of the carried units.
    pub carried: Vec<(i64, i64)>,
    /// Kind and content.
    pub shown: Vec<(i64, i64)>,
}

impl Run {
    /// Kind and content of a gate's own output after a tick.
    pub fn shown(&self, tick: usize, gate: usize, output: usize) -> (i64, i64) {
        self.records[tick - 1].shown[self.firsts[gate] + output]
    }

    /// The ticks in which a gate began with this form.
    pub fn begun(&self, gate: usize, form: i64) -> Vec<i64> {
        let unit = (gate as i64, form);
        self.records.iter().filter(|r| r.units.contains(&unit)).map(|r| r.tick).collect()
    }
}

fn records(mut log: &[i64], outputs: usize) -> Vec<Record> {
    let mut records = vec![];
    while let &[tick, steps, late, main, carried, stop, changed, ref rest @ ..] = log {
        let shown = if stop == 0 { outputs } else { 0 };
        let (units, rest) = rest.split_at(2 * (late + main) as usize);
        let (carried, rest) = rest.split_at(2 * carried as usize);
        let (shown, rest) = rest.split_at(2 * shown);
        let [units, carried, shown] = [units, carried, shown].map(pairs);
        records.push(Record { tick, steps, late, main, stop, changed, units, carried, shown });
        log = rest;
    }
    assert!(log.is_empty());
    records
}

fn pairs(words: &[i64]) -> Vec<(i64, i64)> {
    let (a, b) = words.split_at(words.len() / 2);
    a.iter().copied().zip(b.iter().copied()).collect()
}
