//! A script of document 01, and questions 8 to 10 about its bytes.

use crate::circuit::Circuit;
use crate::graph::Op;
use crate::words::{Parts, words};

/// A script of which questions 8 to 10 are answered yes.
#[derive(Debug)]
pub struct Script {
    pub lengths: Vec<f64>,
    /// The stimuli of each tick: gate and name of its constant.
    pub stimuli: Vec<Vec<(usize, usize)>>,
}

impl Script {
    /// The script, or the number of the first question answered no.
    pub fn decode(bytes: &[u8], circuit: &Circuit) -> Result<Self, u8> {
        let raw = Raw::read(bytes).ok_or(8)?;
        let lengths = raw.lengths().ok_or(9)?;
        let counts = raw.counts().ok_or(9)?;
        let mut stimuli = raw.stimuli(circuit).ok_or(10)?.into_iter();
        let stimuli = counts.iter().map(|&n| stimuli.by_ref().take(n).collect()).collect();
        Ok(Self { lengths, stimuli })
    }
}

/// The words of a script, part by part.
struct Raw {
    lengths: Vec<i64>,
    counts: Vec<i64>,
    gates: Vec<i64>,
    constants: Vec<i64>,
}

impl Raw {
    /// Question 8.
    fn read(bytes: &[u8]) -> Option<Self> {
        let words = words(bytes)?;
        let &[t, s, ref rest @ ..] = &words[..] else { return None };
        let sizes_fit = (0..=100_000).contains(&t) && (0..=65_535).contains(&s);
        if !sizes_fit || rest.len() as i64 != 2 * (t + s) {
            return None;
        }
        let mut parts = Parts(rest);
        Some(Self {
            lengths: parts.next(t as usize),
            counts: parts.next(t as usize),
            gates: parts.next(s as usize),
            constants: parts.next(s as usize),
        })
    }

    /// Question 9: the tick lengths, finite and from 0 (-0.0 too) to 3,600.
    fn lengths(&self) -> Option<Vec<f64>> {
        let length = |&word: &i64| {
            let length = f64::from_bits(word as u64);
            (0.0..=3_600.0).contains(&length).then_some(length)
        };
        self.lengths.iter().map(length).collect()
    }

    /// Question 9: the counts, with the number of stimuli as their sum.
    fn counts(&self) -> Option<Vec<usize>> {
        let count = |&n: &i64| (0..=64).contains(&n).then_some(n as usize);
        let counts: Vec<usize> = self.counts.iter().map(count).collect::<Option<_>>()?;
        (counts.iter().sum::<usize>() == self.gates.len()).then_some(counts)
    }

    /// Question 10.
    fn stimuli(&self, circuit: &Circuit) -> Option<Vec<(usize, usize)>> {
        let stimulus = |(&gate, &constant): (&i64, &i64)| {
            let gate = usize::try_from(gate).ok()?;
            let constant = usize::try_from(constant).ok()?;
            let is_world = circuit.kinds.get(gate)?.op == Op::WorldEvent;
            (is_world && constant <= circuit.constants.len()).then_some((gate, constant))
        };
        self.gates.iter().zip(&self.constants).map(stimulus).collect()
    }
}
