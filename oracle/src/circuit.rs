//! A circuit of document 01, and questions 1 to 6 about its bytes, with question
//! 19 of document 02 (K5).

use crate::graph::Op;
use crate::kinds::{Kind, Port, Setting, kind};
use crate::value::Value;
use crate::words::{Parts, words};

/// The ranks, and how much a rank's word grows from one body to the next.
const RANKS: i64 = 65_536;

/// The bodies beside the outside.
const BODIES: i64 = 64;

/// A circuit of which questions 1 to 6 and 19 are answered yes.
#[derive(Debug)]
pub struct Circuit {
    pub constants: Vec<Value>,
    pub kinds: Vec<&'static Kind>,
    pub ranks: Vec<u32>,
    /// The body that each gate lies in: 0 is outside, else 1 + the Loop's gate.
    pub bodies: Vec<u32>,
    pub inputs: Vec<Input>,
    pub outputs: Vec<Output>,
    pub calls: Vec<Call>,
}

#[derive(Debug)]
pub struct Input {
    pub gate: usize,
    /// The gate's own number of the input.
    pub own: usize,
    pub port: Port,
    /// The output it reads.
    pub source: Option<usize>,
    /// The name of its constant; 0 is nothing.
    pub stored: usize,
}

#[derive(Debug)]
pub struct Output {
    pub gate: usize,
    /// The gate's own number of the output.
    pub own: usize,
    pub port: Port,
}

#[derive(Debug)]
pub struct Call {
    pub from: usize,
    pub to: usize,
    pub remote: bool,
}

impl Circuit {
    /// The circuit, or the number of the first question answered no.
    pub fn decode(bytes: &[u8]) -> Result<Self, u8> {
        let raw = Raw::read(bytes).ok_or(1)?;
        let constants = raw.constants().ok_or(2)?;
        let kinds = raw.kinds().ok_or(3)?;
        let (ranks, bodies) = raw.ranks().ok_or(3)?;
        let outputs = outputs(&kinds);
        let mut circuit = Circuit { constants, kinds, ranks, bodies, outputs, inputs: vec![], calls: vec![] };
        circuit.inputs = raw.inputs(&circuit).ok_or(4)?;
        circuit.calls = raw.calls(&circuit).ok_or(5)?;
        if !circuit.bodies_match() {
            return Err(19);
        }
        if circuit.pure_in_order() { Ok(circuit) } else { Err(6) }
    }

    /// The constant of this name.
    pub fn constant(&self, name: usize) -> Option<Value> {
        Some(self.constants[name.checked_sub(1)?].clone())
    }

    pub fn queues(&self) -> usize {
        self.kinds.iter().filter(|k| matches!(k.op, Op::Queue { .. })).count()
    }

    /// Question 4, one input: its source.
    fn reads_well(&self, input: &Input) -> bool {
        let Some(source) = input.source else { return true };
        let may_read = match input.port {
            Port::Value(_) => true,
            Port::Exec(_) => !self.is_buffer(input.gate),
            Port::Set(..) => false,
        };
        may_read && self.outputs.get(source).is_some_and(|o| !o.port.is_exec())
    }

    fn is_buffer(&self, gate: usize) -> bool {
        matches!(self.kinds[gate].op, Op::BufferTicks | Op::BufferSeconds)
    }

    /// Question 4, one input: its constant.
    fn holds_well(&self, input: &Input) -> bool {
        if input.stored > self.constants.len() || input.source.is_some() && input.stored > 0 {
            return false;
        }
        match input.port {
            Port::Value(_) => true,
            Port::Exec(_) => input.stored == 0,
            Port::Set(setting, _) => self.sets_well(setting, self.constant(input.stored)),
        }
    }

    /// Whether a setting may hold `v`.
    fn sets_well(&self, setting: Setting, v: Option<Value>) -> bool {
        match (setting, v) {
            (Setting::Initial, _) => true,
            (Setting::Ticks, v) => matches!(v, None | Some(Value::Int(_))),
            (Setting::Seconds, v) => matches!(v, None | Some(Value::Float(_))),
            (Setting::Variable, Some(Value::Int(n))) => self.is_var(n),
            (Setting::Loop, Some(Value::Int(n))) => usize::try_from(n).is_ok_and(|n| self.is_loop(n)),
            (Setting::Channel, Some(Value::Int(n))) => (0..=255).contains(&n),
            _ => false,
        }
    }

    fn is_var(&self, n: i64) -> bool {
        usize::try_from(n).is_ok_and(|n| self.kinds.get(n).is_some_and(|k| k.op == Op::Var))
    }

    fn is_loop(&self, n: usize) -> bool {
        self.kinds.get(n).is_some_and(|k| matches!(k.op, Op::Loop(_)))
    }

    /// Question 5, one call.
    fn calls_well(&self, call: &Call) -> bool {
        let from = self.outputs.get(call.from);
        let to = self.inputs.get(call.to);
        from.is_some_and(|o| o.port.is_exec() || o.port.name() == "RER_Output")
            && to.is_some_and(|i| i.port.is_exec() || i.port.name() == "RER_Input")
    }

    /// Question 19.
    fn bodies_match(&self) -> bool {
        let gates = 0..self.kinds.len();
        self.calls.iter().all(|call| self.stays_inside(call))
            && self.bodies.iter().all(|&body| body == 0 || self.is_loop(body as usize - 1))
            && gates.clone().filter(|&g| self.is_loop(g)).all(|g| self.has_its_entry(g))
            && gates.clone().all(|g| self.outwards(g).take(gates.len() + 1).last() == Some(0))
    }

    /// Whether both ends of a call lie in one body.
    fn stays_inside(&self, call: &Call) -> bool {
        self.bodies[self.outputs[call.from].gate] == self.bodies[self.inputs[call.to].gate]
    }

    /// Whether just one entry names this Loop, and lies in its body.
    fn has_its_entry(&self, of: usize) -> bool {
        let names = |input: &&Input| {
            let set = matches!(input.port, Port::Set(Setting::Loop, _));
            set && self.constant(input.stored) == Some(Value::Int(of as i64))
        };
        let entries: Vec<usize> = self.inputs.iter().filter(names).map(|input| input.gate).collect();
        entries.len() == 1 && self.bodies[entries[0]] as usize == 1 + of
    }

    /// The body of a gate, the body that its Loop lies in, and so on.
    fn outwards(&self, gate: usize) -> impl Iterator<Item = u32> {
        let around = |&body: &u32| body.checked_sub(1).map(|of| self.bodies[of as usize]);
        std::iter::successors(Some(self.bodies[gate]), around)
    }

    /// Question 6: whether taking away, again and again, the pure gates whose
    /// pure sources are all gone leaves none.
    fn pure_in_order(&self) -> bool {
        let mut left: Vec<bool> = self.kinds.iter().map(|k| k.op.is_pure()).collect();
        loop {
            let ready: Vec<usize> =
                (0..left.len()).filter(|&g| left[g] && !self.pure_sources(g).any(|s| left[s])).collect();
            if ready.is_empty() {
                return !left.contains(&true);
            }
            for g in ready {
                left[g] = false;
            }
        }
    }

    /// The pure gates that gate `g` reads.
    fn pure_sources(&self, g: usize) -> impl Iterator<Item = usize> {
        self.inputs
            .iter()
            .filter(move |i| i.gate == g)
            .filter_map(|i| i.source)
            .map(|o| self.outputs[o].gate)
            .filter(|&s| self.kinds[s].op.is_pure())
    }
}

/// The words of a circuit, part by part.
struct Raw {
    constant_kinds: Vec<i64>,
    contents: Vec<i64>,
    kinds: Vec<i64>,
    ranks: Vec<i64>,
    sources: Vec<i64>,
    stored: Vec<i64>,
    from: Vec<i64>,
    to: Vec<i64>,
}

impl Raw {
    /// Question 1.
    fn read(bytes: &[u8]) -> Option<Self> {
        let words = words(bytes)?;
        let &[g, k, i, c, ref rest @ ..] = &words[..] else { return None };
        let sizes_fit = (1..=64).contains(&g)
            && (0..=64).contains(&k)
            && (0..=640).contains(&i)
            && (0..=256).contains(&c);
        if !sizes_fit || rest.len() as i64 != 2 * (k + g + i + c) {
            return None;
        }
        let [g, k, i, c] = [g as usize, k as usize, i as usize, c as usize];
        let mut parts = Parts(rest);
        Some(Self {
            constant_kinds: parts.next(k),
            contents: parts.next(k),
            kinds: parts.next(g),
            ranks: parts.next(g),
            sources: parts.next(i),
            stored: parts.next(i),
            from: parts.next(c),
            to: parts.next(c),
        })
    }

    /// Question 2.
    fn constants(&self) -> Option<Vec<Value>> {
        self.constant_kinds.iter().zip(&self.contents).map(|(&k, &c)| constant(k, c)).collect()
    }

    /// Question 3: the kinds, with as many inputs as there are.
    fn kinds(&self) -> Option<Vec<&'static Kind>> {
        let kinds: Vec<_> = self.kinds.iter().map(|&n| kind(n)).collect::<Option<_>>()?;
        let inputs: usize = kinds.iter().map(|k| k.inputs.len()).sum();
        (inputs == self.sources.len()).then_some(kinds)
    }

    /// Question 3: the ranks and the bodies, which stand in one word.
    fn ranks(&self) -> Option<(Vec<u32>, Vec<u32>)> {
        let split = |&word: &i64| {
            let (rank, body) = (word.rem_euclid(RANKS), word.div_euclid(RANKS));
            (0..=BODIES).contains(&body).then_some((rank as u32, body as u32))
        };
        self.ranks.iter().map(split).collect()
    }

    /// Question 4.
    fn inputs(&self, circuit: &Circuit) -> Option<Vec<Input>> {
        let mut inputs = Vec::with_capacity(self.sources.len());
        for (gate, kind) in circuit.kinds.iter().enumerate() {
            for (own, &port) in kind.inputs.iter().enumerate() {
                let source = match self.sources[inputs.len()] {
                    -1 => None,
                    n => Some(usize::try_from(n).ok()?),
                };
                let stored = usize::try_from(self.stored[inputs.len()]).ok()?;
                let input = Input { gate, own, port, source, stored };
                if !circuit.reads_well(&input) || !circuit.holds_well(&input) {
                    return None;
                }
                inputs.push(input);
            }
        }
        Some(inputs)
    }

    /// Question 5.
    fn calls(&self, circuit: &Circuit) -> Option<Vec<Call>> {
        let mut calls = Vec::with_capacity(self.from.len());
        for (&from, &to) in self.from.iter().zip(&self.to) {
            let from = usize::try_from(from).ok()?;
            let to = usize::try_from(to).ok()?;
            let call = Call { from, to: to / 2, remote: to % 2 == 1 };
            if !circuit.calls_well(&call) {
                return None;
            }
            calls.push(call);
        }
        Some(calls)
    }
}

/// The constant of this kind and content, if there is one.
pub fn constant(kind: i64, content: i64) -> Option<Value> {
    let float = f64::from_bits(content as u64);
    match (kind, content) {
        (1, n) => Some(Value::Int(n)),
        (2, _) if float.is_finite() => Some(Value::Float(float)),
        (3, 0 | 1) => Some(Value::Bool(content == 1)),
        _ => None,
    }
}

/// Every output, gate by gate.
fn outputs(kinds: &[&'static Kind]) -> Vec<Output> {
    let of_gate = |(gate, kind): (usize, &&'static Kind)| {
        kind.outputs.iter().enumerate().map(move |(own, &port)| Output { gate, own, port })
    };
    kinds.iter().enumerate().flat_map(of_gate).collect()
}
