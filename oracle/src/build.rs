//! A small builder: circuits and scripts of document 01, written down like
//! the vehicles they describe.

/// A value that a circuit stores.
#[derive(Clone, Copy, Debug, PartialEq)]
pub enum Value {
    Int(i64),
    Float(f64),
    Bool(bool),
}

impl Value {
    /// The constant's kind and content.
    pub fn words(self) -> (i64, i64) {
        match self {
            Value::Int(n) => (1, n),
            Value::Float(f) => (2, bits(f)),
            Value::Bool(b) => (3, i64::from(b)),
        }
    }
}

/// The word of a Float: its 64 bits, read as signed.
pub fn bits(f: f64) -> i64 {
    f.to_bits() as i64
}

pub const SELECT: i64 = 1;
pub const REROUTE: i64 = 2;
pub const DELTA_TIME: i64 = 3;
pub const SERVER_UPTIME: i64 = 4;
pub const VAR: i64 = 5;
pub const CHANGE_DETECTOR: i64 = 6;
pub const EDGE: i64 = 7;
pub const CHANGE: i64 = 8;
pub const EDGE_EXEC: i64 = 9;
pub const BUFFER_TICKS: i64 = 10;
pub const BUFFER_TICKS_EXEC: i64 = 11;
pub const BUFFER_SECONDS: i64 = 12;
pub const BUFFER_SECONDS_EXEC: i64 = 13;
pub const CLOCK: i64 = 14;
pub const STOPWATCH: i64 = 15;
pub const QUEUE_TICKS: i64 = 16;
pub const QUEUE_SECONDS: i64 = 17;
pub const VAR_GET: i64 = 18;
pub const VAR_SET: i64 = 19;
pub const BRANCH: i64 = 20;
pub const UNION: i64 = 21;
pub const TOGGLE: i64 = 22;
pub const CYCLE: i64 = 23;
pub const SEND_EVENT: i64 = 24;
pub const SEND_EVENT_GLOBAL: i64 = 25;
pub const EVENT_CUSTOM: i64 = 26;
pub const EVENT_CUSTOM_GLOBAL: i64 = 27;
pub const WORLD_EVENT: i64 = 28;
pub const LOOP: i64 = 29;
pub const ENTRY: i64 = 30;
pub const BREAK: i64 = 31;

/// How much a rank's word grows from one body to the next.
pub const RANKS: i64 = 65_536;

const QUEUE_IN: &str = "E:Exec DataIn1 DataIn2 DataIn3 DataIn4 DataIn5 DataIn6 DataIn7 DataIn8 wait";
const SEND_IN: &str = "E:Exec S:channel DataIn1 DataIn2 DataIn3 DataIn4 DataIn5 DataIn6 DataIn7 DataIn8";
const DATA_OUT: &str = "ExecOut! DataOut1 DataOut2 DataOut3 DataOut4 DataOut5 DataOut6 DataOut7 DataOut8";

/// Name, inputs and outputs of kinds 1 to 31. `E:` is an exec pin, `S:` a
/// setting; an output marked `!` is exec.
pub const KINDS: [(&str, &str, &str); 31] = [
    ("Select", "bSelectB InputA InputB", "Output"),
    ("Reroute", "RER_Input", "RER_Output"),
    ("DeltaTime", "", "Output"),
    ("ServerUptime", "", "Output"),
    ("Var", "S:initial", "Value"),
    ("ChangeDetector", "Input", "OnChanged!"),
    ("Edge", "Input", "bPulseOnRisingEdge bPulseOnFallingEdge"),
    ("Change", "Input", "bPulseOnChange"),
    ("EdgeExec", "Input", "OnRisingEdge! OnFallingEdge!"),
    ("BufferTicks", "Input S:wait S:zero", "Output"),
    ("BufferTicksExec", "E:Input S:wait S:zero", "Output!"),
    ("BufferSeconds", "Input S:wait S:zero", "Output"),
    ("BufferSecondsExec", "E:Input S:wait S:zero", "Output!"),
    ("Clock", "bEnabled IntervalSeconds S:interval", "Pulse!"),
    ("Stopwatch", "E:Restart E:Pause E:Resume Limit", "Time Expired!"),
    ("QueueTicks", QUEUE_IN, DATA_OUT),
    ("QueueSeconds", QUEUE_IN, DATA_OUT),
    ("VarGet", "E:Exec S:variable", "ExecOut! Value"),
    ("VarSet", "E:Exec S:variable Value", "ExecOut!"),
    ("Branch", "E:Exec bCond", "ExecOutA! ExecOutB!"),
    ("Union", "E:Exec", "ExecOut!"),
    ("Toggle", "E:Exec", "ExecOut! Output"),
    ("Cycle", "E:Exec E:ExecDown Count", "ExecOut! ExecOutDown! Output"),
    ("SendEvent", SEND_IN, "ExecOut!"),
    ("SendEventGlobal", SEND_IN, "ExecOut!"),
    ("EventCustom", "S:channel", DATA_OUT),
    ("EventCustomGlobal", "S:channel", DATA_OUT),
    ("WorldEvent", "", "ExecOut! Value"),
    ("Loop", "E:Exec Count FirstIndex Step", "Completed! IterationsExecuted bAborted bRunning"),
    ("Entry", "S:loop", "Body! Index"),
    ("Break", "E:Exec", "ExecOut!"),
];

pub fn kind_name(kind: i64) -> &'static str {
    KINDS[kind as usize - 1].0
}

/// The inputs of a kind, marked as in [`KINDS`].
pub fn inputs_of(kind: i64) -> Vec<&'static str> {
    KINDS[kind as usize - 1].1.split_whitespace().collect()
}

/// The outputs of a kind, marked as in [`KINDS`].
pub fn outputs_of(kind: i64) -> Vec<&'static str> {
    KINDS[kind as usize - 1].2.split_whitespace().collect()
}

/// Whether an input may be called: an exec pin or RER_Input.
pub fn may_be_called(input: &str) -> bool {
    input.starts_with("E:") || input == "RER_Input"
}

/// Whether an output may call: an exec output or RER_Output.
pub fn may_call(output: &str) -> bool {
    output.ends_with('!') || output == "RER_Output"
}

/// Whether an output holds a value.
pub fn is_value(output: &str) -> bool {
    !output.ends_with('!')
}

/// The number of an input of the circuit.
#[derive(Clone, Copy, Debug, PartialEq, Eq)]
pub struct Input(pub i64);

/// The number of an output of the circuit.
#[derive(Clone, Copy, Debug, PartialEq, Eq)]
pub struct Output(pub i64);

/// A gate of the circuit, with the numbers of its first input and output.
#[derive(Clone, Copy, Debug)]
pub struct Gate {
    pub number: i64,
    pub kind: i64,
    pub first_input: i64,
    pub first_output: i64,
}

impl Gate {
    /// The input of this name.
    pub fn pin(self, name: &str) -> Input {
        let named = |p: &&str| p.rsplit(':').next() == Some(name);
        Input(self.first_input + place(&inputs_of(self.kind), named, self.kind, name))
    }

    /// The output of this name.
    pub fn out(self, name: &str) -> Output {
        let named = |o: &&str| o.trim_end_matches('!') == name;
        Output(self.first_output + place(&outputs_of(self.kind), named, self.kind, name))
    }

    /// The first input that may be called.
    pub fn entry(self) -> Input {
        let called = |p: &&str| may_be_called(p);
        Input(self.first_input + place(&inputs_of(self.kind), called, self.kind, "an exec pin"))
    }

    /// The first output that may call.
    pub fn exit(self) -> Output {
        let calls = |o: &&str| may_call(o);
        Output(self.first_output + place(&outputs_of(self.kind), calls, self.kind, "an exec output"))
    }

    /// The first output that holds a value.
    pub fn value(self) -> Output {
        let value = |o: &&str| is_value(o);
        Output(self.first_output + place(&outputs_of(self.kind), value, self.kind, "a value output"))
    }
}

fn place(names: &[&str], wanted: impl FnMut(&&str) -> bool, kind: i64, what: &str) -> i64 {
    let found = names.iter().position(wanted);
    found.unwrap_or_else(|| panic!("{} has no {what}", kind_name(kind))) as i64
}

/// What an input is given.
#[derive(Clone, Copy, Debug)]
pub enum Feed {
    Nothing,
    Stored(Value),
    From(Output),
}

/// An input that is given nothing.
pub const NOTHING: Feed = Feed::Nothing;

impl From<i64> for Value {
    fn from(n: i64) -> Self {
        Value::Int(n)
    }
}

impl From<f64> for Value {
    fn from(f: f64) -> Self {
        Value::Float(f)
    }
}

impl From<bool> for Value {
    fn from(b: bool) -> Self {
        Value::Bool(b)
    }
}

impl From<i64> for Feed {
    fn from(n: i64) -> Self {
        Feed::Stored(Value::Int(n))
    }
}

impl From<f64> for Feed {
    fn from(f: f64) -> Self {
        Feed::Stored(Value::Float(f))
    }
}

impl From<bool> for Feed {
    fn from(b: bool) -> Self {
        Feed::Stored(Value::Bool(b))
    }
}

impl From<Value> for Feed {
    fn from(v: Value) -> Self {
        Feed::Stored(v)
    }
}

impl From<Output> for Feed {
    fn from(o: Output) -> Self {
        Feed::From(o)
    }
}

/// A gate read as a whole gives its first value output.
impl From<Gate> for Feed {
    fn from(g: Gate) -> Self {
        Feed::From(g.value())
    }
}

impl From<Gate> for Input {
    fn from(g: Gate) -> Self {
        g.entry()
    }
}

impl From<Gate> for Output {
    fn from(g: Gate) -> Self {
        g.exit()
    }
}

/// A circuit under construction: pairs as they stand in its parallel arrays.
#[derive(Clone, Debug, Default)]
pub struct Circuit {
    /// Kinds and contents.
    pub constants: Vec<(i64, i64)>,
    /// Kinds and ranks, the latter with their bodies.
    pub gates: Vec<(i64, i64)>,
    /// Sources and stored constants.
    pub inputs: Vec<(i64, i64)>,
    /// From and to.
    pub calls: Vec<(i64, i64)>,
    outputs: i64,
}

impl Circuit {
    pub fn new() -> Self {
        Self::default()
    }

    /// The name of a constant, which is added when it is new.
    pub fn constant(&mut self, v: impl Into<Value>) -> i64 {
        let words = v.into().words();
        let known = self.constants.iter().position(|&c| c == words);
        known.unwrap_or_else(|| {
            self.constants.push(words);
            self.constants.len() - 1
        }) as i64
            + 1
    }

    /// A gate of this kind with all its inputs given nothing.
    pub fn gate(&mut self, kind: i64, rank: i64) -> Gate {
        let gate = Gate {
            number: self.gates.len() as i64,
            kind,
            first_input: self.inputs.len() as i64,
            first_output: self.outputs,
        };
        self.gates.push((kind, rank));
        self.inputs.extend(inputs_of(kind).iter().map(|_| (-1, 0)));
        self.outputs += outputs_of(kind).len() as i64;
        gate
    }

    /// Gives an input its source or its stored constant.
    pub fn feed(&mut self, pin: Input, with: impl Into<Feed>) {
        self.inputs[pin.0 as usize] = match with.into() {
            Feed::Nothing => (-1, 0),
            Feed::Stored(v) => (-1, self.constant(v)),
            Feed::From(o) => (o.0, 0),
        };
    }

    /// A call inside the grid.
    pub fn call(&mut self, from: impl Into<Output>, to: impl Into<Input>) {
        self.calls.push((from.into().0, 2 * to.into().0));
    }

    /// A call into another grid, made when the chain has ended.
    pub fn remote(&mut self, from: impl Into<Output>, to: impl Into<Input>) {
        self.calls.push((from.into().0, 2 * to.into().0 + 1));
    }

    /// Several calls of one output, in this order.
    pub fn call_all(&mut self, from: impl Into<Output>, to: &[Gate]) {
        let from = from.into();
        for &g in to {
            self.call(from, g);
        }
    }

    /// Each gate calls the next.
    pub fn chain(&mut self, gates: &[Gate]) {
        for pair in gates.windows(2) {
            self.call(pair[0], pair[1]);
        }
    }

    /// How many outputs the circuit's gates have.
    pub fn outputs(&self) -> usize {
        self.outputs as usize
    }

    pub fn words(&self) -> Vec<i64> {
        let mut words = vec![
            self.gates.len() as i64,
            self.constants.len() as i64,
            self.inputs.len() as i64,
            self.calls.len() as i64,
        ];
        for pairs in [&self.constants, &self.gates, &self.inputs, &self.calls] {
            push_parallel(&mut words, pairs);
        }
        words
    }

    pub fn bytes(&self) -> Vec<u8> {
        bytes_of(&self.words())
    }
}

/// One function a kind; ranks come first where the kind can be a unit.
impl Circuit {
    pub fn select(&mut self, cond: impl Into<Feed>, a: impl Into<Feed>, b: impl Into<Feed>) -> Gate {
        let g = self.gate(SELECT, 0);
        self.feed(g.pin("bSelectB"), cond);
        self.feed(g.pin("InputA"), a);
        self.feed(g.pin("InputB"), b);
        g
    }

    pub fn reroute(&mut self, input: impl Into<Feed>) -> Gate {
        let g = self.gate(REROUTE, 0);
        self.feed(g.pin("RER_Input"), input);
        g
    }

    pub fn delta_time(&mut self) -> Gate {
        self.gate(DELTA_TIME, 0)
    }

    pub fn server_uptime(&mut self) -> Gate {
        self.gate(SERVER_UPTIME, 0)
    }

    pub fn var(&mut self, initial: impl Into<Feed>) -> Gate {
        let g = self.gate(VAR, 0);
        self.feed(g.pin("initial"), initial);
        g
    }

    pub fn change_detector(&mut self, rank: i64, input: impl Into<Feed>) -> Gate {
        self.watching(CHANGE_DETECTOR, rank, input)
    }

    pub fn edge(&mut self, input: impl Into<Feed>) -> Gate {
        self.watching(EDGE, 0, input)
    }

    pub fn change(&mut self, input: impl Into<Feed>) -> Gate {
        self.watching(CHANGE, 0, input)
    }

    pub fn edge_exec(&mut self, rank: i64, input: impl Into<Feed>) -> Gate {
        self.watching(EDGE_EXEC, rank, input)
    }

    fn watching(&mut self, kind: i64, rank: i64, input: impl Into<Feed>) -> Gate {
        let g = self.gate(kind, rank);
        self.feed(g.pin("Input"), input);
        g
    }

    pub fn buffer_ticks(
        &mut self,
        input: impl Into<Feed>,
        wait: impl Into<Feed>,
        zero: impl Into<Feed>,
    ) -> Gate {
        let g = self.waiting(BUFFER_TICKS, 0, wait, zero);
        self.feed(g.pin("Input"), input);
        g
    }

    pub fn buffer_seconds(
        &mut self,
        input: impl Into<Feed>,
        wait: impl Into<Feed>,
        zero: impl Into<Feed>,
    ) -> Gate {
        let g = self.waiting(BUFFER_SECONDS, 0, wait, zero);
        self.feed(g.pin("Input"), input);
        g
    }

    pub fn buffer_ticks_exec(&mut self, rank: i64, wait: impl Into<Feed>) -> Gate {
        self.waiting(BUFFER_TICKS_EXEC, rank, wait, NOTHING)
    }

    pub fn buffer_seconds_exec(&mut self, rank: i64, wait: impl Into<Feed>) -> Gate {
        self.waiting(BUFFER_SECONDS_EXEC, rank, wait, NOTHING)
    }

    fn waiting(&mut self, kind: i64, rank: i64, wait: impl Into<Feed>, zero: impl Into<Feed>) -> Gate {
        let g = self.gate(kind, rank);
        self.feed(g.pin("wait"), wait);
        self.feed(g.pin("zero"), zero);
        g
    }

    /// A Clock with its interval as a setting.
    pub fn clock(&mut self, rank: i64, interval: impl Into<Feed>) -> Gate {
        let g = self.gate(CLOCK, rank);
        self.feed(g.pin("interval"), interval);
        g
    }

    pub fn stopwatch(&mut self, rank: i64, limit: impl Into<Feed>) -> Gate {
        let g = self.gate(STOPWATCH, rank);
        self.feed(g.pin("Limit"), limit);
        g
    }

    /// A Queue in ticks of one value.
    pub fn queue_ticks(&mut self, rank: i64, data: impl Into<Feed>, wait: impl Into<Feed>) -> Gate {
        self.queue(QUEUE_TICKS, rank, data, wait)
    }

    /// A Queue in seconds of one value.
    pub fn queue_seconds(&mut self, rank: i64, data: impl Into<Feed>, wait: impl Into<Feed>) -> Gate {
        self.queue(QUEUE_SECONDS, rank, data, wait)
    }

    fn queue(&mut self, kind: i64, rank: i64, data: impl Into<Feed>, wait: impl Into<Feed>) -> Gate {
        let g = self.gate(kind, rank);
        self.feed(g.pin("DataIn1"), data);
        self.feed(g.pin("wait"), wait);
        g
    }

    pub fn var_get(&mut self, rank: i64, var: Gate) -> Gate {
        let g = self.gate(VAR_GET, rank);
        self.feed(g.pin("variable"), var.number);
        g
    }

    pub fn var_set(&mut self, rank: i64, var: Gate, value: impl Into<Feed>) -> Gate {
        let g = self.gate(VAR_SET, rank);
        self.feed(g.pin("variable"), var.number);
        self.feed(g.pin("Value"), value);
        g
    }

    pub fn branch(&mut self, rank: i64, cond: impl Into<Feed>) -> Gate {
        let g = self.gate(BRANCH, rank);
        self.feed(g.pin("bCond"), cond);
        g
    }

    pub fn union(&mut self, rank: i64) -> Gate {
        self.gate(UNION, rank)
    }

    pub fn toggle(&mut self, rank: i64) -> Gate {
        self.gate(TOGGLE, rank)
    }

    pub fn cycle(&mut self, rank: i64, count: impl Into<Feed>) -> Gate {
        let g = self.gate(CYCLE, rank);
        self.feed(g.pin("Count"), count);
        g
    }

    /// A SendEvent of one value.
    pub fn send_event(&mut self, rank: i64, channel: i64, data: impl Into<Feed>) -> Gate {
        self.send(SEND_EVENT, rank, channel, data)
    }

    /// A global SendEvent of one value.
    pub fn send_global(&mut self, rank: i64, channel: i64, data: impl Into<Feed>) -> Gate {
        self.send(SEND_EVENT_GLOBAL, rank, channel, data)
    }

    fn send(&mut self, kind: i64, rank: i64, channel: i64, data: impl Into<Feed>) -> Gate {
        let g = self.gate(kind, rank);
        self.feed(g.pin("channel"), channel);
        self.feed(g.pin("DataIn1"), data);
        g
    }

    pub fn event_custom(&mut self, rank: i64, channel: i64) -> Gate {
        self.receive(EVENT_CUSTOM, rank, channel)
    }

    pub fn event_global(&mut self, rank: i64, channel: i64) -> Gate {
        self.receive(EVENT_CUSTOM_GLOBAL, rank, channel)
    }

    fn receive(&mut self, kind: i64, rank: i64, channel: i64) -> Gate {
        let g = self.gate(kind, rank);
        self.feed(g.pin("channel"), channel);
        g
    }

    pub fn world_event(&mut self, rank: i64) -> Gate {
        self.gate(WORLD_EVENT, rank)
    }

    /// A Loop; its entry is still to come.
    pub fn repeat(
        &mut self,
        rank: i64,
        count: impl Into<Feed>,
        first: impl Into<Feed>,
        step: impl Into<Feed>,
    ) -> Gate {
        let g = self.gate(LOOP, rank);
        self.feed(g.pin("Count"), count);
        self.feed(g.pin("FirstIndex"), first);
        self.feed(g.pin("Step"), step);
        g
    }

    /// The entry of a Loop, in its body.
    pub fn body(&mut self, of: Gate) -> Gate {
        let g = self.gate(ENTRY, 0);
        self.feed(g.pin("loop"), of.number);
        self.put_inside(of, &[g]);
        g
    }

    pub fn break_out(&mut self, rank: i64) -> Gate {
        self.gate(BREAK, rank)
    }

    /// These gates lie in the body of a Loop, whatever their ranks.
    pub fn put_inside(&mut self, of: Gate, gates: &[Gate]) {
        for g in gates {
            let word = &mut self.gates[g.number as usize].1;
            *word = word.rem_euclid(RANKS) + RANKS * (1 + of.number);
        }
    }
}

/// A script under construction.
#[derive(Clone, Debug, Default)]
pub struct Script {
    /// Lengths (as bits) and stimulus counts.
    pub ticks: Vec<(i64, i64)>,
    /// Gates and constants.
    pub stimuli: Vec<(i64, i64)>,
}

impl Script {
    pub fn new() -> Self {
        Self::default()
    }

    /// One more tick.
    pub fn tick(&mut self, length: f64) -> &mut Self {
        self.ticks.push((bits(length), 0));
        self
    }

    /// More ticks of one length.
    pub fn ticks(&mut self, n: usize, length: f64) -> &mut Self {
        for _ in 0..n {
            self.tick(length);
        }
        self
    }

    /// Ticks for the first checks and what they start, before what is to be
    /// seen by itself.
    pub fn first_checks(&mut self, n: usize, length: f64) -> &mut Self {
        self.ticks(n, length)
    }

    /// A stimulus of the last tick that only fires.
    pub fn fire(&mut self, world: Gate) -> &mut Self {
        self.give(world, 0)
    }

    /// A stimulus of the last tick with the constant of this name.
    pub fn give(&mut self, world: Gate, constant: i64) -> &mut Self {
        self.ticks.last_mut().expect("a tick for the stimulus").1 += 1;
        self.stimuli.push((world.number, constant));
        self
    }

    pub fn words(&self) -> Vec<i64> {
        let mut words = vec![self.ticks.len() as i64, self.stimuli.len() as i64];
        push_parallel(&mut words, &self.ticks);
        push_parallel(&mut words, &self.stimuli);
        words
    }

    pub fn bytes(&self) -> Vec<u8> {
        bytes_of(&self.words())
    }
}

/// A book of scripts (document 02, K1) under construction.
#[derive(Clone, Debug)]
pub struct Book {
    /// Starts and lengths.
    pub spans: Vec<(i64, i64)>,
    /// What stands behind both arrays.
    pub rest: Vec<u8>,
}

impl Book {
    /// A book of so many scripts, none of which has a byte yet.
    pub fn new(scripts: usize) -> Self {
        Self { spans: vec![(0, 0); scripts], rest: Vec::new() }
    }

    /// A book of these scripts, one behind the other.
    pub fn of(scripts: &[Vec<u8>]) -> Self {
        let mut book = Self::new(scripts.len());
        for (k, script) in scripts.iter().enumerate() {
            book.put(k, script);
        }
        book
    }

    /// Script `k` is written behind what stands there.
    pub fn put(&mut self, k: usize, script: &[u8]) {
        self.spans[k] = (self.length(), script.len() as i64);
        self.rest.extend(script);
    }

    /// The bytes of the book so far.
    pub fn length(&self) -> i64 {
        (8 * (1 + 2 * self.spans.len()) + self.rest.len()) as i64
    }

    pub fn bytes(&self) -> Vec<u8> {
        let mut words = vec![self.spans.len() as i64];
        push_parallel(&mut words, &self.spans);
        [bytes_of(&words), self.rest.clone()].concat()
    }
}

/// A record of a log under construction: its head says what it has, and need not
/// be right.
#[derive(Clone, Debug, Default)]
pub struct Record {
    /// Tick, steps, late units, main units, carried, stop, changed.
    pub head: [i64; 7],
    /// Gates and forms of the units begun.
    pub begun: Vec<(i64, i64)>,
    /// Gates and forms of the carried units.
    pub carried: Vec<(i64, i64)>,
    /// Kinds and contents.
    pub outputs: Vec<(i64, i64)>,
}

impl Record {
    pub fn words(&self) -> Vec<i64> {
        let mut words = self.head.to_vec();
        for pairs in [&self.begun, &self.carried, &self.outputs] {
            push_parallel(&mut words, pairs);
        }
        words
    }
}

/// Pairs as two parallel arrays.
fn push_parallel(words: &mut Vec<i64>, pairs: &[(i64, i64)]) {
    words.extend(pairs.iter().map(|p| p.0));
    words.extend(pairs.iter().map(|p| p.1));
}

/// Words as bytes, least first.
pub fn bytes_of(words: &[i64]) -> Vec<u8> {
    words.iter().flat_map(|w| w.to_le_bytes()).collect()
}
