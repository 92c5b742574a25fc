//! The scheduler: how a tick runs, as measured in game (`ENGINE_MODEL.md`
//! sections 9 to 11 in the simulator project).
//!
//! A *unit* is a gate the scheduler starts rather than an exec call: a gate
//! whose Exec pin a value drives, a change detector, an event, a clock, a
//! buffer of an exec signal. Each unit has a rank. A tick is one pass over
//! the pending units in rank order; a unit that becomes pending behind the
//! pass waits for the next tick, ahead of that tick's other work. The game
//! fixes no order between units fired by one change, so the ranks are a
//! seeded permutation (the default is save order).
//!
//! Running a unit runs its exec chain depth-first, fan-out in stored wire
//! order. An exec value output reaches its readers at once. A var write
//! changes storage at once but reaches the gates off the var only when the
//! chain is done. A call into another grid (a fork into a chip) runs when
//! the chain is done. Then var writes are published, pure gates settle, and
//! any Exec pin whose value changed to truthy makes its unit pending.

use std::collections::{BTreeMap, VecDeque};

use crate::collections::{HashMap, HashSet};
use crate::graph::{Detector, Gate, GateId, Graph, Op};
use crate::value::Value;
use crate::world::World;
use crate::{SimError, SimOptions};

mod callable;

use callable::Callable;

#[path = "../limits.rs"] // oracle:
mod limits; // oracle:
#[path = "../record.rs"] // oracle:
mod record; // oracle:
#[path = "../start.rs"] // oracle:
mod start; // oracle:
#[path = "../witness.rs"] // oracle:
pub mod witness; // oracle:

/// Why a unit runs.
#[derive(Clone, Debug)]
enum Activation {
    /// A value driving Exec pin `input` changed to truthy.
    Pin(u16),
    /// The gate's own exec output fires (a change detector, the Load Event, a
    /// clock, a buffer of an exec signal).
    Fire,
    /// A custom event arrived with this data.
    Event(Vec<Option<Value>>),
    /// The world raised the gate's event with these outputs; it fires the
    /// named exec output, `ExecOut` when none is named.
    World(Vec<(String, Value)>, Option<String>),
    /// The gate fires exec output `o` (an edge detector's rising or falling
    /// side).
    Output(u16),
}

/// A buffer's timer, following the fields the save stores for it.
#[derive(Clone, Debug, Default)]
struct Buffer {
    /// Exec mode: the input is an exec signal, and each call fires the output
    /// later.
    exec_mode: bool,
    /// The value in flight and the ticks (or seconds) left before it lands.
    in_flight: Option<(Option<Value>, Countdown)>,
    /// Whether an input arrived while a value was in flight, and the latest
    /// one (the save's `bHasQueued` and `Buffered`).
    has_queued: bool,
    queued: Option<Value>,
    /// Exec mode: the ticks the pending fires land on.
    fires: VecDeque<Countdown>,
}

#[derive(Clone, Copy, Debug)]
enum Countdown {
    Ticks(i64),
    /// Seconds to wait and seconds accumulated so far, in the `f32` the save
    /// stores them in.
    Seconds { wait: f32, elapsed: f32 },
}

#[derive(Clone, Debug)]
enum State {
    None,
    Var(Option<Value>),
    Buffer(Box<Buffer>),
    Clock { elapsed: f64 },
    /// A queue's records, oldest first, each with the wait left before it is
    /// released.
    Queue(VecDeque<(Vec<Option<Value>>, Countdown)>),
    Stopwatch { time: f64, running: bool },
}

/// The most records a queue holds; a record past this is dropped.
const MAX_QUEUE_RECORDS: usize = 256;

/// One custom event send, delivered next tick.
struct Send {
    name: String,
    global: bool,
    data: Vec<Option<Value>>,
}

pub struct Machine {
    pub graph: Graph,
    pub world: Box<dyn World>,
    opts: SimOptions,
    /// The current tick; the Load Event runs on tick 0.
    tick: u64,
    dt: f64,
    uptime: f64,
    /// Each output's current value; `None` reads as unwired.
    outs: Vec<Vec<Option<Value>>>,
    /// Pure gates whose outputs are stale.
    dirty: Vec<bool>,
    state: Vec<State>,
    /// The last value each watched input saw.
    last: HashMap<(GateId, u16), Option<Value>>,
    to_check: VecDeque<(GateId, u16)>,
    queued_check: HashSet<(GateId, u16)>,
    /// Each unit's rank; `u32::MAX` for a gate that is never a unit.
    rank: Vec<u32>,
    pending: BTreeMap<u32, VecDeque<(GateId, Activation)>>,
    /// Work that lands ahead of a tick's handlers: units carried from the
    /// last tick, custom events, buffers of an exec signal.
    late: BTreeMap<u32, VecDeque<(GateId, Activation)>>,
    /// Custom events sent last tick: they land after the rest of the late
    /// work, change reactions and buffers included (P15 `CB1 R1`, P35a
    /// `C1 R1`, P16 `G R1`).
    late_events: VecDeque<(GateId, Activation)>,
    in_late: bool,
    /// Pure gates marked stale since the last settle.
    stale: Vec<GateId>,
    carried: Vec<(GateId, Activation)>,
    cursor: Option<u32>,
    forks: VecDeque<(GateId, u16)>,
    written: Vec<GateId>,
    written_set: HashSet<GateId>,
    /// Vars this chain wrote inside a callable, and the watched inputs their
    /// change reaches: those act a tick late whatever their rank (P27 to
    /// P29), where a plain chain's write follows rank (P04 `C1@5`). A plain
    /// write to the same var in the chain, before or after, makes it act on
    /// time (P30 `b2@4 b3@6`).
    written_in_plane: HashSet<GateId>,
    written_outside: HashSet<GateId>,
    late_checks: HashSet<(GateId, u16)>,
    marking_late: bool,
    outbox: Vec<(GateId, Send)>,
    receivers: HashMap<String, Vec<GateId>>,
    timed: Vec<GateId>,
    time_sources: Vec<GateId>,
    /// Exec gates run this tick, for the runaway guard.
    steps: u64,
    /// Totals over the whole run, for `stats`.
    total_steps: u64,
    total_evals: u64,
    callables: HashMap<GateId, Callable>,
    /// Callable invocations run this tick.
    invocations: u64,
    /// Callables running inside one another.
    depth: u32,
    /// A Break ran inside the innermost running loop.
    break_requested: bool,
    /// The grid of each running callable's plane, innermost last.
    planes: Vec<u32>,
    /// The grid each chip grid sits in.
    grid_parent: HashMap<u32, u32>,
    /// The Exec Unions that have passed an activation, for the tick and then
    /// for each running invocation (P25, P26: a Union passes once per tick).
    unions_passed: Vec<HashSet<GateId>>,
    /// Detector outputs pulsed, with the tick each last went high. P20g: a
    /// pulse is still high in the next tick's handlers, so it clears at the
    /// start of the tick after that.
    pulses: HashMap<(GateId, u16), u64>,
    /// What the limits of document 01 and the log need. // oracle:
    tally: limits::Tally, // oracle:
}

/// The most exec gates one tick may run before the simulator calls it a
/// runaway loop.
const MAX_STEPS_PER_TICK: u64 = 50_000_000;

impl Machine {
    pub fn tick(&self) -> u64 {
        self.tick
    }

    /// Exec gates run and pure gates evaluated so far.
    pub fn stats(&self) -> (u64, u64) {
        (self.total_steps, self.total_evals)
    }

    /// Run one tick.
    fn step(&mut self) -> Result<(), SimError> {
        self.tick += 1;
        self.dt = self.opts.dt_at(self.tick);
        self.tally.narrow(self.dt); // oracle: for advance_buffers, in every tick
        self.uptime += self.dt;
        self.steps = 0;
        self.invocations = 0;
        self.unions_passed[0].clear();

        for (g, act) in std::mem::take(&mut self.carried) {
            self.push_late(g, act);
        }
        self.deliver_events();
        self.deliver_world_events();
        let tick = self.tick;
        let mut ended: Vec<(GateId, u16)> = self
            .pulses
            .iter()
            .filter(|&(_, &at)| at + 2 <= tick)
            .map(|(&k, _)| k)
            .collect();
        ended.sort_unstable();
        for (g, o) in ended {
            self.pulses.remove(&(g, o));
            self.set_out(g, o, Some(Value::Bool(false)));
        }
        self.advance_buffers();
        self.advance_clocks()?;
        self.advance_timers()?;
        for g in self.time_sources.clone() {
            self.invalidate(g);
        }
        self.settle()?;
        self.within_limits()?; // oracle: lists filled before the passes
        self.late_pass()?;
        self.pass()?;
        Ok(()) // oracle: no displays to record
    }

    /// Run the work that lands ahead of the tick's handlers, in rank order,
    /// with anything it sets off.
    fn late_pass(&mut self) -> Result<(), SimError> {
        self.in_late = true;
        loop {
            let (g, act) = if let Some(mut entry) = self.late.first_entry() {
                let unit = entry.get_mut().pop_front().expect("late lists are never empty");
                self.tally.late -= 1; // oracle:
                if entry.get().is_empty() {
                    entry.remove();
                }
                unit
            } else if let Some(unit) = self.late_events.pop_front() {
                unit
            } else {
                break;
            };
            self.begin(g, &act)?; // oracle:
            self.run_unit(g, act)?;
            self.finish_chain()?;
        }
        self.in_late = false;
        Ok(())
    }

    /// After a unit's chain: run its forks, publish its var writes, settle.
    fn finish_chain(&mut self) -> Result<(), SimError> {
        while let Some((fg, fi)) = self.forks.pop_front() {
            self.run_chain(fg, fi)?;
        }
        self.publish_writes();
        self.settle()
    }

    /// Run the pending units in rank order.
    fn pass(&mut self) -> Result<(), SimError> {
        self.cursor = None;
        while let Some(mut entry) = self.pending.first_entry() {
            let rank = *entry.key();
            let (g, act) = entry.get_mut().pop_front().expect("pending lists are never empty");
            self.tally.pending -= 1; // oracle:
            if entry.get().is_empty() {
                entry.remove();
            }
            self.begin(g, &act)?; // oracle:
            self.cursor = Some(rank);
            self.run_unit(g, act)?;
            self.finish_chain()?;
        }
        self.cursor = None;
        Ok(())
    }

    fn activate(&mut self, g: GateId, act: Activation) {
        let r = self.rank[g as usize];
        if self.in_late {
            self.push_late(g, act);
        } else if self.cursor.is_some_and(|c| r <= c) {
            if !self.tally.room(self.carried.len(), limits::LIST) { return; } // oracle:
            self.carried.push((g, act));
        } else {
            self.push_pending(g, act);
        }
    }

    fn push_late(&mut self, g: GateId, act: Activation) {
        let r = self.rank[g as usize];
        if !self.tally.raise_late() { return; } // oracle:
        self.late.entry(r).or_default().push_back((g, act));
    }

    fn push_pending(&mut self, g: GateId, act: Activation) {
        let r = self.rank[g as usize];
        if !self.tally.raise_pending() { return; } // oracle:
        self.pending.entry(r).or_default().push_back((g, act));
    }

    fn run_unit(&mut self, g: GateId, act: Activation) -> Result<(), SimError> {
        match act {
            Activation::Pin(i) => self.run_chain(g, i),
            Activation::Fire => {
                let gate = self.graph.gate(g);
                let out = match gate.op {
                    Op::ChangeDetector => gate.output("OnChanged"),
                    Op::Clock => gate.output("Pulse"),
                    Op::Stopwatch => gate.output("Expired"),
                    Op::BufferTicks | Op::BufferSeconds => gate.output("Output"),
                    _ => gate.output("ExecOut"),
                };
                if let Some(o) = out {
                    self.fire_chain(g, o)?;
                }
                Ok(())
            }
            Activation::Event(data) => {
                for (k, v) in data.into_iter().enumerate() {
                    if let Some(o) = self.graph.gate(g).output(&format!("DataOut{}", k + 1)) {
                        self.set_out(g, o, v);
                    }
                }
                if let Some(o) = self.graph.gate(g).output("ExecOut") {
                    self.fire_chain(g, o)?;
                }
                Ok(())
            }
            Activation::World(outputs, fire) => {
                for (name, v) in outputs {
                    self.set_out_named(g, &name, Some(v));
                }
                if let Some(o) = self.graph.gate(g).output(fire.as_deref().unwrap_or("ExecOut")) {
                    self.fire_chain(g, o)?;
                }
                Ok(())
            }
            Activation::Output(o) => self.fire_chain(g, o),
        }
    }

    /// Deliver the events the world raises this tick to their gates.
    fn deliver_world_events(&mut self) {
        for event in self.world.events(self.tick) {
            if let Some(g) = event.gate {
                self.push_late(g, Activation::World(event.outputs, event.fire));
                continue;
            }
        }
    }

    /// Run gate `g` entered through input `i`, then its exec chain
    /// depth-first.
    fn run_chain(&mut self, g: GateId, i: u16) -> Result<(), SimError> {
        let mut stack: Vec<(GateId, u16)> = vec![(g, i)];
        self.tally.stack += 1; // oracle:
        while let Some((g, i)) = stack.pop() {
            self.tally.stack -= 1; // oracle:
            self.steps += 1;
            self.total_steps += 1;
            if self.steps > MAX_STEPS_PER_TICK {
                return Err(self.error(g, "runaway exec chain: too many gates in one tick"));
            }
            if let Some(o) = self.exec_gate(g, i)? {
                self.push_calls(g, o, &mut stack);
            }
            self.within_limits()?; // oracle:
        }
        Ok(())
    }

    /// Fire exec output `o` of `g` and run what it calls.
    fn fire_chain(&mut self, g: GateId, o: u16) -> Result<(), SimError> {
        let mut stack = Vec::new();
        self.push_calls(g, o, &mut stack);
        self.within_limits()?; // oracle:
        while let Some((g, i)) = stack.pop() {
            self.tally.stack -= 1; // oracle:
            self.steps += 1;
            self.total_steps += 1;
            if self.steps > MAX_STEPS_PER_TICK {
                return Err(self.error(g, "runaway exec chain: too many gates in one tick"));
            }
            if let Some(o) = self.exec_gate(g, i)? {
                self.push_calls(g, o, &mut stack);
            }
            self.within_limits()?; // oracle:
        }
        Ok(())
    }

    /// Queue the calls of exec output `o`: local ones onto `stack` so the
    /// first-stored runs first, each to completion; remote ones to run when
    /// the chain is done.
    fn push_calls(&mut self, g: GateId, o: u16, stack: &mut Vec<(GateId, u16)>) {
        if !self.planes.is_empty()
            && self.graph.gates[g as usize].outputs[o as usize]
                .calls
                .iter()
                .any(|c| self.frame_of(self.graph.gate(c.gate).addr.grid) != self.planes.len())
        {
            return self.push_calls_in_plane(g, o, stack);
        }
        let calls = &self.graph.gates[g as usize].outputs[o as usize].calls;
        for c in calls {
            if c.remote {
                self.forks.push_back((c.gate, c.input));
            }
        }
        for c in calls.iter().rev() {
            if !c.remote {
                stack.push((c.gate, c.input));
            }
        }
        self.tally.hold(self.forks.len(), calls.iter().filter(|c| !c.remote).count()); // oracle:
        self.look_on(); // oracle:
    }

    /// [`Self::push_calls`] inside a callable when some call leaves its plane.
    /// P24 to P26: an exec out of a loop body through a boundary pin runs
    /// nothing outside, but every Exec Union it reaches counts as having
    /// passed for that tick.
    fn push_calls_in_plane(&mut self, g: GateId, o: u16, stack: &mut Vec<(GateId, u16)>) {
        self.tally.never("question 19 keeps both ends of a call in one body"); // oracle:
        let calls = self.graph.gates[g as usize].outputs[o as usize].calls.clone();
        let depth = self.planes.len();
        for c in &calls {
            match self.frame_of(self.graph.gate(c.gate).addr.grid) {
                f if f == depth => {
                    if c.remote {
                        self.forks.push_back((c.gate, c.input));
                    }
                }
                f => self.lose(c.gate, f),
            }
        }
        for c in calls.iter().rev() {
            if !c.remote && self.frame_of(self.graph.gate(c.gate).addr.grid) == depth {
                stack.push((c.gate, c.input));
            }
        }
    }

    /// Which running frame `grid` belongs to: the innermost running plane
    /// that holds it (1 for the outermost), 0 for neither.
    fn frame_of(&self, grid: u32) -> usize {
        let mut at = grid;
        loop {
            if let Some(k) = self.planes.iter().rposition(|&p| p == at) {
                return k + 1;
            }
            match self.grid_parent.get(&at) {
                Some(&up) => at = up,
                None => return 0,
            }
        }
    }

    /// An exec lost leaving a plane reached `g`, which belongs to frame
    /// `frame`: mark the Unions it passes through as passed.
    fn lose(&mut self, g: GateId, frame: usize) {
        let mut work = vec![g];
        while let Some(g) = work.pop() {
            if self.graph.gate(g).op != Op::Union || !self.unions_passed[frame].insert(g) {
                continue;
            }
            if let Some(o) = self.graph.gate(g).output("ExecOut") {
                work.extend(self.graph.gate(g).outputs[o as usize].calls.iter().map(|c| c.gate));
            }
        }
    }

    /// Publish this chain's var writes to the gates off each var.
    fn publish_writes(&mut self) {
        for g in std::mem::take(&mut self.written) {
            self.written_set.remove(&g);
            let outside = self.written_outside.remove(&g);
            self.marking_late = self.written_in_plane.remove(&g) && !outside;
            if let Some(o) = self.graph.gate(g).output("Value") {
                self.mark_readers(g, o);
            }
        }
        self.marking_late = false;
    }

    /// Settle: re-read every watched input whose cone changed and act on it.
    fn settle(&mut self) -> Result<(), SimError> {
        for g in std::mem::take(&mut self.stale) {
            if self.dirty[g as usize] {
                self.refresh(g)?;
            }
        }
        while let Some((g, i)) = self.to_check.pop_front() {
            self.queued_check.remove(&(g, i));
            let late = self.late_checks.remove(&(g, i)) && !self.in_late;
            let v = self.read_input(g, i)?;
            let prev = self.last.insert((g, i), v.clone());
            let changed = prev.as_ref() != Some(&v);
            if !changed {
                continue;
            }
            let gate = self.graph.gate(g);
            match gate.op {
                Op::ChangeDetector if late && !self.tally.room(self.carried.len(), limits::LIST) => {} // oracle:
                Op::ChangeDetector if late => self.carried.push((g, Activation::Fire)),
                Op::ChangeDetector => self.activate(g, Activation::Fire),
                Op::Detector(d) => self.detect(g, d, prev.flatten().as_ref(), v.as_ref()),
                Op::BufferTicks | Op::BufferSeconds if gate.inputs[i as usize].name == "Input" => {
                    self.buffer_input(g, v);
                }
                _ => {
                    if v.as_ref().is_some_and(Value::truthy) {
                        if late {
                            if !self.tally.room(self.carried.len(), limits::LIST) { return self.within_limits(); } // oracle:
                            self.carried.push((g, Activation::Pin(i)));
                        } else {
                            self.activate(g, Activation::Pin(i));
                        }
                    }
                }
            }
            self.within_limits()?; // oracle:
        }
        Ok(())
    }

    /// Whether input `i` of `g` is watched for changes: an Exec pin a value
    /// drives, a change detector's input, a buffer's value input.
    fn is_watched(&self, g: GateId, i: u16) -> bool {
        let gate = self.graph.gate(g);
        let input = &gate.inputs[i as usize];
        match gate.op {
            Op::ChangeDetector | Op::Detector(_) => input.name == "Input",
            Op::BufferTicks | Op::BufferSeconds => input.name == "Input" && !self.buffer_exec_mode(g),
            _ => input.exec_pin && input.source.is_some(),
        }
    }

    fn buffer_exec_mode(&self, g: GateId) -> bool {
        matches!(&self.state[g as usize], State::Buffer(b) if b.exec_mode)
    }

    /// Mark everything that reads output `o` of `g` stale, through any depth
    /// of pure gates, and queue the watched inputs it reaches.
    fn mark_readers(&mut self, g: GateId, o: u16) {
        let mut work: Vec<(GateId, u16)> = vec![(g, o)];
        while let Some((g, o)) = work.pop() {
            let readers = &self.graph.gates[g as usize].outputs[o as usize].readers;
            for &(r, ri) in readers {
                let reader = &self.graph.gates[r as usize];
                if reader.op.is_pure() {
                    if !self.dirty[r as usize] {
                        self.dirty[r as usize] = true;
                        self.stale.push(r);
                        for ro in 0..reader.outputs.len() as u16 {
                            work.push((r, ro));
                        }
                    }
                } else if self.is_watched(r, ri) {
                    if self.marking_late {
                        self.late_checks.insert((r, ri));
                    }
                    if self.queued_check.insert((r, ri)) {
                        self.to_check.push_back((r, ri));
                    }
                }
            }
        }
    }

    /// Mark pure gate `g` itself stale (a time source each tick).
    fn invalidate(&mut self, g: GateId) {
        if !self.dirty[g as usize] {
            self.dirty[g as usize] = true;
            self.stale.push(g);
        }
        for o in 0..self.graph.gate(g).outputs.len() as u16 {
            self.mark_readers(g, o);
        }
    }

    /// Set exec output value `o` of `g`, reaching its readers at once.
    fn set_out(&mut self, g: GateId, o: u16, v: Option<Value>) {
        let slot = &mut self.outs[g as usize][o as usize];
        if *slot != v {
            *slot = v;
            self.mark_readers(g, o);
        }
    }

    fn set_out_named(&mut self, g: GateId, name: &str, v: Option<Value>) {
        if let Some(o) = self.graph.gate(g).output(name) {
            self.set_out(g, o, v);
        }
    }

    // ---- reading values ----

    /// The value on input `i` of `g`: its wire's source, else what the save
    /// stores in the field.
    /// A poisoned value reaching a gate that is not pure raises the error it
    /// carries.
    fn read_input(&mut self, g: GateId, i: u16) -> Result<Option<Value>, SimError> {
        let input = &self.graph.gates[g as usize].inputs[i as usize];
        let v = match input.source {
            None => input.stored.clone(),
            Some(src) => self.read_output(src.gate, src.out)?,
        };
        if let Some(Value::Poison(p)) = &v
            && !self.graph.gate(g).op.is_pure()
        {
            return Err((*p.0).clone());
        }
        Ok(v)
    }

    fn read_named(&mut self, g: GateId, name: &str) -> Result<Option<Value>, SimError> {
        match self.graph.gate(g).input(name) {
            Some(i) => self.read_input(g, i),
            None => Ok(None),
        }
    }

    /// The current value of output `o` of `g`. A var's value is its live
    /// storage; a stale pure gate is recomputed first.
    fn read_output(&mut self, g: GateId, o: u16) -> Result<Option<Value>, SimError> {
        let gate = &self.graph.gates[g as usize];
        match gate.op {
            Op::Var => {
                return Ok(if gate.outputs[o as usize].name == "VarRef" {
                    Some(Value::Ref(g))
                } else {
                    match &self.state[g as usize] {
                        State::Var(v) => v.clone(),
                        _ => None,
                    }
                });
            }
            _ => {}
        }
        if self.dirty[g as usize] {
            self.refresh(g)?;
        }
        Ok(self.outs[g as usize][o as usize].clone())
    }

    /// Recompute stale pure gate `g` and every stale pure gate it reads,
    /// sources first.
    fn refresh(&mut self, root: GateId) -> Result<(), SimError> {
        let mut stack: Vec<(GateId, bool)> = vec![(root, false)];
        while let Some((g, expanded)) = stack.pop() {
            if !self.dirty[g as usize] {
                continue;
            }
            if expanded {
                self.recompute(g);
                self.total_evals += 1;
                self.dirty[g as usize] = false;
                continue;
            }
            stack.push((g, true));
            for input in &self.graph.gates[g as usize].inputs {
                if let Some(src) = input.source
                    && self.dirty[src.gate as usize]
                    && self.graph.gate(src.gate).op.is_pure()
                {
                    if stack.len() > 10_000_000 {
                        return Err(self.error(g, "pure gates form a cycle"));
                    }
                    stack.push((src.gate, false));
                }
            }
        }
        Ok(())
    }

    /// Recompute pure gate `g`. A value it cannot compute becomes a poisoned
    /// value, raised when something not pure reads it.
    fn recompute(&mut self, g: GateId) {
        let value = match self.compute(g) {
            Ok(v) => v,
            Err(e) => {
                let poison = Some(Value::Poison(crate::value::Poisoned(std::sync::Arc::new(e))));
                poison
            }
        };
        let main = value_output(self.graph.gate(g));
        if let Some(slot) = self.outs[g as usize].get_mut(main as usize) {
            *slot = value;
        }
    }

    fn compute(&mut self, g: GateId) -> Result<Option<Value>, SimError> {
        let gate = &self.graph.gates[g as usize];
        let value = match gate.op {
            Op::Reroute => self.read_named(g, "RER_Input")?,
            Op::DeltaTime => Some(Value::Float(self.dt)),
            Op::ServerUptime => Some(Value::Float(self.uptime)),
            Op::Select => {
                let cond = self.read_named(g, "bSelectB")?;
                if cond.as_ref().is_some_and(Value::truthy) {
                    self.read_named(g, "InputB")?
                } else {
                    self.read_named(g, "InputA")?
                }
            }
            _ => return Err(self.error(g, "not a pure gate")),
        };
        Ok(value)
    }

    // ---- exec gates ----

    /// The storage gate a reference input names.
    fn target(&mut self, g: GateId, port: &str) -> Result<GateId, SimError> {
        match self.read_named(g, port)? {
            Some(Value::Ref(t)) => Ok(t),
            other => Err(self.error(
                g,
                &format!(
                    "{port} holds {}, not a reference",
                    other.as_ref().map_or("nothing".to_string(), |v| v.kind().to_string())
                ),
            )),
        }
    }

    fn record_write(&mut self, var: GateId) {
        if self.depth > 0 {
            self.written_in_plane.insert(var);
        } else {
            self.written_outside.insert(var);
        }
        if self.written_set.insert(var) {
            self.written.push(var);
        }
    }

    /// Run exec gate `g` entered through input `i`. Returns the exec output
    /// to fire next.
    fn exec_gate(&mut self, g: GateId, i: u16) -> Result<Option<u16>, SimError> {
        let gate = &self.graph.gates[g as usize];
        let op = gate.op;
        let exec_out = gate.output("ExecOut");
        match op {
            Op::Reroute => return Ok(gate.output("RER_Output")),
            Op::Union => {
                if !self.unions_passed.last_mut().expect("the tick frame").insert(g) {
                    return Ok(None);
                }
            }
            Op::VarGet => {
                let var = self.target(g, "VarRef")?;
                let v = match &self.state[var as usize] {
                    State::Var(v) => v.clone(),
                    _ => return Err(self.error(g, "VarRef does not name a Variable")),
                };
                self.set_out_named(g, "Value", v);
            }
            Op::VarSet => {
                let var = self.target(g, "VarRef")?;
                let mut v = self.read_named(g, "Value")?;
                if self.graph.gate(g).field_bool("bChangeType") != Some(true)
                    && let State::Var(cur) = &self.state[var as usize]
                {
                    v = set_in_kind(cur.as_ref(), v).map_err(|what| self.error(g, &what))?;
                }
                match &mut self.state[var as usize] {
                    State::Var(slot) => *slot = v,
                    _ => return Err(self.error(g, "VarRef does not name a Variable")),
                }
                self.record_write(var);
            }
            Op::Branch => {
                let cond = self.read_named(g, "bCond")?;
                let gate = self.graph.gate(g);
                return Ok(if cond.as_ref().is_some_and(Value::truthy) {
                    gate.output("ExecOutA")
                } else {
                    gate.output("ExecOutB")
                });
            }
            Op::SendEvent { global } => {
                let gate = self.graph.gate(g);
                let name = gate.field_str("EventName").unwrap_or_default();
                let mut data = Vec::with_capacity(8);
                for k in 1..=8 {
                    data.push(self.read_named(g, &format!("DataIn{k}"))?);
                }
                if self.outbox.iter().any(|(s, _)| *s == g) {
                    // One send gate fired again on the same tick: the game caps it.
                } else {
                    self.outbox.push((g, Send { name, global, data }));
                }
            }
            Op::BufferTicks | Op::BufferSeconds => {
                let countdown = self.countdown(g, true);
                if let State::Buffer(b) = &mut self.state[g as usize] {
                    if !self.tally.room(b.fires.len(), limits::FIRES) { return Ok(None); } // oracle:
                    b.fires.push_back(countdown);
                }
                return Ok(None);
            }
            Op::Toggle => {
                if let Some(o) = self.graph.gate(g).output("Output") {
                    let on = self.outs[g as usize][o as usize].as_ref().is_some_and(Value::truthy);
                    self.set_out(g, o, Some(Value::Bool(!on)));
                }
            }
            Op::Cycle => {
                let down = self.graph.gate(g).inputs[i as usize].name == "ExecDown";
                let count = self.read_named(g, "Count")?.and_then(|v| v.as_int()).unwrap_or(0);
                if let Some(o) = self.graph.gate(g).output("Output") {
                    let now = self.outs[g as usize][o as usize].as_ref().and_then(Value::as_int).unwrap_or(0);
                    let step = if down { -1 } else { 1 };
                    let next = if count <= 0 { 0 } else { (now + step).rem_euclid(count) };
                    self.set_out(g, o, Some(Value::Int(next)));
                }
                if down {
                    return Ok(self.graph.gate(g).output("ExecOutDown"));
                }
            }
            Op::Stopwatch => {
                let pin = self.graph.gate(g).inputs[i as usize].name.clone();
                if let State::Stopwatch { time, running } = &mut self.state[g as usize] {
                    match pin.as_str() {
                        "Restart" => {
                            *time = 0.0;
                            *running = true;
                        }
                        "Pause" => *running = false,
                        "Resume" => *running = true,
                        _ => {}
                    }
                }
                if pin == "Restart" {
                    self.set_out_named(g, "Time", Some(Value::Float(0.0)));
                }
                return Ok(None);
            }
            Op::Queue { seconds } => {
                let mut record = Vec::with_capacity(8);
                for k in 1..=8 {
                    record.push(self.read_named(g, &format!("DataIn{k}"))?);
                }
                let countdown = if seconds {
                    let wait = self.read_named(g, "SecondsToWait")?.and_then(|v| v.as_float());
                    self.tally.narrow(wait.unwrap_or(0.0)); // oracle:
                    Countdown::Seconds {
                        wait: wait.unwrap_or(0.0) as f32,
                        elapsed: 0.0,
                    }
                } else {
                    let ticks = self.read_named(g, "TicksToWait")?.and_then(|v| v.as_int());
                    Countdown::Ticks(ticks.unwrap_or(0).max(1))
                };
                if let State::Queue(q) = &mut self.state[g as usize]
                    && q.len() < MAX_QUEUE_RECORDS
                {
                    q.push_back((record, countdown));
                }
                return Ok(None);
            }
            Op::Loop(kind) => return self.run_loop(g, kind),
            Op::CallableBreak => self.break_requested = true,
            _ => return Err(self.error(g, "not an exec gate")), // oracle: no world to ask
        }
        let _ = i;
        Ok(exec_out)
    }

    // ---- timers and events ----

    /// The countdown a buffer starts for value `v`.
    fn countdown(&self, g: GateId, rising: bool) -> Countdown {
        let gate = self.graph.gate(g);
        if gate.op == Op::BufferSeconds {
            let wait = gate.field_f64("SecondsToWait").unwrap_or(0.0);
            let zero = gate.field_f64("ZeroSecondsToWait").unwrap_or(-1.0);
            let w = if !rising && zero >= 0.0 { zero } else { wait };
            self.tally.narrow(w); // oracle:
            Countdown::Seconds {
                wait: w as f32,
                elapsed: 0.0,
            }
        } else {
            let ticks = gate.field_i64("TicksToWait").unwrap_or(0);
            let zero = gate.field_i64("ZeroTicksToWait").unwrap_or(-1);
            let t = if !rising && zero >= 0 { zero } else { ticks };
            Countdown::Ticks(t.max(1))
        }
    }

    /// Stopwatches, tweens and dampers take this tick's `dt`.
    fn advance_timers(&mut self) -> Result<(), SimError> {
        let dt = self.dt;
        for g in self.timed.clone() {
            match self.graph.gate(g).op {
                Op::Stopwatch => {
                    let limit = self.read_named(g, "Limit")?.and_then(|v| v.as_float()).unwrap_or(0.0);
                    let State::Stopwatch { time, running } = &mut self.state[g as usize] else { continue };
                    if !*running {
                        continue;
                    }
                    *time += dt;
                    let expired = limit > 0.0 && *time >= limit;
                    if expired {
                        *time = limit;
                        *running = false;
                    }
                    let shown = *time;
                    self.set_out_named(g, "Time", Some(Value::Float(shown)));
                    if expired {
                        self.push_late(g, Activation::Fire);
                    }
                }
                _ => {}
            }
        }
        Ok(())
    }

    /// Detector `g` saw its input change from `prev` to `v`. The first value
    /// it sees seeds it without a pulse (the save's `bSeeded`).
    fn detect(&mut self, g: GateId, d: Detector, prev: Option<&Value>, v: Option<&Value>) {
        let number = |v: Option<&Value>| v.and_then(Value::as_float).unwrap_or(0.0);
        let (was, now) = (number(prev), number(v));
        let side = match d {
            Detector::Change => "bPulseOnChange",
            Detector::Edge if now > was => "bPulseOnRisingEdge",
            Detector::Edge if now < was => "bPulseOnFallingEdge",
            Detector::EdgeExec if now > was => "OnRisingEdge",
            Detector::EdgeExec if now < was => "OnFallingEdge",
            _ => return,
        };
        let Some(o) = self.graph.gate(g).output(side) else {
            return;
        };
        if d == Detector::EdgeExec {
            self.activate(g, Activation::Output(o));
        } else {
            self.set_out(g, o, Some(Value::Bool(true)));
            self.pulses.insert((g, o), self.tick);
        }
    }

    /// A buffer's value input changed to `v`.
    fn buffer_input(&mut self, g: GateId, v: Option<Value>) {
        let rising = v.as_ref().is_some_and(Value::truthy);
        let countdown = self.countdown(g, rising);
        if let State::Buffer(b) = &mut self.state[g as usize] {
            if b.in_flight.is_some() {
                b.has_queued = true;
                b.queued = v;
            } else {
                b.in_flight = Some((v, countdown));
            }
        }
    }

    /// Count every running buffer down by one tick and land what is due.
    fn advance_buffers(&mut self) {
        let dt = self.dt as f32;
        for g in self.timed.clone() {
            if let State::Queue(q) = &mut self.state[g as usize] {
                for (_, c) in q.iter_mut() {
                    tick_down(c, dt);
                }
                // One record a tick, oldest first.
                if q.front().is_some_and(|(_, c)| due(c)) {
                    let (record, _) = q.pop_front().expect("checked above");
                    for (k, v) in record.into_iter().enumerate() {
                        self.set_out_named(g, &format!("DataOut{}", k + 1), v);
                    }
                    self.push_late(g, Activation::Fire);
                }
                continue;
            }
            let State::Buffer(b) = &mut self.state[g as usize] else {
                continue;
            };
            let mut fire = 0;
            for c in &mut b.fires {
                tick_down(c, dt);
            }
            while b.fires.front().is_some_and(due) {
                b.fires.pop_front();
                fire += 1;
            }
            let mut landed = None;
            if let Some((_, c)) = &mut b.in_flight {
                tick_down(c, dt);
                if due(c) {
                    landed = b.in_flight.take().map(|(v, _)| v);
                }
            }
            if let Some(v) = landed {
                let queued = std::mem::take(&mut b.has_queued).then(|| b.queued.take());
                if let Some(o) = self.graph.gate(g).output("Output") {
                    self.set_out(g, o, v);
                }
                if let Some(q) = queued {
                    let rising = q.as_ref().is_some_and(Value::truthy);
                    let c = self.countdown(g, rising);
                    if let State::Buffer(b) = &mut self.state[g as usize] {
                        b.in_flight = Some((q, c));
                    }
                }
            }
            for _ in 0..fire {
                self.push_late(g, Activation::Fire);
            }
        }
    }

    /// Clocks accumulate this tick's `dt` and fire on reaching the interval.
    fn advance_clocks(&mut self) -> Result<(), SimError> {
        let dt = self.dt;
        for g in self.timed.clone() {
            if self.graph.gate(g).op != Op::Clock {
                continue;
            }
            let enabled = self.read_named(g, "bEnabled")?.is_none_or(|v| v.truthy());
            let interval = match self.read_named(g, "IntervalSeconds")? {
                Some(v) => v.as_float().unwrap_or(1.0),
                None => self.graph.gate(g).field_f64("IntervalSeconds").unwrap_or(1.0),
            };
            let State::Clock { elapsed } = &mut self.state[g as usize] else {
                continue;
            };
            if !enabled {
                continue;
            }
            *elapsed += dt;
            // It starts again from zero, dropping the overshoot: 102 fires
            // over 1.28 s of 4 ms ticks at 0.01 s, not 127 (P19b).
            if *elapsed >= interval {
                *elapsed = 0.0;
                self.activate(g, Activation::Fire);
            }
        }
        Ok(())
    }

    /// Deliver last tick's custom events to their receivers.
    fn deliver_events(&mut self) {
        let mut sends = std::mem::take(&mut self.outbox);
        for (_, send) in sends {
            let Some(receivers) = self.receivers.get(&send.name) else {
                continue;
            };
            for &r in &receivers.clone() {
                let global = matches!(self.graph.gate(r).op, Op::EventCustom { global: true });
                if global == send.global {
                    if !self.tally.room(self.late_events.len(), limits::DELIVERED) { return; } // oracle:
                    self.late_events.push_back((r, Activation::Event(send.data.clone())));
                }
            }
        }
    }

    pub(crate) fn error(&self, g: GateId, msg: &str) -> SimError {
        SimError {
            tick: self.tick,
            gate: Some(g),
            message: msg.to_string(),
        }
    }
}

/// The output a pure gate's law gives: `Output`, `Value` or `bOutput`,
/// else its first.
fn value_output(gate: &Gate) -> u16 {
    ["Output", "Value", "bOutput"]
        .iter()
        .find_map(|n| gate.output(n))
        .unwrap_or(0)
}

fn tick_down(c: &mut Countdown, dt: f32) {
    match c {
        Countdown::Ticks(n) => *n -= 1,
        Countdown::Seconds { elapsed, .. } => *elapsed += dt,
    }
}

fn due(c: &Countdown) -> bool {
    match *c {
        Countdown::Ticks(n) => n <= 0,
        Countdown::Seconds { wait, elapsed } => elapsed >= wait,
    }
}

/// What a Set Variable without `bChangeType` stores when `v` is of another
/// kind than the var's `cur`: the game converts to the var's kind (P34c). A
/// float into an int var rounds toward zero (2.7 and 2.5 give 2, -2.7 gives
/// -2), a bool into a number is 0 or 1, a number into a bool is its
/// truthiness, and an int into a string var is its text. Other conversions
/// between these kinds are not measured and stop the run; anything else is
/// stored as given.
fn set_in_kind(cur: Option<&Value>, v: Option<Value>) -> Result<Option<Value>, String> {
    let Some(cur) = cur else { return Ok(v) };
    let Some(v) = v else { return Ok(None) };
    if std::mem::discriminant(cur) == std::mem::discriminant(&v) {
        return Ok(Some(v));
    }
    Ok(Some(match (cur, v) {
        (Value::Float(_), Value::Int(n)) => Value::Float(n as f64),
        (Value::Float(_), Value::Bool(b)) => Value::Float(f64::from(u8::from(b))),
        (Value::Int(_), Value::Float(f)) => Value::Int(f.trunc() as i64),
        (Value::Int(_), Value::Bool(b)) => Value::Int(i64::from(b)),
        (Value::Bool(_), v @ (Value::Int(_) | Value::Float(_))) => Value::Bool(v.truthy()),
        (_, v) => v,
    }))
}
