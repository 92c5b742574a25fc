//! The start of document 01 with document 02's K2, in place of `Machine::new`
//! and its `start`.

use std::collections::{BTreeMap, VecDeque};

use super::callable::callables;
use super::limits::Tally;
use super::{Buffer, Machine, State};
use crate::collections::{HashMap, HashSet};
use crate::graph::{Gate, GateId, Graph, Op};
use crate::world::World;
use crate::{Dt, SimOptions};

impl Machine {
    /// `graph` before its first tick, with the rank of each gate and the
    /// length of each tick.
    pub fn at_start(graph: Graph, rank: Vec<u32>, lengths: &[f64], world: Box<dyn World>) -> Self {
        let mut m = Self {
            outs: graph.gates.iter().map(|g| vec![None; g.outputs.len()]).collect(),
            dirty: graph.gates.iter().map(|g| g.op.is_pure()).collect(),
            state: graph.gates.iter().map(first_state).collect(),
            receivers: receivers(&graph),
            timed: gates_where(&graph, is_timed),
            time_sources: gates_where(&graph, is_time_source),
            callables: callables(&graph),
            grid_parent: graph.chip_grids.iter().map(|(addr, &grid)| (grid, addr.grid)).collect(),
            graph,
            world,
            opts: SimOptions { dt: Dt::Schedule([&[0.0], lengths].concat()) },
            tick: 0,
            dt: 0.0,
            uptime: 0.0,
            last: HashMap::default(),
            to_check: VecDeque::new(),
            queued_check: HashSet::default(),
            rank,
            pending: BTreeMap::new(),
            late: BTreeMap::new(),
            late_events: VecDeque::new(),
            in_late: false,
            stale: Vec::new(),
            carried: Vec::new(),
            cursor: None,
            forks: VecDeque::new(),
            written: Vec::new(),
            written_set: HashSet::default(),
            written_in_plane: HashSet::default(),
            written_outside: HashSet::default(),
            late_checks: HashSet::default(),
            marking_late: false,
            outbox: Vec::new(),
            steps: 0,
            total_steps: 0,
            total_evals: 0,
            invocations: 0,
            depth: 0,
            break_requested: false,
            planes: Vec::new(),
            unions_passed: vec![HashSet::default()],
            pulses: HashMap::default(),
            tally: Tally::default(),
        };
        m.freshen();
        m.queue_watched();
        m
    }

    /// Work out every pure gate.
    fn freshen(&mut self) {
        for g in 0..self.graph.gates.len() as GateId {
            if self.dirty[g as usize] {
                self.refresh(g).expect("question 6 leaves no cycle");
            }
        }
    }

    /// Queue every watched input for checking; `last` stays empty.
    fn queue_watched(&mut self) {
        for g in 0..self.graph.gates.len() as GateId {
            for i in 0..self.graph.gate(g).inputs.len() as u16 {
                if self.is_watched(g, i) {
                    self.queued_check.insert((g, i));
                    self.to_check.push_back((g, i));
                }
            }
        }
    }
}

fn first_state(gate: &Gate) -> State {
    match gate.op {
        Op::Var => State::Var(gate.inputs[0].stored.clone()),
        Op::BufferTicks | Op::BufferSeconds => State::Buffer(Box::new(Buffer {
            exec_mode: gate.outputs[0].exec,
            ..Buffer::default()
        })),
        Op::Clock => State::Clock { elapsed: 0.0 },
        Op::Queue { .. } => State::Queue(VecDeque::new()),
        Op::Stopwatch => State::Stopwatch { time: 0.0, running: false },
        _ => State::None,
    }
}

fn is_timed(op: Op) -> bool {
    matches!(op, Op::BufferTicks | Op::BufferSeconds | Op::Clock | Op::Stopwatch | Op::Queue { .. })
}

fn is_time_source(op: Op) -> bool {
    matches!(op, Op::DeltaTime | Op::ServerUptime)
}

/// The gates `chosen` by what they do, ascending.
fn gates_where(graph: &Graph, chosen: fn(Op) -> bool) -> Vec<GateId> {
    (0..graph.gates.len() as GateId).filter(|&g| chosen(graph.gate(g).op)).collect()
}

/// The event gates of each channel, ascending.
fn receivers(graph: &Graph) -> HashMap<String, Vec<GateId>> {
    let mut receivers: HashMap<String, Vec<GateId>> = HashMap::default();
    for (g, gate) in graph.gates.iter().enumerate() {
        if let Op::EventCustom { .. } = gate.op
            && let Some(name) = gate.field_str("EventName")
        {
            receivers.entry(name).or_default().push(g as GateId);
        }
    }
    receivers
}
