//! Callable planes: a function definition, run by a Function Call, and a loop
//! plane, run by its shell's Exec pin. Either runs its body synchronously,
//! inside the chain that called it, from the plane's `CallableEntry` gate.
//!
//! Every run of a body (one call, one loop iteration) is an invocation. The
//! game allows 100,000 invocations per tick and then aborts the callable with
//! code 7; the simulator aborts at the invocation that would pass the cap.

use super::Machine;
use crate::SimError;
use crate::collections::{HashMap, HashSet};
use crate::graph::{GateId, Graph, LoopKind, Op};
use crate::value::Value;

/// Invocations the game runs per tick before it aborts a callable.
pub(super) const MAX_INVOCATIONS_PER_TICK: u64 = 100_000;
/// Callables nested inside one another. The game's `MaxCallableDepth` is
/// server-configured; this bound only stops a runaway recursion.
const MAX_DEPTH: u32 = 256;

/// A callable plane: where its body starts, and its parameter and result
/// gates by port order.
#[derive(Clone, Debug)]
pub(super) struct Callable {
    pub(super) entry: GateId,
}

/// Every callable plane of `graph`, by its shell gate.
pub(super) fn callables(graph: &Graph) -> HashMap<GateId, Callable> {
    let mut by_grid: HashMap<u32, Vec<GateId>> = HashMap::default();
    for (i, g) in graph.gates.iter().enumerate() {
        by_grid.entry(g.addr.grid).or_default().push(i as GateId);
    }
    let mut out = HashMap::default();
    for (i, shell) in graph.gates.iter().enumerate() {
        if !matches!(shell.op, Op::Loop(_)) { // oracle: without functions
            continue;
        }
        let Some(grid) = graph.chip_grids.get(&shell.addr) else {
            continue;
        };
        let inside = by_grid.get(grid).map(Vec::as_slice).unwrap_or_default();
        let Some(&entry) = inside
            .iter()
            .find(|&&g| graph.gate(g).op == Op::CallableEntry)
        else {
            continue;
        };
        out.insert(
            i as GateId,
            Callable {
                entry,
            },
        );
    }
    out
}

impl Machine {
    fn callable(&self, g: GateId, shell: GateId) -> Result<Callable, SimError> {
        self.callables
            .get(&shell)
            .cloned()
            .ok_or_else(|| self.error(g, "the callable plane has no entry gate"))
    }

    /// Count one invocation; `false` when it passes the tick's cap.
    fn begin_invocation(&mut self) -> bool {
        self.invocations += 1;
        self.invocations <= MAX_INVOCATIONS_PER_TICK
    }

    /// Run the body of `c` once, starting from its entry's `Body`.
    fn run_body(&mut self, g: GateId, c: &Callable) -> Result<(), SimError> {
        if self.depth >= MAX_DEPTH {
            return Err(self.error(g, "callables nested too deeply"));
        }
        let Some(body) = self.graph.gate(c.entry).output("Body") else {
            return Ok(());
        };
        self.depth += 1;
        self.planes.push(self.graph.gate(c.entry).addr.grid);
        self.unions_passed.push(HashSet::default());
        let result = self.fire_chain(c.entry, body);
        self.unions_passed.pop();
        self.planes.pop();
        self.depth -= 1;
        result
    }

    pub(super) fn run_loop(&mut self, g: GateId, kind: LoopKind) -> Result<Option<u16>, SimError> {
        if self.graph.gate(g).field_bool("bRunAcrossTicks") == Some(true) {
            return Err(self.error(g, "a loop that runs across ticks is not modeled"));
        }
        let c = self.callable(g, g)?;
        let (first, step, count) = match kind {
            LoopKind::CountFor => {
                let count = self.read_named(g, "Count")?.and_then(|v| v.as_int()).unwrap_or(0);
                let first = self.read_named(g, "FirstIndex")?.and_then(|v| v.as_int()).unwrap_or(0);
                let step = self.read_named(g, "Step")?.and_then(|v| v.as_int()).unwrap_or(1);
                (first, step, count.max(0))
            }
        };
        let saved_break = std::mem::take(&mut self.break_requested);
        let mut done: i64 = 0;
        let mut aborted = false;
        loop {
            let more = match kind {
                LoopKind::CountFor => done < count,
            };
            if !more {
                break;
            }
            if !self.begin_invocation() {
                aborted = true;
                break;
            }
            match kind {
                LoopKind::CountFor => {
                    let index = first.wrapping_add(done.wrapping_mul(step));
                    self.set_out_named(c.entry, "Index", Some(Value::Int(index)));
                }
            }
            self.run_body(g, &c)?;
            done += 1;
            if std::mem::take(&mut self.break_requested) {
                break;
            }
        }
        self.break_requested = saved_break;
        self.set_out_named(g, "IterationsExecuted", Some(Value::Int(done)));
        self.set_out_named(g, "bAborted", Some(Value::Bool(aborted)));
        self.set_out_named(g, "bRunning", Some(Value::Bool(false)));
        Ok(self.graph.gate(g).output("Completed"))
    }
}
