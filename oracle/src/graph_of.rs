//! The source's graph of a circuit.

use crate::circuit::{Circuit, Input};
use crate::fields::{BrdbStruct, BrdbValue};
use crate::graph::{self, Call, Gate, GateId, Graph, Op, Output, Src};
use crate::kinds::{Kind, Port, Setting};
use crate::load::BrickAddr;
use crate::value::Value;

/// Readers go in ascending gate, then input; calls as listed.
pub fn graph_of(circuit: &Circuit) -> Graph {
    let places = circuit.bodies.iter().zip(0..).map(|(&grid, brick)| BrickAddr { grid, brick });
    let mut gates: Vec<Gate> = circuit.kinds.iter().zip(places).map(|(kind, at)| bare(kind, at)).collect();
    for input in &circuit.inputs {
        gates[input.gate].inputs.push(port(circuit, input));
        if let (Port::Set(setting, name), Some(v)) = (input.port, circuit.constant(input.stored)) {
            let data = gates[input.gate].data.get_or_insert_default();
            data.0.extend(field(setting, v).map(|field| (name, field)));
        }
        if let Some(o) = input.source {
            let output = &circuit.outputs[o];
            let reader = (input.gate as GateId, input.own as u16);
            gates[output.gate].outputs[output.own].readers.push(reader);
        }
    }
    for call in &circuit.calls {
        let (from, to) = (&circuit.outputs[call.from], &circuit.inputs[call.to]);
        gates[from.gate].outputs[from.own].calls.push(Call {
            gate: to.gate as GateId,
            input: to.own as u16,
            remote: call.remote,
        });
    }
    let loops = gates.iter().filter(|gate| matches!(gate.op, Op::Loop(_)));
    let chip_grids = loops.map(|gate| (gate.addr, body_of(gate.addr.brick))).collect();
    Graph { gates, chip_grids }
}

/// The number of the body of a Loop.
fn body_of(gate: GateId) -> u32 {
    1 + gate
}

/// A gate with its outputs in its place, nothing wired.
fn bare(kind: &Kind, addr: BrickAddr) -> Gate {
    let output = |port: &Port| Output {
        name: port.name().to_string(),
        exec: port.is_exec(),
        readers: Vec::new(),
        calls: Vec::new(),
    };
    let changes_type = BrdbStruct(vec![("bChangeType", BrdbValue::Bool(true))]);
    Gate {
        op: kind.op,
        addr,
        inputs: Vec::new(),
        outputs: kind.outputs.iter().map(output).collect(),
        data: (kind.op == Op::VarSet).then_some(changes_type),
    }
}

fn port(circuit: &Circuit, input: &Input) -> graph::Input {
    let source = input.source.map(|o| Src {
        gate: circuit.outputs[o].gate as GateId,
        out: circuit.outputs[o].own as u16,
    });
    graph::Input {
        name: input.port.name().to_string(),
        exec_pin: input.port.is_exec(),
        stored: stored(input.port, circuit.constant(input.stored)),
        source,
    }
}

/// What an input holds: a variable is named by reference.
fn stored(port: Port, v: Option<Value>) -> Option<Value> {
    match (port, v) {
        (Port::Set(Setting::Variable, _), Some(Value::Int(n))) => Some(Value::Ref(n as GateId)),
        (_, v) => v,
    }
}

/// A setting as the source's field: a channel is a name.
fn field(setting: Setting, v: Value) -> Option<BrdbValue> {
    match (setting, v) {
        (Setting::Channel, Value::Int(n)) => Some(BrdbValue::String(n.to_string())),
        (Setting::Ticks, Value::Int(n)) => Some(BrdbValue::I64(n)),
        (Setting::Seconds, Value::Float(f)) => Some(BrdbValue::F64(f)),
        _ => None,
    }
}
