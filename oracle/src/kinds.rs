//! The kinds of gate, 28 of document 01 and three of document 02 (K5): what each
//! does in the source, its inputs and its outputs, in the documents' order and
//! under the source's names.

use crate::graph::{Detector, LoopKind, Op};

#[derive(Clone, Copy, Debug, PartialEq, Eq)]
pub enum Port {
    Value(&'static str),
    Exec(&'static str),
    Set(Setting, &'static str),
}

/// What a setting may hold.
#[derive(Clone, Copy, Debug, PartialEq, Eq)]
pub enum Setting {
    /// Anything.
    Initial,
    /// Int or nothing.
    Ticks,
    /// Float or nothing.
    Seconds,
    /// The Int number of a Var.
    Variable,
    /// The Int number of a Loop.
    Loop,
    /// An Int from 0 to 255.
    Channel,
}

#[derive(Debug)]
pub struct Kind {
    pub op: Op,
    pub inputs: &'static [Port],
    pub outputs: &'static [Port],
}

impl Kind {
    /// The kind's number: its place among all, from 1.
    pub fn number(&'static self) -> usize {
        1 + KINDS.iter().position(|kind| std::ptr::eq(kind, self)).expect("every kind has a place")
    }
}

impl Port {
    pub fn name(self) -> &'static str {
        match self {
            Value(name) | Exec(name) | Set(_, name) => name,
        }
    }

    pub fn is_exec(self) -> bool {
        matches!(self, Exec(_))
    }
}

/// The kind of this number, if there is one.
pub fn kind(number: i64) -> Option<&'static Kind> {
    let place = usize::try_from(number).ok()?.checked_sub(1)?;
    KINDS.get(place)
}

use Port::{Exec, Set, Value};
use Setting::{Channel, Initial, Loop, Seconds, Ticks, Variable};

const fn gate(op: Op, inputs: &'static [Port], outputs: &'static [Port]) -> Kind {
    Kind { op, inputs, outputs }
}

static KINDS: [Kind; 31] = [
    gate(Op::Select, &[Value("bSelectB"), Value("InputA"), Value("InputB")], &[Value("Output")]),
    gate(Op::Reroute, &[Value("RER_Input")], &[Value("RER_Output")]),
    gate(Op::DeltaTime, &[], &[Value("Output")]),
    gate(Op::ServerUptime, &[], &[Value("Output")]),
    gate(Op::Var, &[Set(Initial, "Value")], &[Value("Value")]),
    gate(Op::ChangeDetector, &[Value("Input")], &[Exec("OnChanged")]),
    gate(
        Op::Detector(Detector::Edge),
        &[Value("Input")],
        &[Value("bPulseOnRisingEdge"), Value("bPulseOnFallingEdge")],
    ),
    gate(Op::Detector(Detector::Change), &[Value("Input")], &[Value("bPulseOnChange")]),
    gate(
        Op::Detector(Detector::EdgeExec),
        &[Value("Input")],
        &[Exec("OnRisingEdge"), Exec("OnFallingEdge")],
    ),
    gate(
        Op::BufferTicks,
        &[Value("Input"), Set(Ticks, "TicksToWait"), Set(Ticks, "ZeroTicksToWait")],
        &[Value("Output")],
    ),
    gate(
        Op::BufferTicks,
        &[Exec("Input"), Set(Ticks, "TicksToWait"), Set(Ticks, "ZeroTicksToWait")],
        &[Exec("Output")],
    ),
    gate(
        Op::BufferSeconds,
        &[Value("Input"), Set(Seconds, "SecondsToWait"), Set(Seconds, "ZeroSecondsToWait")],
        &[Value("Output")],
    ),
    gate(
        Op::BufferSeconds,
        &[Exec("Input"), Set(Seconds, "SecondsToWait"), Set(Seconds, "ZeroSecondsToWait")],
        &[Exec("Output")],
    ),
    gate(
        Op::Clock,
        &[Value("bEnabled"), Value("IntervalSeconds"), Set(Seconds, "IntervalSeconds")],
        &[Exec("Pulse")],
    ),
    gate(
        Op::Stopwatch,
        &[Exec("Restart"), Exec("Pause"), Exec("Resume"), Value("Limit")],
        &[Value("Time"), Exec("Expired")],
    ),
    gate(Op::Queue { seconds: false }, &QUEUE_TICKS, &DATA_OUT),
    gate(Op::Queue { seconds: true }, &QUEUE_SECONDS, &DATA_OUT),
    gate(
        Op::VarGet,
        &[Exec("Exec"), Set(Variable, "VarRef")],
        &[Exec("ExecOut"), Value("Value")],
    ),
    gate(
        Op::VarSet,
        &[Exec("Exec"), Set(Variable, "VarRef"), Value("Value")],
        &[Exec("ExecOut")],
    ),
    gate(
        Op::Branch,
        &[Exec("Exec"), Value("bCond")],
        &[Exec("ExecOutA"), Exec("ExecOutB")],
    ),
    gate(Op::Union, &[Exec("Exec")], &[Exec("ExecOut")]),
    gate(Op::Toggle, &[Exec("Exec")], &[Exec("ExecOut"), Value("Output")]),
    gate(
        Op::Cycle,
        &[Exec("Exec"), Exec("ExecDown"), Value("Count")],
        &[Exec("ExecOut"), Exec("ExecOutDown"), Value("Output")],
    ),
    gate(Op::SendEvent { global: false }, &SEND, &[Exec("ExecOut")]),
    gate(Op::SendEvent { global: true }, &SEND, &[Exec("ExecOut")]),
    gate(Op::EventCustom { global: false }, &[Set(Channel, "EventName")], &DATA_OUT),
    gate(Op::EventCustom { global: true }, &[Set(Channel, "EventName")], &DATA_OUT),
    gate(Op::WorldEvent, &[], &[Exec("ExecOut"), Value("Value")]),
    gate(
        Op::Loop(LoopKind::CountFor),
        &[Exec("Exec"), Value("Count"), Value("FirstIndex"), Value("Step")],
        &[Exec("Completed"), Value("IterationsExecuted"), Value("bAborted"), Value("bRunning")],
    ),
    gate(Op::CallableEntry, &[Set(Loop, "Loop")], &[Exec("Body"), Value("Index")]),
    gate(Op::CallableBreak, &[Exec("Exec")], &[Exec("ExecOut")]),
];

static QUEUE_TICKS: [Port; 10] = [
    Exec("Exec"),
    Value("DataIn1"),
    Value("DataIn2"),
    Value("DataIn3"),
    Value("DataIn4"),
    Value("DataIn5"),
    Value("DataIn6"),
    Value("DataIn7"),
    Value("DataIn8"),
    Value("TicksToWait"),
];

static QUEUE_SECONDS: [Port; 10] = [
    Exec("Exec"),
    Value("DataIn1"),
    Value("DataIn2"),
    Value("DataIn3"),
    Value("DataIn4"),
    Value("DataIn5"),
    Value("DataIn6"),
    Value("DataIn7"),
    Value("DataIn8"),
    Value("SecondsToWait"),
];

static SEND: [Port; 10] = [
    Exec("Exec"),
    Set(Channel, "EventName"),
    Value("DataIn1"),
    Value("DataIn2"),
    Value("DataIn3"),
    Value("DataIn4"),
    Value("DataIn5"),
    Value("DataIn6"),
    Value("DataIn7"),
    Value("DataIn8"),
];

static DATA_OUT: [Port; 9] = [
    Exec("ExecOut"),
    Value("DataOut1"),
    Value("DataOut2"),
    Value("DataOut3"),
    Value("DataOut4"),
    Value("DataOut5"),
    Value("DataOut6"),
    Value("DataOut7"),
    Value("DataOut8"),
];
