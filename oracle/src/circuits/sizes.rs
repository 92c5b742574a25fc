//! How large it will get (document 02, K12): the stated circuits, each with so many
//! ticks.

mod asked;
mod bytes;
mod calls;
mod many;
mod rings;
mod starts;
mod told;

use crate::build::*;
use crate::case::Size;
use crate::generate::size as random;

/// How many random ones are stated.
const RANDOM: u64 = 40;

/// Every stated circuit of which both figures are asked.
pub fn sizes() -> Vec<Size> {
    let mut sizes = asked::sizes();
    sizes.extend(calls::sizes());
    sizes.extend(starts::sizes());
    sizes.extend(rings::sizes());
    sizes.extend(many::sizes());
    sizes.extend(bytes::sizes());
    sizes.extend(told::sizes());
    sizes.extend((0..RANDOM).map(random));
    sizes
}

/// A size whose name begins with `size-`.
fn size(name: impl AsRef<str>, shows: impl Into<String>, circuit: &Circuit) -> Size {
    Size::new(format!("size-{}", name.as_ref()), shows, circuit.bytes())
}

/// A World that calls a Toggle: one step, and four outputs.
fn one_call() -> Circuit {
    let mut c = Circuit::new();
    let world = c.world_event(0);
    let toggle = c.toggle(0);
    c.call(world, toggle);
    c
}

/// So many gates of a kind that needs no settings.
fn alike<const N: usize>(c: &mut Circuit, kind: i64) -> [Gate; N] {
    [(); N].map(|()| c.gate(kind, 0))
}

/// So many gates of a kind in a row, each of which calls the next.
fn row(c: &mut Circuit, kind: i64, many: usize) -> Vec<Gate> {
    let gates: Vec<Gate> = (0..many).map(|_| c.gate(kind, 0)).collect();
    c.chain(&gates);
    gates
}

/// A gate of this kind with the settings that it has to have: the variable is a
/// Var of its own, the channel is 0.
fn set_up(c: &mut Circuit, kind: i64) -> Gate {
    let names = inputs_of(kind);
    let var = names.contains(&"S:variable").then(|| c.var(NOTHING));
    let gate = c.gate(kind, 0);
    if let Some(var) = var {
        c.feed(gate.pin("variable"), var.number);
    }
    if names.contains(&"S:channel") {
        c.feed(gate.pin("channel"), 0);
    }
    gate
}

/// The kinds that may be called, but for Loops.
const CALLED: [i64; 15] = [
    REROUTE,
    BUFFER_TICKS_EXEC,
    BUFFER_SECONDS_EXEC,
    STOPWATCH,
    QUEUE_TICKS,
    QUEUE_SECONDS,
    VAR_GET,
    VAR_SET,
    BRANCH,
    UNION,
    TOGGLE,
    CYCLE,
    SEND_EVENT,
    SEND_EVENT_GLOBAL,
    BREAK,
];
